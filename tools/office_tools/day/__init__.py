"""office-day: a day of an archive that the office runs, as one command."""
