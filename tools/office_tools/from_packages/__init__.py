"""office-from-packages: a setup and a bag for the office from the indexes of an archive."""
