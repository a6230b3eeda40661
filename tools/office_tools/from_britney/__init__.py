"""office-from-britney: an office for an archive that britney runs, and what the two decide otherwise."""
