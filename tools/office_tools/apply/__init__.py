"""office-apply: makes a suite of an archive what the office's testing says."""
