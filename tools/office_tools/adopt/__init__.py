"""office-adopt: an archive's testing as it is becomes the first run of an office."""
