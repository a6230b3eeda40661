"""office-feed: sends a running office what is new in an archive's unstable, and orders a run."""
