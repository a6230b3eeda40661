"""Release-critical bugs from the lists of a bug tracker, as mail of an office's sender of bugs."""
