"""Results of autopkgtests as bugs of the versions that they fail with, as mail of an office's sender of bugs."""
