"""The questions of the program `office`, put to a running office."""
