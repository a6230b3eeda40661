"""The tools around the program `office`: each command is a module with `main(words) -> int`."""
