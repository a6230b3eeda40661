"""Mail to the maintainers of the sources that a run moved."""
