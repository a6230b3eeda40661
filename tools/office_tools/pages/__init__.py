"""The command `office-pages`: static pages and JSON of the reports of all runs of an office."""
