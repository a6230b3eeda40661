"""Brings the mail that one office keeps to other offices, or into a bag."""
