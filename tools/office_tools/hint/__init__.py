"""Hints mailed by a member of the release team: looked at, tried, and taken back item by item."""
