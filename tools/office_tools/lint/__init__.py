"""What the office would answer to messages that aren't mailed yet, and what in them is most likely a slip."""
