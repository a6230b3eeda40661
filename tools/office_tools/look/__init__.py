"""office-look: judges the testing that the next order would make, and blocks what can't be installed there."""
