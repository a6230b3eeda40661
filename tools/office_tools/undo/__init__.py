"""A way back from a slip: an office without the drops and removal hints of a feed, in place of the other one."""
