"""The two tables, as they are read."""
