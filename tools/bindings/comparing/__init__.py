"""What is compared with the tables and never written: the lists of the proved crates."""
