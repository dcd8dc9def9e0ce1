"""Writes the lists of rules, of steps and of structs in C, Rust, Go and Python from the tables of asn1."""
