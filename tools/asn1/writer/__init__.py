"""The writer: from what the resolver says to the sources of a crate in Rattle."""
