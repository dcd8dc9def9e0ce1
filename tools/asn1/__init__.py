"""A compiler from ASN.1 modules (X.680) to Rattle."""
