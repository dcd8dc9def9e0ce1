"""Files that OpenSSL's program writes, of all kinds that certview shows. A seed makes the choices, so that each run makes the
same files but for keys, signatures and the present time."""
