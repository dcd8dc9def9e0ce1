"""What tests/corpus.py is made of: messages of Debian's packages, and what other readers say of them."""
