"""Tests of tools/bindings: `python3 -m unittest discover -q -s tools/bindings/tests -t tools`."""
