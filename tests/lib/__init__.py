"""What the scripts of tests/ share."""

import os

TESTS = os.path.dirname(os.path.dirname(os.path.abspath(__file__)))
ROOT = os.path.dirname(TESTS)


def text_of(path):
    """The text of a file, which is named by its path or from the top of the repository."""
    with open(os.path.join(ROOT, path), encoding="utf-8") as file:
        return file.read()
