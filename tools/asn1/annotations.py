"""The names of the annotations, and which comments are meant as some."""

from __future__ import annotations

import difflib
import re

WIDTHS = tuple(f"{sign}{width}" for sign in "ui" for width in (8, 16, 32, 64, 128))
NAMES = ("owned", "signed", "unsigned", *WIDTHS, "max", "any_order", "fraction", "unchecked", "unread", "skip", "name", "type", "omit", "rust")
# Those that name an assignment, or say that it is not written.
NAMED_BY = ("name", "rust", "omit")
ANNOTATION = re.compile(r"@([A-Za-z][A-Za-z0-9_-]*)(?:\(([^()]*)\))?")
# How alike a word and an annotation are that it is taken for: '@ownd' is meant as '@owned', and '@see' as none.
ALIKE = 0.75


def nearest(name: str) -> str | None:
    """The annotation that a name is, or is a misspelling of."""
    close = difflib.get_close_matches(name, NAMES, 1, ALIKE)
    return close[0] if close else None


def is_annotations(comment: str) -> bool:
    """Whether the text of a comment is meant as annotations: it has their form alone, or begins with one, perhaps misspelt."""
    found = ANNOTATION.match(comment.strip())
    return found is not None and (not ANNOTATION.sub("", comment).strip() or nearest(found.group(1)) is not None)
