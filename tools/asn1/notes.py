"""The annotations: what ASN.1 leaves open, said in a comment after a component or an assignment."""

from __future__ import annotations

import re

from .annotations import NAMES, WIDTHS, nearest
from .errors import AsnError
from .lexer import Annotation

# Every annotation, with the form of its argument (None where it has none) and what it says.
KNOWN: dict[str, tuple[str | None, str]] = {
    "owned": (None, "the value owns its octets"),
    "signed": (None, "an INTEGER of any length"),
    "unsigned": (None, "an INTEGER of any length that is not negative"),
    **{width: (None, f"an INTEGER as {width}") for width in WIDTHS},
    "max": (r"[1-9][0-9]*", "how many contents octets an OBJECT IDENTIFIER may have"),
    "fraction": (None, "a GeneralizedTime may have a fraction of a second"),
    "any_order": (None, "the items of a SET OF stand in the order in which they came"),
    "unchecked": (None, "the values that a constraint excludes are read"),
    "unread": (None, "it is not read, and its octets are kept"),
    "skip": (None, "elements that the module does not have are kept, after a SEQUENCE's '...'"),
    "name": (r"[A-Za-z][A-Za-z0-9_]*", "its name in Rattle"),
    "type": (r"[A-Z][A-Za-z0-9]*", "the name in Rattle of the type that is written out here"),
    "omit": (None, "it is not written"),
    "rust": (r"[a-z][a-z0-9_]*(::[a-z][a-z0-9_]*)*::[A-Z][A-Za-z0-9]*", "the type that a crate has for it, by its file"),
}


class Notes:
    """The annotations of one thing, each of which has to be of use."""

    def __init__(self, annotations: tuple[Annotation, ...] = ()) -> None:
        self.given: dict[str, Annotation] = {}
        self.used: set[str] = set()
        for annotation in annotations:
            check(annotation)
            if annotation.name in self.given:
                raise AsnError(annotation.place, f"'@{annotation.name}' stands twice", "leave one out")
            self.given[annotation.name] = annotation

    def has(self, name: str) -> bool:
        """Whether an annotation is there, which then is of use."""
        if name in self.given:
            self.used.add(name)
        return name in self.given

    def argument(self, name: str) -> str | None:
        """The argument of an annotation, if that is there."""
        return self.given[name].argument if self.has(name) else None

    def one_of(self, names: list[str]) -> str | None:
        """The one of these that is there."""
        found = [name for name in names if self.has(name)]
        if len(found) > 1:
            place = self.given[found[1]].place
            raise AsnError(place, f"'@{found[0]}' and '@{found[1]}' say two things", "leave one out")
        return found[0] if found else None

    def check_used(self, what: str) -> None:
        """An annotation that says nothing here is an error."""
        for name, annotation in self.given.items():
            if name not in self.used:
                raise AsnError(
                    annotation.place,
                    f"'@{name}' says nothing of {what}",
                    f"leave it out: it says {KNOWN[name][1]}",
                )


def check(annotation: Annotation) -> None:
    """An annotation is known, and has an argument where it wants one."""
    if annotation.name not in KNOWN:
        close = nearest(annotation.name)
        known = f"did you mean '@{close}'?" if close else "the annotations are " + ", ".join("@" + name for name in NAMES)
        raise AsnError(annotation.place, f"there is no annotation '@{annotation.name}'", known)
    form, says = KNOWN[annotation.name]
    if form is None and annotation.argument is not None:
        raise AsnError(annotation.place, f"'@{annotation.name}' has no argument", f"write '@{annotation.name}'")
    if form is not None and not re.fullmatch(form, annotation.argument or ""):
        instead = f"write '@{annotation.name}(..)': {says}"
        raise AsnError(annotation.place, f"'@{annotation.name}' wants an argument", instead)
