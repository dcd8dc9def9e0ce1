"""The list of what is written where: a line a crate, as `der_ocsp: ocsp=OCSP.asn1`; as `der_pkix given: name=name.asn1` of one
that is there, and is read alone; as `der_places places: der_ocsp` of one that has where the fields of others' types stand; as
`certview_text parts: der_ocsp` of one that has what their octets are made of; and as `der_fields lists:` of the one that has
the lists of one to eight fields."""

from __future__ import annotations

import re
from dataclasses import dataclass
from pathlib import Path

from .errors import AsnError, Place

LINE = re.compile(r"([a-z][a-z0-9_]*)(\s+given)?:((?:\s+(?:[a-z][a-z0-9_]*=)?[^\s=]+)+)\s*")
OF_LISTS = re.compile(r"([a-z][a-z0-9_]*)\s+lists:")
OF_OTHERS = re.compile(r"([a-z][a-z0-9_]*)\s+(places|parts):((?:\s+[a-z][a-z0-9_]*)+)")


@dataclass(frozen=True)
class Entry:
    """A module of a crate, and the file of the module of ASN.1 that it is made from.

    A module of ASN.1 that assigns nothing, and hands on what it imports, has no module in the crate: its name is empty.
    The files of a crate that is given are there: its modules are read, so that others may import from them.
    """

    crate: str
    module: str
    file: Path
    is_given: bool = False


def lines_of(path: Path) -> list[tuple[int, str]]:
    """The lines of a list that say something, with their numbers."""
    lines = enumerate(path.read_text(encoding="utf-8").split("\n"), 1)
    return [(number, text) for number, line in lines if (text := line.split("#")[0].rstrip())]


def places_of(path: Path) -> dict[str, list[str]]:
    """The crates that have places, and each crate of whose types."""
    return of_others(path, "places")


def parts_of(path: Path) -> dict[str, list[str]]:
    """The crates that have parts, and each crate of whose types."""
    return of_others(path, "parts")


def lists_of(path: Path) -> list[str]:
    """The crates that have the lists of fields."""
    return [found.group(1) for _, text in lines_of(path) if (found := OF_LISTS.fullmatch(text))]


def of_others(path: Path, word: str) -> dict[str, list[str]]:
    """The crates of the lines with this word, and the crates that each line names."""
    parsed = [OF_OTHERS.fullmatch(text) for _, text in lines_of(path)]
    return {found.group(1): found.group(3).split() for found in parsed if found and found.group(2) == word}


def entries_of(path: Path) -> list[Entry]:
    """The entries of a list; files are named from the folder that it stands in."""
    found: list[Entry] = []
    for number, text in lines_of(path):
        if OF_OTHERS.fullmatch(text) or OF_LISTS.fullmatch(text):
            continue
        parsed = LINE.fullmatch(text)
        if parsed is None:
            raise AsnError(
                Place(str(path), number, 1),
                "this line names no crate and its modules",
                "write 'crate: module=file.asn1 ..', or 'crate given: module=file.asn1 ..' of one that is there",
            )
        crate, is_given = parsed.group(1), parsed.group(2) is not None
        check_kind(found, crate, is_given, Place(str(path), number, 1))
        for pair in parsed.group(3).split():
            module, _, file = pair.rpartition("=")
            found.append(Entry(crate, module, path.parent / file, is_given))
    return found


def check_kind(found: list[Entry], crate: str, is_given: bool, place: Place) -> None:
    """A crate is given or written, and not both."""
    if any(entry.crate == crate and entry.is_given != is_given for entry in found):
        raise AsnError(
            place,
            f"the crate '{crate}' is given by one line, and written by another",
            f"write '{crate} given:' in both where its files are there, '{crate}:' where they are to be written",
        )
