"""A list within a source: where it begins and ends, and what an entry looks like."""

from __future__ import annotations

import re
from dataclasses import dataclass
from itertools import zip_longest

from ..errors import Difference

Entry = tuple[str, ...]


@dataclass(frozen=True)
class Listing:
    """A list by three patterns. The groups of `entry` are the words of an entry; nothing but entries and space is in the list."""

    what: str
    begin: str
    entry: str
    end: str


@dataclass(frozen=True)
class Found:
    """The entries of a list, each with the line of its last word, and the line at which the list ends."""

    entries: list[tuple[int, Entry]]
    last_line: int


def find(file: str, text: str, listing: Listing) -> Found | Difference:
    """The entries of a list in a source."""
    begins = list(re.finditer(listing.begin, text, re.M))
    if len(begins) != 1:
        return Difference(file, 1, f"{listing.what} is there {len(begins)} times")
    start = begins[0].end()
    end = re.compile(listing.end, re.M).search(text, start)
    if end is None:
        return Difference(file, line_at(text, start), f"{listing.what} has no end")
    entries, at = [], start
    for entry in re.compile(listing.entry, re.M).finditer(text, start, end.start()):
        if text[at : entry.start()].strip():
            break
        entries.append((line_at(text, entry.end()), words_of(entry)))
        at = entry.end()
    rest = text[at : end.start()]
    if rest.strip():
        return Difference(file, line_at(text, at + len(rest) - len(rest.lstrip())), f"{listing.what} has a line that is no entry")
    return Found(entries, line_at(text, end.start() + 1))


def words_of(entry: re.Match[str]) -> Entry:
    """The words of an entry; of documentation, its lines as one."""
    return tuple(re.sub(r"\s*/// ", " ", word).strip() for word in entry.groups())


def line_at(text: str, at: int) -> int:
    return text.count("\n", 0, at) + 1


def compare(file: str, text: str, listing: Listing, expected: list[Entry]) -> list[Difference]:
    """The first entry of a list that is not the expected one."""
    found = find(file, text, listing)
    if isinstance(found, Difference):
        return [found]
    for there, entry in zip_longest(found.entries, expected):
        line = there[0] if there else found.last_line
        if there is None or there[1] != entry:
            has = f"has {shown(there[1])}" if there else "ends"
            return [Difference(file, line, f"{listing.what} {has}, and the table {f'has {shown(entry)}' if entry else 'ends'}")]
    return []


def shown(entry: Entry) -> str:
    return "'" + " ".join(entry) + "'"
