"""What a term of a page or of a ghost member comes to: the octets of an encoding, by X.690."""

from __future__ import annotations

import re
from typing import Union

from ..writer.names import TAGS

NUMBERS = {name: number for number, name in TAGS.items()}
CLASSES = {"application": 1, "context": 2, "private": 3}
Tag = tuple[int, bool, int]  # the class, whether it is constructed, the number
Tree = Union[str, list["Tree"]]


def octets_of(term: str) -> bytes:
    """The octets that a term comes to."""
    found = octets(tree(re.findall(r"[()]|[^\s()]+", f"({term})")))
    assert isinstance(found, bytes)
    return found


def tree(tokens: list[str]) -> Tree:
    """The next word, or the next group in parentheses."""
    token = tokens.pop(0)
    if token != "(":
        return token
    group: list[Tree] = []
    while tokens[0] != ")":
        group.append(tree(tokens))
    tokens.pop(0)
    return group[0] if len(group) == 1 else group


def octets(term: Tree) -> bytes:
    """The octets of a term: an encoding, contents octets, or a list."""
    if term == "[]":
        return b""
    assert isinstance(term, list)
    if "∷" in term:
        return b"".join(bytes([int(one)]) if isinstance(one, str) else octets(one) for one in term[:-1] if one != "∷")
    head = term[0]
    if head == "tlv":
        contents = octets(term[2])
        return identifier(tag(term[1])) + bytes([len(contents)]) + contents
    if head == "joined":
        return octets(term[1])
    if head == "boolean_contents":
        return b"\xff" if term[1] == "true" else b"\x00"
    assert head in ("natural_contents", "integer_contents")
    return fewest(whole(term[1]))


def whole(term: Tree) -> int:
    """A number: `n`, `pos n` or `negsuc n`."""
    if isinstance(term, str):
        return int(term)
    assert isinstance(term[1], str)
    return int(term[1]) if term[0] == "pos" else -int(term[1]) - 1


def fewest(number: int) -> bytes:
    """The two's complement in the fewest octets, which are found by trying."""
    count = next(n for n in range(1, 200) if -(1 << 8 * n - 1) <= number < 1 << 8 * n - 1)
    return number.to_bytes(count, "big", signed=True)


def tag(term: Tree) -> Tag:
    """A tag."""
    if isinstance(term, str):
        number = NUMBERS[term[len("tags.") :]]
        return 0, number in (16, 17), number
    assert term[0] == "marker_tag" and isinstance(term[1], str) and isinstance(term[3], str)
    constructed = tag(term[2][1])[1] if isinstance(term[2], list) else term[2] == "true"
    return CLASSES[term[1]], constructed, int(term[3])


def identifier(found: Tag) -> bytes:
    """The identifier octets (X.690 8.1.2), of numbers below 16384."""
    tag_class, constructed, number = found
    first = tag_class << 6 | constructed << 5
    if number < 31:
        return bytes([first | number])
    return bytes([first | 31]) + bytes([0x80 | number >> 7] if number > 127 else []) + bytes([number & 127])
