"""Identifiers and attributes of names as text, for repr()."""

from __future__ import annotations

# By the contents octets of the type (RFC 4514 section 3).
SHORT_NAMES = {
    b"U\x04\x03": "CN", b"U\x04\x07": "L", b"U\x04\x08": "ST", b"U\x04\x0a": "O", b"U\x04\x0b": "OU", b"U\x04\x06": "C",
    b"U\x04\x09": "STREET", b"\x09\x92\x26\x89\x93\xf2\x2c\x64\x01\x19": "DC", b"\x09\x92\x26\x89\x93\xf2\x2c\x64\x01\x01": "UID",
}
# By the tag of the value (X.680 41).
ENCODINGS = {0x0C: "utf-8", 0x12: "ascii", 0x13: "ascii", 0x14: "latin-1", 0x16: "ascii", 0x1C: "utf-32-be", 0x1E: "utf-16-be"}


def dotted(identifier: bytes) -> str:
    """An OBJECT IDENTIFIER with dots, of its contents octets (X.690 8.19)."""
    arcs, arc = [], 0
    for octet in identifier:
        arc = arc << 7 | octet & 0x7F
        if octet < 0x80:
            arcs.append(arc)
            arc = 0
    if not arcs:
        return ""
    first = min(arcs[0] // 40, 2)
    return ".".join(map(str, [first, arcs[0] - 40 * first, *arcs[1:]]))


def type_text(identifier: bytes) -> str:
    """The short name of an attribute's type, else its identifier with dots."""
    return SHORT_NAMES.get(identifier) or dotted(identifier)


def value_text(tag: int, contents: bytes) -> str:
    """A string as text; another value as the hex of its contents octets after '#'."""
    try:
        return contents.decode(ENCODINGS[tag])
    except (KeyError, UnicodeDecodeError):
        return f"#{contents.hex()}"
