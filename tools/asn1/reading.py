"""The text of a file: UTF-8, with or without a byte order mark. Comments may have other octets, which are U+FFFD where they are quoted."""

from __future__ import annotations

import codecs
import re
from pathlib import Path

from .errors import AsnError, Place

OTHER = re.compile("[\udc80-\udcff]")  # what an octet becomes that is no UTF-8


def text_of_file(path: Path) -> str:
    """The characters of a file, with its lines ended alike."""
    return text_of(path.read_bytes())


def text_of(octets: bytes) -> str:
    """The characters of these octets."""
    octets = octets[len(codecs.BOM_UTF8) :] if octets.startswith(codecs.BOM_UTF8) else octets
    text = octets.decode("utf-8", errors="surrogateescape")
    return text.replace("\r\n", "\n").replace("\r", "\n")


def check_characters(text: str, place: Place) -> None:
    """An error where an octet that is no UTF-8 stands in an item, which begins at this place."""
    found = OTHER.search(text)
    if found:
        problem = f"the octet {ord(found.group()) - 0xDC00:02X} is no UTF-8 here"
        raise AsnError(place, problem, "save the file as UTF-8, or leave the character out")


def quotable(text: str) -> str:
    """A text with U+FFFD for each octet that is no UTF-8."""
    return OTHER.sub("\ufffd", text)
