"""The calls of der.h that write messages."""

from __future__ import annotations

from ..names import struct_in_c
from ..tables.structs import Struct


def checked_calls(found: list[Struct]) -> list[str]:
    """The calls that refuse a null pointer, by a macro of c/checked.c."""
    return [f"WRITES({writing.name}, {struct_in_c(struct)})" for struct in found for writing in struct.writings]
