"""The table of calls on docs/C.md."""

from __future__ import annotations

from ..names import source, with_article
from ..tables.structs import Struct

HEAD = ["| Call | Reads | Returned places; other results |", "|---|---|---|"]


def calls(found: list[Struct]) -> list[str]:
    return [*HEAD, *[row(struct) for struct in found if not struct.is_inner]]


def inner_calls(found: list[Struct]) -> list[str]:
    """The calls for messages within others, as one sentence."""
    parts = [names(struct) for struct in found if struct.is_inner]
    return [", ".join(parts) + "."] if parts else []


def names(struct: Struct) -> str:
    return f"`der_{struct.name}`" + (f", `{struct.next.name}`" if struct.next else "")


def row(struct: Struct) -> str:
    what = f"the {struct.noun} at the front" if struct.is_front else with_article(struct.noun)
    results = f"; {struct.results}" if struct.results else ""
    return f"| {names(struct)} | {what} {source(struct)} | {places(struct)}{results} |"


def places(struct: Struct) -> str:
    """How many fields have a place: 'the whole and 3 fields', '3 fields and 10 of `tbsCertificate`'."""
    parts = []
    for group in struct.groups:
        if group.type == "Place":
            parts.append("the whole")
        elif group.within:
            parts.append(f"{len(group.fields)} of `{group.within}`")
        elif group.member != "numbers":
            parts.append(f"{len(group.fields)} fields")
    return ", ".join(parts[:-1]) + " and " * (len(parts) > 1) + parts[-1]
