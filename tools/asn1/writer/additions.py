"""What a struct has of the elements that `@skip` keeps after its fields (X.680 7, 25)."""

from __future__ import annotations

from ..model import Presence, Struct
from . import docs
from .fields import AT_ONCE, TAIL, place_after
from .source import Source

TYPE = "Additions<'a>"
KEPT = "Elements after these are kept, not looked at, and written as they came."
TOLD = (
    "A field that may be absent is told from what follows by its tag: where it is absent, and the elements kept begin with its "
    "tag, what is written is read as another value."
)


def words(struct: Struct) -> list[str]:
    """What the documentation of the type says of them."""
    if not struct.has_additions:
        return []
    last = struct.fields[-1:]
    return [KEPT, TOLD] if last and last[0].presence is not Presence.ALWAYS else [KEPT]


def end_type(source: Source, struct: Struct) -> str:
    """The type of what stands after the last field, where that is not the end."""
    return f"{source.use('Additions')}<'a>" if struct.has_additions else ""


def copied(source: Source, struct: Struct) -> str:
    """What `new` puts after the last field."""
    return f"{source.use('copy_of')}(additions)" if struct.has_additions else ""


def place(struct: Struct) -> tuple[str, str]:
    """Where they stand: in the part of the list that has the last field, which is named first where it is a tail."""
    count = len(struct.fields)
    if count <= AT_ONCE:
        return "", f"self.fields{place_after(count)}"
    parts = (count - 1) // AT_ONCE
    lets = f"let tail = &self.fields{TAIL * parts};\n        "
    return lets, f"tail{place_after(count)[len(TAIL * parts) :]}"


def call(source: Source, struct: Struct, of: str) -> str:
    """The call that gives them; `of` is the page of the struct's fields."""
    source.use("Additions")
    lets, where = place(struct)
    head = docs.doc("The elements after the fields, which the module does not have (X.680 7), as they came.", indent="    ")
    return (
        f"{head}\n    pub fn additions(&self) -> &{TYPE}\n"
        f"        ensures {{ result.now ≡ {of}.additions self.now }}\n    {{\n        {lets}&{where}\n    }}"
    )
