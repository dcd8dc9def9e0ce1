"""A list of fields as the library has it, and the way to each field."""

from __future__ import annotations

from dataclasses import dataclass

from ..model import Alias, Field, Listed, Presence, Resolved, Struct, Use
from ..properties import properties_of
from .source import Source
from .types import field_type, is_copy, plain, rust_type, way

AT_ONCE = 8  # the longest list that the library reads in one step
TAIL = ".list" + ".rest" * AT_ONCE  # where the fields after those stand

# What the calls name within them, and 'result', which clauses have: a parameter of such a name has an underscore after it.
LOCALS = frozenset(["copy_of", "fields", "first", "list", "rest", "result", "tail"])


def list_type(source: Source, types: list[str], end: str = "") -> str:
    """The list of these fields: of none its end, of up to eight in one step, and with the others after them. `end` is the type
    of what stands after the last field, where that is not the end."""
    if not types:
        return end or source.use("End")
    head, tail = types[:AT_ONCE], types[AT_ONCE:]
    name = source.use(f"Fields{len(head)}")
    following = [list_type(source, tail, end)] if tail or end else []
    return f"{name}<{', '.join(head + following)}>"


def places(count: int) -> list[str]:
    """Where the fields stand in a value of their list."""
    return [TAIL * (i // AT_ONCE) + place_within(i) for i in range(count)]


def place_within(index: int) -> str:
    """Where a field stands in the part of the list that has it."""
    return ".list" + ".rest" * (index % AT_ONCE) + ".first"


def place_after(count: int) -> str:
    """Where the list after so many fields stands."""
    last = count - 1
    return TAIL * (last // AT_ONCE) + ".list" + ".rest" * (last % AT_ONCE + 1) if count else ""


def is_written(type_: Resolved) -> bool:
    """Whether a type is a struct or an enum that is written too, or a list."""
    while isinstance(type_, Use) and isinstance(type_.definition, Alias):
        assert type_.definition.type is not None
        type_ = plain(type_.definition.type)
    return isinstance(type_, (Use, Listed))


@dataclass(frozen=True)
class Member:
    """A field as a user sees it."""

    field: Field
    index: int
    place: str  # in the struct's list

    @property
    def name(self) -> str:
        return self.field.rust

    @property
    def local(self) -> str:
        """Its name within a call."""
        return self.name + ("_" if self.name in LOCALS else "")

    @property
    def is_optional(self) -> bool:
        return self.field.presence is Presence.OPTIONAL

    @property
    def way(self) -> str:
        """From the field in its list to its value: through the default, and after the tags."""
        default = ".value" if self.field.presence is Presence.DEFAULT else ""
        return default + way(self.field.type)

    @property
    def is_small(self) -> bool:
        """Whether the value itself is given, and no reference: it is copied, and points to nothing."""
        return is_copy(self.field.type) and not self.borrows

    @property
    def borrows(self) -> bool:
        return properties_of(self.field.type).borrows

    @property
    def is_lent(self) -> bool:
        """Whether `new` takes a reference, and copies: the borrow checker has no rule for such a struct by value."""
        return is_copy(self.field.type) and self.borrows and is_written(plain(self.field.type))

    def parameter_type(self, source: Source) -> str:
        """The type by which `new` takes the value."""
        inner = ("&" if self.is_lent else "") + rust_type(source, plain(self.field.type))
        return f"Option<{inner}>" if self.is_optional else inner

    def value_type(self, source: Source) -> str:
        """The type of the value, with OPTIONAL as an option."""
        inner = rust_type(source, plain(self.field.type))
        return f"Option<{inner}>" if self.is_optional else inner

    def list_type(self, source: Source) -> str:
        return field_type(source, self.field)


def members_of(struct: Struct) -> list[Member]:
    return [Member(part, i, place) for i, (part, place) in enumerate(zip(struct.fields, places(len(struct.fields))))]
