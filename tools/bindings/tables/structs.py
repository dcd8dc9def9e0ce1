"""The table of structs, as the calls of the library for C write them."""

from __future__ import annotations

from dataclasses import dataclass

SIZES = {"place": 8, "u32": 4, "u64": 8, "i64": 8}
INNER = "inner"  # the file of the types that are written as a whole
ACCESS = ("field", "optional", "place")  # how the packages return a place: it is always there; it may be absent; not by its name


@dataclass(frozen=True)
class Field:
    """A field of a struct: its name in C, its type, and a phrase that says what it is."""

    name: str
    name_elsewhere: str  # of a place in ASN.1, of a number in der_c
    type: str
    access: str  # of a place; '' of a number
    phrase: str

    @property
    def is_place(self) -> bool:
        return self.type == "place"


@dataclass(frozen=True)
class Group:
    """Fields that are one member of the struct of der_c, or one of those of its places; or all numbers."""

    member: str
    type: str  # of der_c or der_places; '' of numbers
    within: str  # the field of the message that has these fields; '' of the message itself
    fields: tuple[Field, ...]


@dataclass(frozen=True)
class Next:
    """The call of der.h that reads one message after another."""

    name: str
    is_written: bool
    left: str  # what is left at first


@dataclass(frozen=True)
class Part:
    """A field that is written: whether it may be absent, how the packages take it, and of items the identifier octets."""

    field: Field
    within: str  # the field of the message that has it; '' of the message itself
    is_optional: bool
    kind: str
    identifiers: tuple[int, ...]

    @property
    def name(self) -> str:
        """Its name in Rust and Python."""
        return self.field.name if self.field.is_place else self.field.name_elsewhere

    @property
    def name_in_asn1(self) -> str:
        if self.field.is_place:
            return self.field.name_elsewhere
        first, *rest = self.name.split("_")
        return first + "".join(part.capitalize() for part in rest)


@dataclass(frozen=True)
class Writing:
    """A call that writes a message from the fields of a struct."""

    name: str
    type: str  # of ASN.1
    standard: str
    noun: str
    struct: str  # the name of the struct
    parts: tuple[Part, ...]


@dataclass(frozen=True)
class Struct:
    """A struct, with the call that writes it."""

    name: str
    type: str  # of ASN.1
    standard: str  # that has the type, with the section
    noun: str
    file: str  # of the packages for Rust and Go, without its ending
    is_secret: bool  # no octets are printed where a program prints the value
    is_front: bool  # the message stands at the front of the octets
    next: Next | None
    notes: tuple[str, ...]
    results: str
    groups: tuple[Group, ...]
    writings: tuple[Writing, ...] = ()

    @property
    def places(self) -> list[Field]:
        return [field for group in self.groups for field in group.fields if field.is_place]

    @property
    def numbers(self) -> list[Field]:
        return [field for group in self.groups for field in group.fields if not field.is_place]

    @property
    def fields(self) -> list[Field]:
        return self.places + self.numbers

    @property
    def is_inner(self) -> bool:
        """Whether the type of the packages is written as a whole."""
        return self.file == INNER

    @property
    def size(self) -> int:
        """Its octets in C: fields stand without gaps, which check_layout of reading.py requires."""
        return sum(SIZES[field.type] for field in self.fields)
