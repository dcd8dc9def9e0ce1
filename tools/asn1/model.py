"""What the resolver says of the types of a module, as the writer needs it: no name is looked up any more."""

from __future__ import annotations

from dataclasses import dataclass, field
from enum import Enum
from typing import Union

from .errors import Place
from .scope import Env, Library
from .syntax import Component, Type


@dataclass(frozen=True, order=True)
class Tag:
    """A class and a number (X.680 8.1)."""

    tag_class: int
    number: int

    def __str__(self) -> str:
        word = {0: "UNIVERSAL ", 1: "APPLICATION ", 2: "", 3: "PRIVATE "}[self.tag_class]
        return f"[{word}{self.number}]"


# ---- types within others


class Whole(Enum):
    """The types whose values have no parts that the compiler knows; the value is for messages."""

    BOOLEAN = "BOOLEAN"
    NULL = "NULL"
    MACHINE_INTEGER = "INTEGER of a machine's width"
    INTEGER = "INTEGER of any length"
    NATURAL = "INTEGER (0..MAX)"
    BIT_STRING = "BIT STRING"
    NAMED_BITS = "BIT STRING with named bits"
    OCTET_STRING = "OCTET STRING"
    OBJECT_IDENTIFIER = "OBJECT IDENTIFIER"
    UTC_TIME = "UTCTime"
    GENERALIZED_TIME = "GeneralizedTime"
    FRACTIONAL_TIME = "GeneralizedTime with a fraction of a second"
    RELATIVE_OID = "RELATIVE-OID"
    UTF8_STRING = "UTF8String"
    NUMERIC_STRING = "NumericString"
    PRINTABLE_STRING = "PrintableString"
    TELETEX_STRING = "TeletexString"
    VIDEOTEX_STRING = "VideotexString"
    IA5_STRING = "IA5String"
    VISIBLE_STRING = "VisibleString"
    GENERAL_STRING = "GeneralString"
    BMP_STRING = "BMPString"
    ANY = "ANY"
    UNREAD_SEQUENCE = "a SEQUENCE that is not read"


class Measure(Enum):
    """What a constraint speaks of; the value is for messages."""

    NUMBER = "numbers"
    SIZE = "sizes"
    CHARACTER = "characters"


@dataclass(frozen=True)
class Allowed:
    """The values that a constraint allows: those whose number, size or characters are in runs from one number to another, or
    those that any or all of several constraints allow."""

    measure: Measure | None = None
    runs: tuple[tuple[int, int], ...] = ()
    any_of: tuple["Allowed", ...] = ()
    all_of: tuple["Allowed", ...] = ()


@dataclass(frozen=True)
class Leaf:
    """A value of one of the library's types."""

    whole: Whole
    is_owned: bool = False
    width: str | None = None  # of a machine integer: "u8"
    octets: int | None = None  # of an object identifier: how many contents octets it may have
    allowed: Allowed | None = None  # the values that are read, where not all are


@dataclass(frozen=True)
class Use:
    """A type that has a definition."""

    definition: "Definition"

    def __hash__(self) -> int:
        return id(self.definition)


@dataclass(frozen=True)
class Listed:
    """SEQUENCE OF or SET OF, whose items stay in the octets that were read."""

    item: "Resolved"
    is_set: bool
    is_never_empty: bool
    is_any_order: bool = False  # of a SET OF: as BER writes it
    allowed: Allowed | None = None  # how many items it may have, where that is no matter of one item or none


@dataclass(frozen=True)
class Tagged:
    """A tag before a type."""

    tag: Tag
    is_explicit: bool
    of: "Resolved"
    holder: "Struct | None" = None  # the struct that holds it with its tag, where it has one of its own


@dataclass(frozen=True)
class NameOf:
    """A value of an ENUMERATED itself, which `Enumerated` holds."""

    definition: "Enumeration"

    def __hash__(self) -> int:
        return id(self.definition)


Resolved = Union[Leaf, Use, Listed, Tagged, NameOf]


# ---- default values


@dataclass(frozen=True)
class Nothing:
    """The value of NULL."""


@dataclass(frozen=True)
class Octets:
    """The octets of an OCTET STRING or of a string of characters, or the contents octets of an OBJECT IDENTIFIER."""

    octets: bytes


@dataclass(frozen=True)
class Bits:
    """The octets of a BIT STRING, and how many bits at the end of the last are unused (X.690 8.6.2)."""

    unused: int
    octets: bytes


@dataclass(frozen=True)
class NamedValue:
    """A name of an ENUMERATED."""

    definition: "Enumeration"
    name: str


@dataclass(frozen=True)
class FieldValues:
    """The values of a SEQUENCE's or a SET's fields, in the order of its encoding; None where one is not written."""

    definition: "Struct"
    values: tuple["DefaultValue | None", ...]


@dataclass(frozen=True)
class AlternativeValue:
    """A value of an alternative of a CHOICE."""

    definition: "Choice"
    index: int
    value: "DefaultValue"


# a BOOLEAN's and an INTEGER's are Python's own
DefaultValue = Union[bool, int, Nothing, Octets, Bits, NamedValue, FieldValues, AlternativeValue]


@dataclass(frozen=True)
class Marker:
    """The type that stands for a default: its module, and its name in Rattle."""

    module: str
    rust: str


# ---- definitions


class Presence(Enum):
    """Whether a field is always there."""

    ALWAYS = "always"
    OPTIONAL = "OPTIONAL"
    DEFAULT = "DEFAULT"


@dataclass(frozen=True)
class Field:
    """A field of a SEQUENCE or an alternative of a CHOICE."""

    place: Place
    name: str  # in ASN.1
    rust: str
    type: Resolved
    presence: Presence
    default: Union[DefaultValue, None]
    text: str  # its type, in ASN.1
    component: Component  # as it is written, with no automatic tag
    env: Env
    marker: Union[Marker, None] = None  # of its default, where the library has none for it


@dataclass(frozen=True)
class Named:
    """A named number, a named bit or an enumeration."""

    name: str
    number: int


@dataclass(frozen=True, eq=False)
class Origin:
    """A type of a module's tree, and the names that it is understood by."""

    library: Library
    env: Env
    type: Type


@dataclass
class Definition:
    """A type that gets a name in Rattle."""

    place: Place
    module: str
    name: str  # in ASN.1, or what an inner type gets
    rust: str
    text: str  # as the module has it; empty for an inner type
    remarks: list[str] = field(default_factory=list)
    origin: Origin | None = None  # what it is made from
    by_hand: tuple[str, ...] = ()  # the crate, the files and the name of a type that is not written

    def __hash__(self) -> int:
        return id(self)


@dataclass(eq=False)
class Struct(Definition):
    """A SEQUENCE, or a SET, whose fields then stand in the order of their tags (X.690 10.3)."""

    is_set: bool = False
    fields: tuple[Field, ...] = ()
    declared: tuple[Field, ...] = ()  # in the order in which they are written
    tag: Tag | None = None  # in place of that of SEQUENCE or SET
    is_holder: bool = False  # of a value and the explicit tag before it: no user meets it
    has_additions: bool = False  # the elements after the last field are kept (`@skip`)


@dataclass(eq=False)
class Choice(Definition):
    """A CHOICE of two alternatives or more."""

    alternatives: tuple[Field, ...] = ()
    halves: tuple["Choice", ...] = ()  # the two that it is read as, where it has many alternatives
    is_half: bool = False


@dataclass(eq=False)
class List(Definition):
    """A SEQUENCE OF or a SET OF with a name of its own."""

    item: Resolved | None = None
    is_set: bool = False
    is_never_empty: bool = False
    is_any_order: bool = False
    allowed: Allowed | None = None
    tag: Tag | None = None

    @property
    def listed(self) -> Listed:
        """The list itself, with no name."""
        assert self.item is not None
        return Listed(self.item, self.is_set, self.is_never_empty, self.is_any_order, self.allowed)


@dataclass(eq=False)
class Enumeration(Definition):
    """An ENUMERATED."""

    values: tuple[Named, ...] = ()
    is_extensible: bool = False
    tag: Tag | None = None


@dataclass(eq=False)
class Alias(Definition):
    """A second name of a type, perhaps with names for its numbers or its bits."""

    type: Resolved | None = None
    numbers: tuple[Named, ...] = ()
    bits: tuple[Named, ...] = ()


def is_within(definition: Definition) -> bool:
    """Whether a definition is only a part of others', and has no name in the module: a half, or a holder."""
    is_half = isinstance(definition, Choice) and definition.is_half
    return is_half or (isinstance(definition, Struct) and definition.is_holder)


@dataclass(frozen=True)
class Constant:
    """An object identifier value."""

    name: str
    rust: str
    arcs: tuple[int, ...]
    text: str


@dataclass
class ResolvedModule:
    """A module's definitions in an order in which each stands after those that it has, and its constants."""

    name: str
    file: str
    definitions: list[Definition]
    constants: list[Constant]
    library: Library
