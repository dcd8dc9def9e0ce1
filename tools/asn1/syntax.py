"""The tree of a module as it is written (X.680 clauses 13 to 51, X.681, X.208 for ANY)."""

from __future__ import annotations

from dataclasses import dataclass, field
from enum import Enum
from typing import Union

from .errors import Place
from .lexer import Annotation, Token


class TagClass(Enum):
    """X.680 31.2; the value is bits 8 and 7 of the identifier octet (X.690 8.1.2.2)."""

    UNIVERSAL = 0
    APPLICATION = 1
    CONTEXT = 2
    PRIVATE = 3


class TagMode(Enum):
    """How a tag stands before a type (X.680 31.2)."""

    IMPLICIT = "IMPLICIT"
    EXPLICIT = "EXPLICIT"


class TagDefault(Enum):
    """The tag default of a module (X.680 13.2)."""

    EXPLICIT = "EXPLICIT"
    IMPLICIT = "IMPLICIT"
    AUTOMATIC = "AUTOMATIC"


# ---- values


@dataclass(frozen=True)
class NumberValue:
    place: Place
    number: int


@dataclass(frozen=True)
class BooleanValue:
    place: Place
    truth: bool


@dataclass(frozen=True)
class NullValue:
    place: Place


@dataclass(frozen=True)
class TextValue:
    """A cstring (12.14)."""

    place: Place
    text: str


@dataclass(frozen=True)
class BitsValue:
    """A bstring or an hstring (12.10, 12.12), as its bits."""

    place: Place
    bits: str


@dataclass(frozen=True)
class ReferenceValue:
    """A name of a value, of a named number or of an enumeration, perhaps with its module's."""

    place: Place
    module: str | None
    name: str


@dataclass(frozen=True)
class Arc:
    """One component of an object identifier value (32.3): a name, a number, or `name(number)`."""

    place: Place
    name: str | None
    number: Union[int, ReferenceValue, None]


@dataclass(frozen=True)
class BracedValue:
    """A value in braces, whose meaning is its type's; `arcs` where it can be an object identifier."""

    place: Place
    tokens: tuple[Token, ...]
    arcs: tuple[Arc, ...] | None
    end: Token  # the brace that closes it


@dataclass(frozen=True)
class ChosenValue:
    """`alternative : value` of a CHOICE (29.11)."""

    place: Place
    name: str
    value: "Value"


@dataclass(frozen=True)
class OtherValue:
    """A value of the notations that the compiler has no use for, kept for its error."""

    place: Place
    text: str


Value = Union[
    NumberValue, BooleanValue, NullValue, TextValue, BitsValue, ReferenceValue, BracedValue, ChosenValue, OtherValue
]


@dataclass(frozen=True)
class ComponentValue:
    """`name value` of a SEQUENCE or a SET (25, 27)."""

    place: Place
    name: str
    value: Value


# ---- constraints (51)


@dataclass(frozen=True)
class SingleValue:
    place: Place
    value: Value


@dataclass(frozen=True)
class Range:
    """`low..high` (51.4); None is MIN or MAX."""

    place: Place
    low: Value | None
    high: Value | None
    above_low: bool
    below_high: bool


@dataclass(frozen=True)
class Size:
    """`SIZE (..)` (51.5)."""

    place: Place
    of: "Constraint"


@dataclass(frozen=True)
class Alphabet:
    """`FROM (..)` (51.7)."""

    place: Place
    of: "Constraint"


@dataclass(frozen=True)
class Containing:
    """`CONTAINING Type` (X.682 11)."""

    place: Place
    type: "Type"


@dataclass(frozen=True)
class Included:
    """`INCLUDES Type`, or a type's name alone (51.3)."""

    place: Place
    type: "Type"


@dataclass(frozen=True)
class Table:
    """`{ObjectSet}` or `{ObjectSet}{@field}` (X.682 10)."""

    place: Place
    text: str


@dataclass(frozen=True)
class Unchecked:
    """A constraint that a program has to check itself: WITH COMPONENTS, PATTERN, CONSTRAINED BY, ENCODED BY."""

    place: Place
    text: str


@dataclass(frozen=True)
class Combined:
    """Unions (`|`), intersections (`^`) and exceptions (50)."""

    place: Place
    operator: str
    parts: tuple["Constraint", ...]
    extensible: bool = False


Constraint = Union[
    SingleValue, Range, Size, Alphabet, Containing, Included, Table, Unchecked, Combined
]


# ---- types


class Simple(Enum):
    """The types with no parts of their own; the value is the notation."""

    BOOLEAN = "BOOLEAN"
    NULL = "NULL"
    OBJECT_IDENTIFIER = "OBJECT IDENTIFIER"
    OCTET_STRING = "OCTET STRING"
    UTC_TIME = "UTCTime"
    GENERALIZED_TIME = "GeneralizedTime"
    REAL = "REAL"
    RELATIVE_OID = "RELATIVE-OID"
    UTF8_STRING = "UTF8String"
    NUMERIC_STRING = "NumericString"
    PRINTABLE_STRING = "PrintableString"
    TELETEX_STRING = "TeletexString"
    VIDEOTEX_STRING = "VideotexString"
    IA5_STRING = "IA5String"
    GRAPHIC_STRING = "GraphicString"
    VISIBLE_STRING = "VisibleString"
    GENERAL_STRING = "GeneralString"
    UNIVERSAL_STRING = "UniversalString"
    OBJECT_DESCRIPTOR = "ObjectDescriptor"
    EXTERNAL = "EXTERNAL"
    EMBEDDED_PDV = "EMBEDDED PDV"
    CHARACTER_STRING = "CHARACTER STRING"
    BMP_STRING = "BMPString"


@dataclass(frozen=True)
class NamedNumber:
    """A named number, a named bit or an enumeration; None where an enumeration's number is left out."""

    place: Place
    name: str
    number: Union[int, ReferenceValue, None]
    is_addition: bool = False  # of an enumeration: after '...' (20.1)


@dataclass(frozen=True)
class SimpleType:
    place: Place
    simple: Simple


@dataclass(frozen=True)
class IntegerType:
    place: Place
    named: tuple[NamedNumber, ...]


@dataclass(frozen=True)
class BitStringType:
    place: Place
    named: tuple[NamedNumber, ...]


@dataclass(frozen=True)
class EnumeratedType:
    place: Place
    named: tuple[NamedNumber, ...]
    extensible: bool
    marker_notes: tuple[Annotation, ...] = ()  # the annotations after its '...'


@dataclass(frozen=True)
class Component:
    """A component of a SEQUENCE or a SET (25), or an alternative of a CHOICE (29)."""

    place: Place
    name: str
    type: "Type"
    optional: bool
    default: Value | None
    annotations: tuple[Annotation, ...]
    text: str = ""  # its type, with what stands after it
    is_addition: bool = False  # after '...' (25.1): an extension addition
    is_later: bool = False  # an addition with neither OPTIONAL nor DEFAULT: absent where an older version made the value


@dataclass(frozen=True)
class ComponentsOf:
    """`COMPONENTS OF Type` (25.5)."""

    place: Place
    type: "Type"


@dataclass(frozen=True)
class FieldsType:
    """SEQUENCE or SET (25, 27)."""

    place: Place
    is_set: bool
    components: tuple[Union[Component, ComponentsOf], ...]
    extensible: bool
    is_instance: bool = False  # it is INSTANCE OF (X.681 annex C), whose own tag is [UNIVERSAL 8]
    marker_notes: tuple[Annotation, ...] = ()  # the annotations after its '...'
    root_resumes: bool = False  # components of the root stand after a second '...' (25.1)


@dataclass(frozen=True)
class ChoiceType:
    place: Place
    alternatives: tuple[Component, ...]
    extensible: bool
    marker_notes: tuple[Annotation, ...] = ()  # the annotations after its '...'


@dataclass(frozen=True)
class ListType:
    """SEQUENCE OF or SET OF (26, 28)."""

    place: Place
    is_set: bool
    item: "Type"


@dataclass(frozen=True)
class AnyType:
    """ANY, or ANY DEFINED BY a field (X.208 27)."""

    place: Place
    defined_by: str | None


@dataclass(frozen=True)
class FieldOfClass:
    """`CLASS.&field`: an open type, or the type of a value field (X.681 14)."""

    place: Place
    module: str | None
    class_name: str
    fields: tuple[str, ...]


@dataclass(frozen=True)
class SelectionType:
    """`alternative < Type` (30)."""

    place: Place
    name: str
    type: "Type"


@dataclass(frozen=True)
class Actual:
    """An actual parameter: a type or a value, or anything in braces (X.683 9.5)."""

    place: Place
    type: "Type | None"
    value: Value | None
    text: str


@dataclass(frozen=True)
class ReferenceType:
    """A name of a type, perhaps with its module's and with parameters."""

    place: Place
    module: str | None
    name: str
    actuals: tuple[Actual, ...] = ()


@dataclass(frozen=True)
class TaggedType:
    """`[class number] mode Type` (31); the mode is None where the module's default says it."""

    place: Place
    tag_class: TagClass
    number: Union[int, ReferenceValue]
    mode: TagMode | None
    type: "Type"
    is_automatic: bool = False  # it is in no text: the module's AUTOMATIC TAGS put it there (25.7, 29.2)


@dataclass(frozen=True)
class ConstrainedType:
    """A type with constraints after it (49)."""

    place: Place
    type: "Type"
    constraints: tuple[Constraint, ...]


Type = Union[
    SimpleType,
    IntegerType,
    BitStringType,
    EnumeratedType,
    FieldsType,
    ChoiceType,
    ListType,
    AnyType,
    FieldOfClass,
    SelectionType,
    ReferenceType,
    TaggedType,
    ConstrainedType,
]


# ---- assignments and modules


@dataclass(frozen=True)
class Parameter:
    """A dummy reference with its governor's name, if it has one (X.683 8.3)."""

    place: Place
    governor: str | None
    name: str


@dataclass(frozen=True)
class TypeAssignment:
    """`Name ::= Type` (16.1), with its text as the module has it."""

    place: Place
    name: str
    parameters: tuple[Parameter, ...]
    type: Type
    annotations: tuple[Annotation, ...]
    text: str


@dataclass(frozen=True)
class ValueAssignment:
    """`name Type ::= value` (16.2)."""

    place: Place
    name: str
    type: Type
    value: Value
    text: str


@dataclass(frozen=True)
class ClassField:
    """A field of a class: the type of its values, where it has one (X.681 9)."""

    place: Place
    name: str
    type: Type | None


@dataclass(frozen=True)
class ClassAssignment:
    """`NAME ::= CLASS { .. }` (X.681 9)."""

    place: Place
    name: str
    fields: tuple[ClassField, ...]


@dataclass(frozen=True)
class SetAssignment:
    """`Name GOVERNOR ::= { .. }`: an object set or a value set (X.681 12, X.680 16.6)."""

    place: Place
    name: str
    governor: str


Assignment = Union[TypeAssignment, ValueAssignment, ClassAssignment, SetAssignment]


@dataclass(frozen=True)
class Import:
    """Symbols of one other module (13.16)."""

    place: Place
    module: str
    symbols: tuple[Token, ...]


@dataclass
class Module:
    """A module definition (13)."""

    place: Place
    name: str
    identifier: tuple[Arc, ...]
    tag_default: TagDefault
    imports: tuple[Import, ...]
    exports: tuple[Token, ...] | None
    assignments: tuple[Assignment, ...]
    file: str = field(default="")
    is_unchecked: bool = False  # whether constraints are read and not checked
