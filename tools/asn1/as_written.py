"""What the text of a module says of a type's parts, by its tree alone: names, order, numbers.

The pages and the laws rest on it, and the code on the resolver; so an error of the resolver in any of these is one that
the prover refuses.
"""

from __future__ import annotations

from dataclasses import dataclass, replace
from itertools import count

from .errors import Place
from .resolver.classes import base_of, follow, is_parameter, is_untagged_choice, meant
from .scope import Env, Library
from .spelling import field, numbered
from .syntax import (
    BitStringType,
    BracedValue,
    ChoiceType,
    Component,
    ConstrainedType,
    EnumeratedType,
    FieldOfClass,
    FieldsType,
    IntegerType,
    ListType,
    NamedNumber,
    ReferenceType,
    ReferenceValue,
    SelectionType,
    Simple,
    SimpleType,
    TagClass,
    TagDefault,
    TaggedType,
    TagMode,
    Type,
)
from .values import assigned_value, number_of

# The numbers of the universal class (X.680 8.4, table 1).
UNIVERSAL = {
    Simple.BOOLEAN: 1,
    Simple.OCTET_STRING: 4,
    Simple.NULL: 5,
    Simple.OBJECT_IDENTIFIER: 6,
    Simple.OBJECT_DESCRIPTOR: 7,
    Simple.EXTERNAL: 8,
    Simple.REAL: 9,
    Simple.EMBEDDED_PDV: 11,
    Simple.UTF8_STRING: 12,
    Simple.RELATIVE_OID: 13,
    Simple.NUMERIC_STRING: 18,
    Simple.PRINTABLE_STRING: 19,
    Simple.TELETEX_STRING: 20,
    Simple.VIDEOTEX_STRING: 21,
    Simple.IA5_STRING: 22,
    Simple.UTC_TIME: 23,
    Simple.GENERALIZED_TIME: 24,
    Simple.GRAPHIC_STRING: 25,
    Simple.VISIBLE_STRING: 26,
    Simple.GENERAL_STRING: 27,
    Simple.UNIVERSAL_STRING: 28,
    Simple.CHARACTER_STRING: 29,
    Simple.BMP_STRING: 30,
}
SEQUENCE, SET = 16, 17
# Types that the layer does not have.
UNREADABLE = frozenset(
    [
        Simple.REAL,
        Simple.OBJECT_DESCRIPTOR,
        Simple.EXTERNAL,
        Simple.EMBEDDED_PDV,
        Simple.GRAPHIC_STRING,
        Simple.UNIVERSAL_STRING,
        Simple.CHARACTER_STRING,
    ]
)


@dataclass(frozen=True)
class Part:
    """A component of a SEQUENCE or a SET, or an alternative of a CHOICE."""

    component: Component
    env: Env
    number: int | None = None  # of its automatic tag (25.7 to 25.9, 29.2)
    spelled: str = ""

    @property
    def field_name(self) -> str:
        """Its name as a field of a struct."""
        given = [note.argument for note in self.component.annotations if note.name == "name"]
        return given[0] if given and given[0] else self.spelled


Key = tuple[Place, str]


def key_of(component: Component) -> Key:
    """What tells a component from all others, as the resolver has it too: where it stands, and its name."""
    return component.place, component.name


def fields(library: Library, env: Env, type_: FieldsType) -> list[Part]:
    """The components in the order of their encodings: that of the text, and of a SET that of the tags (X.690 10.3)."""
    parts = components(library, env, type_)
    names = numbered([field(part.component.name) for part in parts])
    parts = [replace(part, spelled=name) for part, name in zip(parts, names)]
    parts = [part for part in parts if not is_lacking(library, part) or not may_be_absent(part)]
    return sorted(parts, key=lambda part: tag_of(library, part)) if type_.is_set else parts


def keeps_additions(type_: FieldsType) -> bool:
    """Whether the elements after the components are kept: `@skip` stands after '...'."""
    return any(note.name == "skip" for note in type_.marker_notes)


def components(library: Library, env: Env, type_: FieldsType) -> list[Part]:
    """The components in the order of the text, those of COMPONENTS OF in its place (25.5)."""
    parts: list[Part] = []
    for one in type_.components:
        if isinstance(one, Component):
            parts.append(Part(one, env))
            continue
        inner, base = base_of(library, env, one.type)
        assert isinstance(base, FieldsType)
        parts += [part for part in components(library, inner, base) if not part.component.is_addition]
    return tagged(env, parts, [one for one in type_.components if isinstance(one, Component)])


def alternatives(library: Library, env: Env, type_: ChoiceType) -> list[Part]:
    """The alternatives in the order of the text."""
    return [part for part in written_alternatives(env, type_) if not is_lacking(library, part)]


def written_alternatives(env: Env, type_: ChoiceType) -> list[Part]:
    """The alternatives in the order of the text, with those that the layer lacks."""
    return tagged(env, [Part(one, env) for one in type_.alternatives], list(type_.alternatives))


def is_lacking(library: Library, part: Part, around: tuple[Type, ...] = ()) -> bool:
    """Whether a component is of a type that the layer lacks, with no implicit tag in its place."""
    env, type_ = part.env, part.component.type
    if part.number is not None and not is_parameter(env, type_) and not is_untagged_choice(library, env, type_):
        return False
    is_unread = any(note.name == "unread" for note in part.component.annotations)
    return lacks(library, env, type_, around, is_unread)


def lacks(library: Library, env: Env, type_: Type, around: tuple[Type, ...], is_unread: bool = False) -> bool:
    """Whether the layer lacks a type: it has no such type, no alternative of it, or not what each SET of it has."""
    while isinstance(type_, (TaggedType, ConstrainedType, ReferenceType, FieldOfClass, SelectionType)):
        if isinstance(type_, TaggedType) and not is_explicit(env, type_) and not is_untagged_choice(library, env, type_.type):
            return False
        if isinstance(type_, (TaggedType, ConstrainedType)):
            type_ = type_.type
        elif isinstance(type_, ReferenceType):
            env, type_ = follow(library, env, type_)
        else:
            env, type_ = meant(library, env, type_)
    if isinstance(type_, SimpleType):
        return type_.simple in UNREADABLE
    if is_unread or any(type_ is one for one in around):
        return False
    return lacks_parts(library, env, type_, (*around, type_))


def lacks_parts(library: Library, env: Env, type_: Type, around: tuple[Type, ...]) -> bool:
    """Whether the layer lacks a type with parts for what it lacks of these; a SEQUENCE, or a SEQUENCE OF, is then kept unread."""
    if isinstance(type_, ChoiceType):
        return all(is_lacking(library, part, around) for part in written_alternatives(env, type_))
    if isinstance(type_, FieldsType) and type_.is_set:
        parts = components(library, env, type_)
        return any(is_lacking(library, part, around) for part in parts if not may_be_absent(part))
    if isinstance(type_, ListType) and type_.is_set:
        return lacks(library, env, type_.item, around)
    return isinstance(type_, FieldsType) and type_.is_instance


def may_be_absent(part: Part) -> bool:
    """Whether a component is OPTIONAL or has a DEFAULT."""
    return part.component.optional or part.component.default is not None


def has_empty_list(library: Library, part: Part) -> bool:
    """Whether the default of a component is the empty list, which no encoding has (X.690 11.5): OPTIONAL, and never empty."""
    given = part.component.default
    if given is None or not isinstance(base_of(library, part.env, part.component.type)[1], ListType):
        return False
    value = assigned_value(library, part.env, given)[1]
    return isinstance(value, BracedValue) and len(value.tokens) == 0


def tagged(env: Env, parts: list[Part], own: list[Component]) -> list[Part]:
    """With automatic tags from 0, those of the root first, where no component of the text has a tag (25.7 to 25.9, 29.2)."""
    if env.scope.module.tag_default is not TagDefault.AUTOMATIC or any(isinstance(one.type, TaggedType) for one in own):
        return parts
    order = sorted(range(len(parts)), key=lambda i: parts[i].component.is_addition)
    return [replace(part, number=order.index(i)) for i, part in enumerate(parts)]


# ---- tags


def tag_of(library: Library, part: Part) -> tuple[int, int]:
    """The class and the number of the tag that a component begins with."""
    if part.number is not None:
        return TagClass.CONTEXT.value, part.number
    return first_tag(library, part.env, part.component.type)


def first_tag(library: Library, env: Env, type_: Type) -> tuple[int, int]:
    """The tag that the encodings of a type begin with; of a CHOICE the least of its tags."""
    if isinstance(type_, TaggedType):
        number = type_.number if isinstance(type_.number, int) else number_of(library, env, type_.number)
        return type_.tag_class.value, number
    if isinstance(type_, ConstrainedType):
        return first_tag(library, env, type_.type)
    if isinstance(type_, ReferenceType):
        return first_tag(library, *follow(library, env, type_))
    if isinstance(type_, (FieldOfClass, SelectionType)):
        return first_tag(library, *meant(library, env, type_))
    if isinstance(type_, ChoiceType):
        return min(tag_of(library, one) for one in alternatives(library, env, type_))
    return TagClass.UNIVERSAL.value, universal(type_)


def universal(type_: Type) -> int:
    """The universal number of a type that is written out."""
    if isinstance(type_, SimpleType):
        return UNIVERSAL[type_.simple]
    if isinstance(type_, (FieldsType, ListType)):
        return SET if type_.is_set else SEQUENCE
    numbers = {IntegerType: 2, BitStringType: 3, EnumeratedType: 10}
    return numbers[type(type_)]


# ---- numbers


def enumeration(library: Library, env: Env, type_: EnumeratedType) -> list[tuple[str, int]]:
    """The names of an ENUMERATED and their numbers: those of the root from 0 on, but for those given there (20.3); of an
    addition with none the least that is free in the root, and above the additions before it (20.7)."""
    root = [one for one in type_.named if not one.is_addition]
    given = [given_number(library, env, one) for one in root]
    free = (number for number in count() if number not in given)
    numbers = [next(free) if number is None else number for number in given]
    above = 0
    for one in type_.named[len(root) :]:
        number = given_number(library, env, one)
        if number is None:
            number = next(number for number in count(above) if number not in numbers[: len(root)])
        numbers.append(number)
        above = max(above, number + 1)
    return [(one.name, number) for one, number in zip(type_.named, numbers)]


def given_number(library: Library, env: Env, one: NamedNumber) -> int | None:
    """The number that stands after a name, if one does."""
    return number_of(library, env, one.number) if isinstance(one.number, ReferenceValue) else one.number


def is_explicit(env: Env, type_: TaggedType) -> bool:
    """Whether a tag of the text is explicit, by its word or by the module's default, which is not for parameters (31.2.7 c)."""
    if type_.mode is not None:
        return type_.mode is TagMode.EXPLICIT
    return env.scope.module.tag_default is TagDefault.EXPLICIT or is_parameter(env, type_.type)
