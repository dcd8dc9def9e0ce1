"""Types (X.680 17 to 47), ANY of X.208 27, and types from classes (X.681 14)."""

from __future__ import annotations

from collections.abc import Callable

from ..errors import Place
from ..lexer import Annotation, Kind
from ..syntax import (
    Actual,
    AnyType,
    BitStringType,
    ChoiceType,
    Component,
    ConstrainedType,
    Constraint,
    EnumeratedType,
    FieldOfClass,
    FieldsType,
    IntegerType,
    ListType,
    NamedNumber,
    NullValue,
    ReferenceType,
    ReferenceValue,
    SelectionType,
    Simple,
    SimpleType,
    TagClass,
    TaggedType,
    TagMode,
    Type,
)
from . import components, constraints
from .cursor import Cursor
from .values import parse_external, parse_fields_of_fields, parse_value, sees_value

CLASSES = {"UNIVERSAL": TagClass.UNIVERSAL, "APPLICATION": TagClass.APPLICATION, "PRIVATE": TagClass.PRIVATE}

# The notations of one word.
SIMPLE = {simple.value: simple for simple in Simple if " " not in simple.value}
SIMPLE |= {"T61String": Simple.TELETEX_STRING, "ISO646String": Simple.VISIBLE_STRING}

# Types that are not taken, and what to write instead.
REFUSED = {
    "MACRO": "write the types of the macro's values out (X.208 annex A is withdrawn)",
}


def parse_type(cursor: Cursor) -> Type:
    """A type with its tags before and its constraints after it."""
    with cursor.nested("types", "give one of those within a name of its own, by an assignment"):
        return parse_type_here(cursor)


def parse_type_here(cursor: Cursor) -> Type:
    if cursor.sees("["):
        return parse_tagged(cursor)
    place = cursor.place
    base = parse_base(cursor)
    found = constraints.parse_constraints(cursor)
    return ConstrainedType(place, base, found) if found else base


def parse_tagged(cursor: Cursor) -> TaggedType:
    """`[class number] IMPLICIT Type` (31.1)."""
    place = cursor.place
    cursor.next()
    tag_class = TagClass.CONTEXT
    if cursor.peek().text in CLASSES:
        tag_class = CLASSES[cursor.next().text]
    number = parse_tag_number(cursor)
    cursor.expect("]", "write a tag as '[number]' or '[APPLICATION number]'")
    mode = None
    if cursor.peek().text in ("IMPLICIT", "EXPLICIT"):
        mode = TagMode(cursor.next().text)
    return TaggedType(place, tag_class, number, mode, parse_type(cursor))


def parse_tag_number(cursor: Cursor) -> int | ReferenceValue:
    """The number of a tag, or the name of one (31.2)."""
    if cursor.sees_kind(Kind.NUMBER):
        return int(cursor.next().text)
    return parse_name_of_number(cursor, "the number of a tag", "write a tag as '[number]' or '[APPLICATION number]'")


def parse_name_of_number(cursor: Cursor, what: str, instead: str) -> ReferenceValue:
    """`name`, or `Module.name` (14.6)."""
    if cursor.sees_kind(Kind.UPPER) and sees_value(cursor):
        return parse_external(cursor)
    token = cursor.expect_kind(Kind.LOWER, what, instead)
    return ReferenceValue(token.place, None, token.text)


def parse_base(cursor: Cursor) -> Type:
    """A type with no tag before it."""
    token = cursor.peek()
    if token.text in REFUSED and token.kind is Kind.WORD:
        cursor.fail(f"{token.text} is not taken", REFUSED[token.text])
    if token.kind is Kind.UPPER or token.text == "TYPE-IDENTIFIER":
        return parse_named_type(cursor)
    if token.kind is Kind.LOWER and cursor.peek(1).text == "<":
        return parse_selection(cursor)
    if token.kind is Kind.LOWER and cursor.peek(1).text == "." and cursor.peek(2).kind is Kind.FIELD:
        cursor.fail(f"the type of a field of the object {token} is not taken", "write the type itself (X.681 15)")
    if token.text in SIMPLE:
        cursor.next()
        return SimpleType(token.place, SIMPLE[token.text])
    parse = BASES.get(token.text)
    if parse is None or token.kind is not Kind.WORD:
        cursor.fail(f"{token} stands where a type is expected", "write the name of a type, or one of X.680 17.2")
    cursor.next()
    return parse(cursor, token.place)


def parse_named_type(cursor: Cursor) -> Type:
    """`Name`, `Module.Name`, `Name{..}`, or `CLASS.&field`."""
    place = cursor.place
    module, name = parse_reference(cursor)
    if cursor.sees(".") and cursor.peek(1).kind is Kind.FIELD:
        return FieldOfClass(place, module, name, parse_fields_of_fields(cursor))
    return ReferenceType(place, module, name, parse_actuals(cursor))


def parse_reference(cursor: Cursor) -> tuple[str | None, str]:
    """`Name` or `Module.Name` (14.1)."""
    name = cursor.next().text
    if cursor.sees(".") and cursor.peek(1).kind is Kind.UPPER:
        cursor.next()
        return name, cursor.next().text
    return None, name


def parse_selection(cursor: Cursor) -> SelectionType:
    """`alternative < Type` (30.1)."""
    with cursor.nested("types", "give one of those within a name of its own, by an assignment"):
        name = cursor.next()
        cursor.next()
        return SelectionType(name.place, name.text, parse_base(cursor))


def parse_actuals(cursor: Cursor) -> tuple[Actual, ...]:
    """The actual parameters after a name (X.683 9.5)."""
    if not cursor.take("{"):
        return ()
    actuals = [parse_actual(cursor)]
    while cursor.take(","):
        actuals.append(parse_actual(cursor))
    cursor.expect("}", "write the parameters with commas between them, and '}' after the last")
    return tuple(actuals)


def parse_actual(cursor: Cursor) -> Actual:
    """A type, a value, or a set in braces; NULL is a type and a value."""
    first = cursor.peek()
    if cursor.sees("{"):
        return Actual(first.place, None, None, cursor.balanced())
    if cursor.take("NULL"):
        return Actual(first.place, SimpleType(first.place, Simple.NULL), NullValue(first.place), first.text)
    if sees_value(cursor):
        value = parse_value(cursor)
        return Actual(first.place, None, value, cursor.text_from(first))
    inner = parse_type(cursor)
    return Actual(first.place, inner, None, cursor.text_from(first))


# ---- the types of reserved words, whose first word is taken


def parse_any(cursor: Cursor, place: Place) -> AnyType:
    """`ANY`, `ANY DEFINED BY name` (X.208 27)."""
    if not cursor.take("DEFINED", "BY"):
        return AnyType(place, None)
    token = cursor.expect_kind(Kind.LOWER, "the name of a component", "write 'ANY DEFINED BY name'")
    return AnyType(place, token.text)


def parse_integer(cursor: Cursor, place: Place) -> IntegerType:
    return IntegerType(place, parse_named_numbers(cursor, "INTEGER"))


def parse_bit(cursor: Cursor, place: Place) -> BitStringType:
    cursor.expect("STRING", "write 'BIT STRING'")
    return BitStringType(place, parse_named_numbers(cursor, "BIT STRING"))


def parse_octet(cursor: Cursor, place: Place) -> SimpleType:
    cursor.expect("STRING", "write 'OCTET STRING'")
    return SimpleType(place, Simple.OCTET_STRING)


def parse_object(cursor: Cursor, place: Place) -> SimpleType:
    cursor.expect("IDENTIFIER", "write 'OBJECT IDENTIFIER'")
    return SimpleType(place, Simple.OBJECT_IDENTIFIER)


def parse_embedded(cursor: Cursor, place: Place) -> SimpleType:
    cursor.expect("PDV", "write 'EMBEDDED PDV'")
    return SimpleType(place, Simple.EMBEDDED_PDV)


def parse_character(cursor: Cursor, place: Place) -> SimpleType:
    cursor.expect("STRING", "write 'CHARACTER STRING'")
    return SimpleType(place, Simple.CHARACTER_STRING)


def parse_instance(cursor: Cursor, place: Place) -> FieldsType:
    """`INSTANCE OF CLASS`, as the SEQUENCE that X.681 annex C says it is."""
    cursor.expect("OF", "write 'INSTANCE OF CLASS'")
    if not cursor.sees_kind(Kind.UPPER) and not cursor.sees("TYPE-IDENTIFIER"):
        cursor.fail(f"{cursor.peek()} stands where the name of a class is expected", "write 'INSTANCE OF CLASS'")
    first = cursor.peek()
    module, name = parse_reference(cursor)
    text = cursor.text_from(first)
    value = TaggedType(place, TagClass.CONTEXT, 0, TagMode.EXPLICIT, FieldOfClass(place, module, name, ("&Type",)))
    parts = (
        Component(place, "type-id", FieldOfClass(place, module, name, ("&id",)), False, None, (), f"{text}.&id"),
        Component(place, "value", value, False, None, (), f"[0] EXPLICIT {text}.&Type"),
    )
    return FieldsType(place, False, parts, False, is_instance=True)


def parse_named_numbers(cursor: Cursor, what: str) -> tuple[NamedNumber, ...]:
    """`{ name(number), .. }` (19.1, 22.1), of which there may be none."""
    if not cursor.take("{"):
        return ()
    named = [parse_named_number(cursor, what)]
    while cursor.take(","):
        named.append(parse_named_number(cursor, what))
    cursor.expect("}", f"write the names of an {what} as '{{ first(0), second(1) }}'")
    return tuple(named)


def parse_named_number(cursor: Cursor, what: str) -> NamedNumber:
    """`name(number)`, where the number may be the name of a value."""
    instead = f"write the names of an {what} as '{{ first(0), second(1) }}'"
    token = cursor.expect_kind(Kind.LOWER, "a name", instead)
    cursor.expect("(", instead)
    number = parse_number(cursor, instead)
    cursor.expect(")", instead)
    return NamedNumber(token.place, token.text, number)


def parse_number(cursor: Cursor, instead: str) -> int | ReferenceValue:
    """A number, perhaps negative, or the name of one."""
    negative = cursor.take("-")
    if cursor.sees_kind(Kind.NUMBER):
        number = int(cursor.next().text)
        return -number if negative else number
    return parse_name_of_number(cursor, "a number", instead)


def parse_enumerated(cursor: Cursor, place: Place) -> EnumeratedType:
    """`ENUMERATED { first, second(2), ..., third }` (20.1)."""
    instead = "write 'ENUMERATED { first(0), second(1) }'"
    cursor.expect("{", instead)
    named: list[NamedNumber] = []
    extensible, notes = False, tuple[Annotation, ...]()
    while not named or cursor.take(","):
        if cursor.sees("..."):
            if extensible:
                cursor.fail("'...' stands here a second time", "leave it out (X.680 20.1)")
            extensible, notes = True, parse_marker(cursor)
            continue
        token = cursor.expect_kind(Kind.LOWER, "a name", instead)
        number = None
        if cursor.take("("):
            number = parse_number(cursor, instead)
            cursor.expect(")", instead)
        named.append(NamedNumber(token.place, token.text, number, extensible))
    cursor.expect("}", instead)
    return EnumeratedType(place, tuple(named), extensible or cursor.is_extensible, notes)


def parse_marker(cursor: Cursor) -> tuple[Annotation, ...]:
    """`...` of an ENUMERATED, perhaps with an exception (53): the annotations after it, and after its comma."""
    with cursor.collecting() as annotations:
        cursor.next()
        constraints.take_exception(cursor)
    return (*annotations, *(cursor.peek().annotations if cursor.sees(",") else ()))


def parse_choice(cursor: Cursor, place: Place) -> ChoiceType:
    return components.parse_alternatives(cursor, place)


def parse_sequence(cursor: Cursor, place: Place) -> Type:
    return parse_fields_or_list(cursor, place, False)


def parse_set(cursor: Cursor, place: Place) -> Type:
    return parse_fields_or_list(cursor, place, True)


def parse_fields_or_list(cursor: Cursor, place: Place, is_set: bool) -> Type:
    """`{ .. }`, `OF Type`, or a constraint between (25, 26, 51.1)."""
    if cursor.sees("{"):
        return components.parse_fields(cursor, place, is_set)
    found: tuple[Constraint, ...] = ()
    if cursor.sees("SIZE"):
        found = (constraints.parse_part(cursor),)
    elif cursor.sees("("):
        found = (constraints.parse_constraint(cursor),)
    word = "SET" if is_set else "SEQUENCE"
    cursor.expect("OF", f"write '{word} {{ .. }}' or '{word} OF Type'")
    listed = ListType(place, is_set, parse_item(cursor))
    return ConstrainedType(place, listed, found) if found else listed


def parse_item(cursor: Cursor) -> Type:
    """The type after OF, of which a name may say what it is (26.1: NamedType)."""
    if cursor.sees_kind(Kind.LOWER) and cursor.peek(1).text != "<":
        cursor.next()
    return parse_type(cursor)


BASES: dict[str, Callable[[Cursor, Place], Type]] = {
    "ANY": parse_any,
    "BIT": parse_bit,
    "CHOICE": parse_choice,
    "ENUMERATED": parse_enumerated,
    "INSTANCE": parse_instance,
    "INTEGER": parse_integer,
    "CHARACTER": parse_character,
    "EMBEDDED": parse_embedded,
    "OBJECT": parse_object,
    "OCTET": parse_octet,
    "SEQUENCE": parse_sequence,
    "SET": parse_set,
}
