"""Values (X.680 17): object identifier values (32), and what stands in braces, once the type is known."""

from __future__ import annotations

from ..lexer import Kind, Token
from ..syntax import (
    Arc,
    BitsValue,
    BooleanValue,
    BracedValue,
    ChosenValue,
    ComponentValue,
    NullValue,
    NumberValue,
    OtherValue,
    ReferenceValue,
    TextValue,
    Value,
)
from .cursor import Cursor

BITS_OF = {Kind.BITS: 1, Kind.HEX: 4}


def sees_value(cursor: Cursor) -> bool:
    """Whether a value is next: a type's name begins with a capital, or is a word."""
    token = cursor.peek()
    if token.kind is Kind.UPPER:
        return cursor.peek(1).text == "." and cursor.peek(2).kind is Kind.LOWER
    if token.kind is Kind.WORD:
        return token.text in ("TRUE", "FALSE", "NULL", "PLUS-INFINITY", "MINUS-INFINITY")
    return token.kind in (Kind.NUMBER, Kind.TEXT, Kind.BITS, Kind.HEX, Kind.LOWER) or token.text in ("-", "{")


def parse_value(cursor: Cursor) -> Value:
    """A value, as far as its notation says what it is."""
    place, token = cursor.place, cursor.peek()
    if cursor.sees("{"):
        return parse_braced(cursor)
    if token.kind in (Kind.UPPER, Kind.LOWER, Kind.WORD) and cursor.peek(1).text == ":":
        return parse_within(cursor)
    if not sees_value(cursor):
        cursor.fail(f"{token} is no value", "write a number, TRUE, FALSE, a name, or a value in braces")
    if token.kind is Kind.UPPER:
        return parse_external(cursor)
    cursor.next()
    if token.kind is Kind.NUMBER:
        return NumberValue(place, int(token.text))
    if token.text == "-" and cursor.sees_kind(Kind.NUMBER):
        return NumberValue(place, -int(cursor.next().text))
    if token.kind is Kind.TEXT:
        return TextValue(place, token.text)
    if token.kind in BITS_OF:
        width = BITS_OF[token.kind]
        return BitsValue(place, "".join(f"{int(digit, 16):0{width}b}" for digit in token.text))
    if token.text in ("TRUE", "FALSE"):
        return BooleanValue(place, token.text == "TRUE")
    if token.text == "NULL":
        return NullValue(place)
    if token.kind is Kind.LOWER and (cursor.sees("{") or cursor.sees(".")):
        return parse_of_object(cursor, token)
    if token.kind is Kind.LOWER:
        return ReferenceValue(place, None, token.text)
    return OtherValue(place, token.text)


def parse_within(cursor: Cursor) -> ChosenValue | OtherValue:
    """`alternative : value` of a CHOICE (X.680 29.11), or `Type : value` of an open type (X.681 14.6)."""
    with cursor.nested("values", "give one of those within a name of its own, by an assignment"):
        first = cursor.next()
        cursor.next()
        value = parse_value(cursor)
        if first.kind is Kind.LOWER:
            return ChosenValue(first.place, first.text, value)
        return OtherValue(first.place, cursor.text_from(first))


def parse_of_object(cursor: Cursor, name: Token) -> OtherValue:
    """`name{parameters}` (X.683 9.2), or `object.&field` (X.681 15), whose first name is taken."""
    if cursor.sees("{"):
        cursor.balanced()
    parse_fields_of_fields(cursor)
    return OtherValue(name.place, cursor.text_from(name))


def parse_fields_of_fields(cursor: Cursor) -> tuple[str, ...]:
    """`.&field.&Field` after the name of a class or of an object (X.681 8), of which there may be none."""
    fields = []
    while cursor.take("."):
        fields.append(cursor.expect_kind(Kind.FIELD, "the name of a field", "write '.&field'").text)
    return tuple(fields)


def parse_external(cursor: Cursor) -> ReferenceValue:
    """`Module.name` (14.6)."""
    place, module = cursor.place, cursor.next().text
    cursor.next()
    return ReferenceValue(place, module, cursor.next().text)


def parse_braced(cursor: Cursor) -> BracedValue:
    """A value in braces; read as arcs too, where it can be an object identifier."""
    place, start = cursor.place, cursor.at
    cursor.balanced()
    inner = tuple(cursor.tokens[start + 1 : cursor.at - 1])
    return BracedValue(place, inner, arcs_of(inner), cursor.tokens[cursor.at - 1])


def arcs_of(tokens: tuple[Token, ...]) -> tuple[Arc, ...] | None:
    """The arcs of an object identifier value (32.3), or None where the items are none."""
    arcs: list[Arc] = []
    at = 0
    while at < len(tokens):
        kinds = [token.kind for token in tokens[at : at + 4]]
        texts = [token.text for token in tokens[at : at + 4]]
        place = tokens[at].place
        if kinds[:1] == [Kind.NUMBER]:
            arcs.append(Arc(place, None, int(texts[0])))
            at += 1
        elif kinds[:1] == [Kind.LOWER] and texts[1:2] == ["("] and texts[3:4] == [")"]:
            if kinds[2] not in (Kind.NUMBER, Kind.LOWER):
                return None
            number = int(texts[2]) if kinds[2] is Kind.NUMBER else ReferenceValue(tokens[at + 2].place, None, texts[2])
            arcs.append(Arc(place, texts[0], number))
            at += 4
        elif kinds[:3] == [Kind.UPPER, Kind.SYMBOL, Kind.LOWER] and texts[1] == ".":
            arcs.append(Arc(place, None, ReferenceValue(place, texts[0], texts[2])))
            at += 3
        elif kinds[:1] == [Kind.LOWER]:
            arcs.append(Arc(place, texts[0], None))
            at += 1
        else:
            return None
    return tuple(arcs)


# ---- values in braces, by their type


def component_values(value: BracedValue) -> tuple[ComponentValue, ...]:
    """`{ name value, .. }` of a SEQUENCE or a SET (25, 27)."""
    cursor = Cursor.over(value.tokens, value.end)
    found: list[ComponentValue] = []
    while not ends(cursor, bool(found)):
        instead = "write the components' values as '{ name value, .. }'"
        name = cursor.expect_kind(Kind.LOWER, "the name of a component", instead)
        found.append(ComponentValue(name.place, name.text, parse_value(cursor)))
    return tuple(found)


def bit_names(value: BracedValue) -> tuple[Token, ...]:
    """`{ name, .. }` of a BIT STRING (22.9)."""
    cursor = Cursor.over(value.tokens, value.end)
    found: list[Token] = []
    while not ends(cursor, bool(found)):
        found.append(cursor.expect_kind(Kind.LOWER, "the name of a bit", "write the names of bits as '{ name, .. }'"))
    return tuple(found)


def ends(cursor: Cursor, is_comma_due: bool) -> bool:
    """Whether the group ends here; the comma between two of its values is taken."""
    if cursor.sees("}"):
        return True
    if is_comma_due:
        cursor.expect(",", "write commas between the values")
    return False
