"""Modules (X.680 13), their assignments (16), and classes (X.681 9)."""

from __future__ import annotations

from ..errors import AsnError
from ..lexer import Kind, Token
from ..notes import Notes
from ..syntax import (
    Arc,
    Assignment,
    ClassAssignment,
    ClassField,
    Import,
    Module,
    Parameter,
    SetAssignment,
    TagDefault,
    TypeAssignment,
    ValueAssignment,
)
from .cursor import Cursor
from .types import parse_type
from .values import arcs_of, parse_value

# What may stand after the name of a type field (X.681 9.5); after that of a set field stands its type or its class.
AFTER_A_TYPE_FIELD = (",", "}", "OPTIONAL", "DEFAULT")


def parse_modules(file: str, text: str) -> list[Module]:
    """The modules of a file, of which there may be any number (X.680 13.1)."""
    cursor = Cursor(file, text)
    found = [parse_module(cursor, file)]
    while cursor.peek().kind is not Kind.END:
        found.append(parse_module(cursor, file))
    return found


def parse_module(cursor: Cursor, file: str) -> Module:
    """The module that begins here."""
    header = parse_header(cursor)
    is_unchecked = parse_begin(cursor)
    exports = parse_exports(cursor)
    imports = parse_imports(cursor)
    assignments = []
    while not cursor.take("END"):
        assignments.append(parse_assignment(cursor))
    name, identifier, tag_default = header
    return Module(name.place, name.text, identifier, tag_default, imports, exports, tuple(assignments), file, is_unchecked)


def parse_header(cursor: Cursor) -> tuple[Token, tuple[Arc, ...], TagDefault]:
    """`Name { identifier } DEFINITIONS .. TAGS ::= BEGIN` (13.1)."""
    name = cursor.expect_kind(Kind.UPPER, "the name of a module", "begin with 'Name DEFINITIONS ::= BEGIN'")
    identifier = parse_identifier(cursor)
    cursor.expect("DEFINITIONS", "write 'DEFINITIONS' after the module's name")
    tag_default = TagDefault.EXPLICIT
    if cursor.peek().text in ("EXPLICIT", "IMPLICIT", "AUTOMATIC"):
        tag_default = TagDefault(cursor.next().text)
        cursor.expect("TAGS", "write 'EXPLICIT TAGS', 'IMPLICIT TAGS' or 'AUTOMATIC TAGS'")
    cursor.is_extensible = cursor.take("EXTENSIBILITY")
    if cursor.is_extensible:
        cursor.expect("IMPLIED", "write 'EXTENSIBILITY IMPLIED'")
    cursor.expect("::=", "write '::= BEGIN' after the header")
    return name, identifier, tag_default


def parse_begin(cursor: Cursor) -> bool:
    """`BEGIN`, and whether '@unchecked' stands after it, which is said of the whole module."""
    with cursor.collecting() as annotations:
        cursor.expect("BEGIN", "write '::= BEGIN' after the header")
    notes = Notes(tuple(annotations))
    is_unchecked = notes.has("unchecked")
    notes.check_used("a module")
    return is_unchecked


def parse_identifier(cursor: Cursor) -> tuple[Arc, ...]:
    """`{ iso(1) .. }` after a module's name, if it is there."""
    if not cursor.sees("{"):
        return ()
    start = cursor.at
    cursor.balanced()
    arcs = arcs_of(tuple(cursor.tokens[start + 1 : cursor.at - 1]))
    if arcs is None:
        raise AsnError(cursor.tokens[start].place, "this is no object identifier", "write '{ iso(1) member-body(2) .. }'")
    return arcs


def parse_exports(cursor: Cursor) -> tuple[Token, ...] | None:
    """`EXPORTS a, B;`, or `EXPORTS ALL;` (13.1); None where all is exported."""
    if not cursor.take("EXPORTS"):
        return None
    if cursor.take("ALL"):
        cursor.expect(";", "end the exports with ';'")
        return None
    symbols = () if cursor.sees(";") else parse_symbols(cursor)
    cursor.expect(";", "write the exports with commas between them, and ';' after the last")
    return symbols


def parse_symbols(cursor: Cursor) -> tuple[Token, ...]:
    """Names of types, values, classes and sets; `Name{}` is parameterised (13.1)."""
    found = [parse_symbol(cursor)]
    while cursor.take(","):
        found.append(parse_symbol(cursor))
    return tuple(found)


def parse_symbol(cursor: Cursor) -> Token:
    if cursor.peek().kind not in (Kind.UPPER, Kind.LOWER):
        cursor.fail(f"{cursor.peek()} stands where a name is expected", "write the names with commas between them")
    token = cursor.next()
    if cursor.sees("{", "}"):
        cursor.balanced()
    return token


def parse_imports(cursor: Cursor) -> tuple[Import, ...]:
    """`IMPORTS a, B FROM Module { .. } ..;` (13.1)."""
    found: list[Import] = []
    if not cursor.take("IMPORTS"):
        return ()
    while not cursor.take(";"):
        symbols = parse_symbols(cursor)
        cursor.expect("FROM", "write 'FROM Module' after the names that are imported")
        name = cursor.expect_kind(Kind.UPPER, "the name of a module", "write 'FROM Module'")
        take_assigned_identifier(cursor)
        found.append(Import(name.place, name.text, symbols))
    return tuple(found)


def take_assigned_identifier(cursor: Cursor) -> None:
    """The object identifier of a module that is imported from, or the name of one (13.1)."""
    parse_identifier(cursor)
    if cursor.peek().kind is Kind.LOWER and not (cursor.peek(1).text in (",", "FROM", "{")):
        cursor.next()
    if cursor.sees("WITH"):
        cursor.fail("WITH SUCCESSORS is not taken", "leave it out: modules are found by their names")


# ---- assignments


def parse_assignment(cursor: Cursor) -> Assignment:
    """One assignment (16)."""
    first = cursor.peek()
    if first.kind is Kind.LOWER:
        return parse_value_assignment(cursor)
    if cursor.peek(1).text == "MACRO" or first.text == "MACRO":
        cursor.fail("MACRO is not taken", "write the types of the macro's values out (X.208 annex A is withdrawn)")
    if first.kind is Kind.END:
        cursor.fail("the end of the file stands where END is expected", "end the module with 'END'")
    if first.kind is not Kind.UPPER:
        cursor.fail(f"{first} stands where an assignment is expected", "write 'Name ::= Type' or 'name Type ::= value'")
    return parse_type_assignment(cursor)


def parse_value_assignment(cursor: Cursor) -> ValueAssignment:
    """`name Type ::= value` (16.2), perhaps with parameters after the name (X.683 8.1); an object looks the same."""
    name = cursor.next()
    parse_parameters(cursor)
    type_ = parse_type(cursor)
    cursor.expect("::=", "write 'name Type ::= value'")
    value = parse_value(cursor)
    return ValueAssignment(name.place, name.text, type_, value, cursor.source_from(name))


def parse_set_assignment(cursor: Cursor, name: Token) -> SetAssignment:
    """`Name GOVERNOR ::= { .. }` (X.681 12.1, X.680 16.6), of which the name and its parameters are taken."""
    governor = cursor.peek()
    parse_type(cursor)
    text = cursor.text_from(governor)
    cursor.expect("::=", "write 'Name CLASS ::= { .. }'")
    if not cursor.sees("{"):
        cursor.fail(f"{cursor.peek()} stands where '{{' is expected", "write a set in braces")
    cursor.balanced()
    return SetAssignment(name.place, name.text, text)


def parse_type_assignment(cursor: Cursor) -> TypeAssignment | ClassAssignment | SetAssignment:
    """`Name ::= Type`, `Name{Parameters} ::= Type`, `NAME ::= CLASS { .. }`, `Name GOVERNOR ::= { .. }`."""
    with cursor.collecting() as annotations:
        name = cursor.next()
        parameters = parse_parameters(cursor)
        if not cursor.sees("::="):
            return parse_set_assignment(cursor, name)
        cursor.next()
        if cursor.sees("CLASS"):
            return parse_class(cursor, name)
        type_ = parse_type(cursor)
    text = cursor.source_from(name)
    return TypeAssignment(name.place, name.text, parameters, type_, tuple(annotations), text)


def parse_parameters(cursor: Cursor) -> tuple[Parameter, ...]:
    """`{Governor:Name, Name}` (X.683 8.2)."""
    if not cursor.take("{"):
        return ()
    found = [parse_parameter(cursor)]
    while cursor.take(","):
        found.append(parse_parameter(cursor))
    cursor.expect("}", "write parameters as '{Type, CLASS:Set}'")
    return tuple(found)


def parse_parameter(cursor: Cursor) -> Parameter:
    if cursor.peek().kind in (Kind.SYMBOL, Kind.END):
        cursor.fail(f"{cursor.peek()} is no parameter", "write parameters as '{Type, CLASS:Set}'")
    first = cursor.next()
    words = [first.text]
    while cursor.peek().text not in (":", ",", "}") and cursor.peek().kind is not Kind.END:
        words.append(cursor.next().text)
    if not cursor.take(":"):
        if len(words) > 1 or first.kind not in (Kind.UPPER, Kind.LOWER):
            raise AsnError(first.place, f"'{' '.join(words)}' is no parameter", "write parameters as '{Type, CLASS:Set}'")
        return Parameter(first.place, None, words[0])
    if cursor.peek().kind not in (Kind.UPPER, Kind.LOWER):
        cursor.fail(f"{cursor.peek()} is no name of a parameter", "write parameters as '{Type, CLASS:Set}'")
    return Parameter(first.place, " ".join(words), cursor.next().text)


# ---- classes


def parse_class(cursor: Cursor, name: Token) -> ClassAssignment:
    """`CLASS { &id OBJECT IDENTIFIER UNIQUE, &Type } WITH SYNTAX { .. }` (X.681 9.3)."""
    cursor.next()
    cursor.expect("{", "write 'CLASS { &id OBJECT IDENTIFIER UNIQUE, &Type }'")
    fields = [parse_class_field(cursor)]
    while cursor.take(","):
        fields.append(parse_class_field(cursor))
    cursor.expect("}", "write the fields with commas between them, and '}' after the last")
    if cursor.take("WITH", "SYNTAX"):
        if not cursor.sees("{"):
            cursor.fail(f"{cursor.peek()} stands where '{{' is expected", "write 'WITH SYNTAX { .. }'")
        cursor.balanced()
    return ClassAssignment(name.place, name.text, tuple(fields))


def parse_class_field(cursor: Cursor) -> ClassField:
    """`&Type OPTIONAL`, `&value Type UNIQUE`, `&value &Type`, `&Set CLASS` (X.681 9.5 to 9.13)."""
    instead = "write a field as '&Type' or '&value Type'"
    token = cursor.expect_kind(Kind.FIELD, "the name of a field", instead)
    field_type = None
    if not cursor.sees_kind(Kind.FIELD) and (token.text[1].islower() or cursor.peek().text not in AFTER_A_TYPE_FIELD):
        field_type = parse_type(cursor)
    while cursor.peek().text not in (",", "}"):
        if cursor.peek().kind is Kind.END:
            cursor.fail("the end of the file stands where '}' is expected", instead)
        if cursor.sees("{") or cursor.sees("("):
            cursor.balanced()
        else:
            cursor.next()
    return ClassField(token.place, token.text, field_type)
