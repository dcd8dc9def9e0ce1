"""Constraints (X.680 49 to 51, X.682)."""

from __future__ import annotations

from ..errors import Place
from ..syntax import (
    Alphabet,
    Combined,
    Constraint,
    Containing,
    Included,
    Range,
    SingleValue,
    Size,
    Table,
    Unchecked,
    Value,
)
from . import types
from .cursor import Cursor
from .values import parse_value, sees_value


def parse_constraints(cursor: Cursor) -> tuple[Constraint, ...]:
    """The constraints after a type, of which there may be none."""
    found = []
    while cursor.sees("("):
        found.append(parse_constraint(cursor))
    return tuple(found)


def parse_constraint(cursor: Cursor) -> Constraint:
    """`( .. )`, with its extension marker and its exception (49.6, 50.1, 53)."""
    with cursor.nested("constraints", "leave parentheses out"):
        return parse_constraint_here(cursor)


def parse_constraint_here(cursor: Cursor) -> Constraint:
    place = cursor.place
    cursor.expect("(", "write the constraint in parentheses")
    root = parse_union(cursor)
    if cursor.take(","):
        cursor.expect("...", "after the comma of a constraint stands '...' (X.680 50.1)")
        root = Combined(place, "|", (root,), True)
        if cursor.take(","):
            parse_union(cursor)
    take_exception(cursor)
    cursor.expect(")", "close the constraint")
    return root


def take_exception(cursor: Cursor) -> None:
    """`! value`, `! Type : value`: what a program does with what it does not know, which changes no octets (53.4)."""
    if not cursor.take("!"):
        return
    if not sees_value(cursor):
        types.parse_type(cursor)
        cursor.expect(":", "write an exception as '! number' or '! Type : value'")
    parse_value(cursor)


def parse_union(cursor: Cursor) -> Constraint:
    """Parts with `|` or UNION between them (50.1)."""
    place, parts = cursor.place, [parse_intersection(cursor)]
    while cursor.take("|") or cursor.take("UNION"):
        parts.append(parse_intersection(cursor))
    return parts[0] if len(parts) == 1 else Combined(place, "|", tuple(parts))


def parse_intersection(cursor: Cursor) -> Constraint:
    """Parts with `^` or INTERSECTION between them, each perhaps with an EXCEPT."""
    place, parts = cursor.place, [parse_exception(cursor)]
    while cursor.take("^") or cursor.take("INTERSECTION"):
        parts.append(parse_exception(cursor))
    return parts[0] if len(parts) == 1 else Combined(place, "^", tuple(parts))


def parse_exception(cursor: Cursor) -> Constraint:
    """`ALL EXCEPT part`, `part EXCEPT part`, or a part."""
    place = cursor.place
    if cursor.take("ALL", "EXCEPT"):
        return Combined(place, "EXCEPT", (parse_part(cursor),))
    part = parse_part(cursor)
    if cursor.take("EXCEPT"):
        return Combined(place, "EXCEPT", (part, parse_part(cursor)))
    return part


def parse_part(cursor: Cursor) -> Constraint:
    """One of the elements of 50.5 and 51."""
    place = cursor.place
    if cursor.take("..."):
        return Combined(place, "|", (), True)
    if cursor.sees("("):
        return parse_group(cursor)
    if cursor.take("SIZE"):
        return Size(place, parse_constraint(cursor))
    if cursor.take("FROM"):
        return Alphabet(place, parse_constraint(cursor))
    if cursor.take("CONTAINING"):
        return parse_containing(cursor, place)
    if cursor.sees("{"):
        return parse_table(cursor)
    if cursor.peek().text in ("WITH", "PATTERN", "CONSTRAINED", "ENCODED", "SETTINGS"):
        return parse_unchecked(cursor)
    if cursor.sees("MIN") or sees_value(cursor):
        return parse_range(cursor)
    cursor.take("INCLUDES")
    return Included(place, types.parse_type(cursor))


def parse_group(cursor: Cursor) -> Constraint:
    """Elements in parentheses."""
    with cursor.nested("constraints", "leave parentheses out"):
        cursor.next()
        inner = parse_union(cursor)
    cursor.expect(")", "close the constraint")
    return inner


def parse_containing(cursor: Cursor, place: Place) -> Constraint:
    """`CONTAINING Type`, perhaps with `ENCODED BY value` (X.682 11)."""
    first = cursor.peek()
    inner = types.parse_type(cursor)
    if cursor.take("ENCODED", "BY"):
        parse_value(cursor)
        return Unchecked(place, f"CONTAINING {cursor.text_from(first)}")
    return Containing(place, inner)


def parse_table(cursor: Cursor) -> Table:
    """`{ObjectSet}`, perhaps with `{@field, ..}` (X.682 10)."""
    first = cursor.peek()
    while cursor.sees("{"):
        cursor.balanced()
    return Table(first.place, cursor.text_from(first))


def parse_unchecked(cursor: Cursor) -> Unchecked:
    """A constraint that stands as text: WITH COMPONENT(S), PATTERN, CONSTRAINED BY, ENCODED BY."""
    first = cursor.next()
    if cursor.peek().text in ("COMPONENT", "COMPONENTS", "BY"):
        cursor.next()
    if cursor.sees("{") or cursor.sees("("):
        cursor.balanced()
    else:
        parse_value(cursor)
    return Unchecked(first.place, cursor.text_from(first))


def parse_range(cursor: Cursor) -> Constraint:
    """`value`, or `low..high` with `<` where an end is left out (51.2, 51.4)."""
    place = cursor.place
    low = None if cursor.take("MIN") else parse_value(cursor)
    above_low = cursor.take("<")
    if not cursor.take(".."):
        if low is None or above_low:
            cursor.fail(f"{cursor.peek()} stands where '..' is expected", "write a range as 'low..high'")
        return SingleValue(place, low)
    below_high = cursor.take("<")
    high: Value | None = None if cursor.take("MAX") else parse_value(cursor)
    return Range(place, low, high, above_low, below_high)
