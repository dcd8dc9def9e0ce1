"""The types of the library: which one a type of ASN.1 is, by its constraints and annotations."""

from __future__ import annotations

from ..bounds import FREE, MACHINE, Bounds, Elsewhere, Placed, both, bounds_of, holds, narrowest, size_of
from ..errors import AsnError
from ..model import Leaf, Named, Whole
from ..properties import WHOLES
from ..syntax import (
    Alphabet,
    AnyType,
    BitStringType,
    Combined,
    Containing,
    IntegerType,
    Simple,
    SimpleType,
    Size,
    Table,
    Unchecked,
)
from ..values import numbers_of
from .context import Context
from .kept import refuse
from .lacking import LACKING
from .subsets import narrowed

# An object identifier has 39 contents octets, as those of the crate `der`, where no annotation says another number.
OCTETS_OF_AN_IDENTIFIER = 39

ALWAYS_OWNED = frozenset([Simple.BMP_STRING])
NEVER_OWNED = frozenset(
    [
        Simple.BOOLEAN,
        Simple.NULL,
        Simple.UTC_TIME,
        Simple.GENERALIZED_TIME,
        Simple.VIDEOTEX_STRING,
        Simple.GENERAL_STRING,
        Simple.NUMERIC_STRING,
        Simple.VISIBLE_STRING,
        Simple.RELATIVE_OID,
    ]
)


def simple(context: Context, type_: SimpleType, constraints: tuple[Placed, ...]) -> Leaf:
    """A type with no parts of its own."""
    if type_.simple in LACKING:
        refuse(type_.place, type_.simple)
    octets = None
    if type_.simple is Simple.OBJECT_IDENTIFIER:
        octets = int(context.notes.argument("max") or OCTETS_OF_AN_IDENTIFIER)
    is_owned = type_.simple in ALWAYS_OWNED
    if type_.simple not in NEVER_OWNED | ALWAYS_OWNED:
        is_owned = context.notes.has("owned")
    return checked(context, Leaf(whole_of(context, type_.simple), is_owned, None, octets), constraints, {})


def whole_of(context: Context, kind: Simple) -> Whole:
    """The type of the library; of a GeneralizedTime an annotation says which."""
    if kind is Simple.GENERALIZED_TIME and context.notes.has("fraction"):
        return Whole.FRACTIONAL_TIME
    return WHOLES[kind]


def checked(context: Context, leaf: Leaf, constraints: tuple[Placed, ...], named: dict[str, int]) -> Leaf:
    """A type with the constraints that are checked, and a remark on each other one."""
    leaf, left = narrowed(context, leaf, constraints, named)
    for constraint in left:
        remark_on(context, constraint)
    return leaf


def any_value(context: Context, type_: AnyType, constraints: tuple[Placed, ...]) -> Leaf:
    """ANY, or an open type."""
    for constraint in constraints:
        if not isinstance(constraint.of if isinstance(constraint, Elsewhere) else constraint, Table):
            remark_on(context, constraint)
    return Leaf(Whole.ANY, context.notes.has("owned"))


def bit_string(
    context: Context, type_: BitStringType, constraints: tuple[Placed, ...]
) -> tuple[Leaf, tuple[Named, ...]]:
    """BIT STRING, with the names of its bits."""
    bits = numbers_of(context.state.library, context.env, type_.named)
    negative = [name for name, number in bits.items() if number < 0]
    if negative:
        raise AsnError(type_.place, f"the bit '{negative[0]}' has a negative number", "number bits from 0")
    whole = Whole.NAMED_BITS if bits else Whole.BIT_STRING
    leaf = checked(context, Leaf(whole, not bits and context.notes.has("owned")), constraints, {})
    return leaf, tuple(Named(*one) for one in bits.items())


def integer(
    context: Context, type_: IntegerType, constraints: tuple[Placed, ...]
) -> tuple[Leaf, tuple[Named, ...]]:
    """INTEGER: the machine integer that its bounds or its annotation say, or one of any length."""
    numbers = numbers_of(context.state.library, context.env, type_.named)
    bounds = FREE
    for constraint in constraints:
        bounds = both(bounds, bounds_of(context.state.library, context.env, constraint, numbers))
    names = tuple(Named(*one) for one in numbers.items())
    asked = context.notes.one_of([*MACHINE, "signed", "unsigned"])
    if asked in MACHINE:
        assert asked is not None
        check_width(context, type_, asked, bounds, numbers)
        return machine_integer(context, type_, asked, bounds, constraints, numbers), names
    width = None if asked else width_of(bounds, numbers)
    if width is not None:
        remark_on_names(context, type_, width, bounds)
        return machine_integer(context, type_, width, bounds, constraints, numbers), names
    is_natural = asked == "unsigned" or (asked is None and bounds.low is not None and bounds.low >= 0)
    if not bounds.exact or bounds not in (FREE, Bounds(0, None)):
        context.remark(type_.place, f"INTEGER of any length: {bounds_text(bounds)} is not checked")
    whole = Whole.NATURAL if is_natural else Whole.INTEGER
    return Leaf(whole, context.notes.has("owned")), names


def width_of(bounds: Bounds, numbers: dict[str, int]) -> str | None:
    """The machine integer that the bounds say, or else the names of numbers."""
    if bounds.is_free and numbers:
        return narrowest(Bounds(min(numbers.values()), max(numbers.values())))
    return narrowest(bounds)


def machine_integer(
    context: Context,
    type_: IntegerType,
    width: str,
    bounds: Bounds,
    constraints: tuple[Placed, ...],
    numbers: dict[str, int],
) -> Leaf:
    """A machine integer, of which the constraints that are checked may exclude some numbers."""
    leaf, left = narrowed(context, Leaf(Whole.MACHINE_INTEGER, width=width), constraints, numbers)
    if left == constraints:
        if bounds.low is not None and bounds.high is not None:
            remark_on_bounds(context, type_, width, bounds)
    else:
        for constraint in left:
            remark_on(context, constraint)
    return leaf


def check_width(
    context: Context, type_: IntegerType, width: str, bounds: Bounds, numbers: dict[str, int]
) -> None:
    """The machine integer that an annotation says has to have the names' numbers, and all numbers within bounds."""
    for name, number in numbers.items():
        if not holds(width, Bounds(number, number)):
            raise AsnError(type_.place, f"'@{width}' has no {number}, which is '{name}'", "write a wider one")
    if bounds.low is not None and bounds.high is not None and not holds(width, bounds):
        raise AsnError(
            type_.place, f"'@{width}' has not all of {bounds_text(bounds)}", f"write '@{narrowest(bounds)}', or nothing"
        )
    if bounds.low is None or bounds.high is None:
        context.remark(type_.place, f"INTEGER as {width}: other numbers are refused")


def remark_on_bounds(context: Context, type_: IntegerType, width: str, bounds: Bounds) -> None:
    """A machine integer may have more numbers than the bounds."""
    machine = MACHINE[width]
    if bounds.is_free:
        return
    if (bounds.low, bounds.high) != (machine.low, machine.high) or not bounds.exact:
        context.remark(type_.place, f"INTEGER as {width}: {bounds_text(bounds)} is not checked")


def remark_on_names(context: Context, type_: IntegerType, width: str, bounds: Bounds) -> None:
    """Names of numbers bound nothing (19.1): a machine integer that they alone say refuses numbers that X.680 allows."""
    if not bounds.is_free:
        return
    refused = f"a number outside {MACHINE[width].low}..{MACHINE[width].high} is refused"
    wider = next((f"'-- @{one}' takes more, and " for one in ("i32", "i64", "i128") if int(one[1:]) > int(width[1:])), "")
    context.say(
        type_.place,
        f"INTEGER as {width}, by the numbers that have names: {refused}; {wider}'-- @signed' takes all",
        f"{refused[0].upper()}{refused[1:]}: the names alone say how wide the type is.",
    )


def bounds_text(bounds: Bounds) -> str:
    low = "MIN" if bounds.low is None else bounds.low
    high = "MAX" if bounds.high is None else bounds.high
    return f"({low}..{high})"


def remark_on(context: Context, constraint: Placed) -> None:
    """Says that a constraint is not checked."""
    if isinstance(constraint, Elsewhere):
        remark_on(context.within(constraint.env), constraint.of)
    elif isinstance(constraint, Containing):
        context.remark(constraint.place, "the octets that CONTAINING speaks of are not read")
    elif isinstance(constraint, Alphabet):
        context.remark(constraint.place, "FROM is not checked")
    elif isinstance(constraint, Table):
        context.remark(constraint.place, f"{constraint.text} is not checked")
    elif isinstance(constraint, Unchecked):
        context.remark(constraint.place, f"{constraint.text} is not checked")
    elif isinstance(constraint, Size):
        size = size_of(context.state.library, context.env, constraint)
        assert size is not None
        context.remark(constraint.place, f"SIZE {bounds_text(size)} is not checked")
    elif isinstance(constraint, Combined) and not constraint.parts:
        return
    else:
        context.remark(constraint.place, "which values are allowed is not checked")
