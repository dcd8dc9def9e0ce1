"""How many items a list may have: SIZE of SEQUENCE OF and SET OF (X.680 51.5)."""

from __future__ import annotations

from ..bounds import Bounds, Elsewhere, Placed, size_of
from ..errors import AsnError
from ..model import Allowed, Measure
from ..syntax import Combined, ListType, Size
from . import leaves
from .context import Context
from .subsets import SIZES, both, is_checked, merged, shared, sizes_of

# The sizes of lists that have an item, for which the library has a type of its own.
NOT_EMPTY = Allowed(Measure.SIZE, ((1, SIZES[1]),))


def items_allowed(context: Context, type_: ListType, constraints: tuple[Placed, ...]) -> tuple[bool, Allowed | None]:
    """Whether the list has an item, where that is all that is asked of it; else how many items are allowed, if not any number."""
    found = None
    for constraint in constraints:
        one = told(context, constraint) or least(context, constraint)
        found = found if one is None else both(found, one)
    if found is None:
        return False, None
    runs = shared(found.runs, (SIZES,))
    if not runs:
        kind = "SET OF" if type_.is_set else "SEQUENCE OF"
        raise AsnError(type_.place, f"the constraints leave no value of this {kind}", "write a lower and a higher end in this order")
    is_never_empty = runs == NOT_EMPTY.runs
    return is_never_empty, None if is_never_empty or runs == (SIZES,) else Allowed(Measure.SIZE, runs)


def told(context: Context, constraint: Placed) -> Allowed | None:
    """The numbers of items that a constraint allows, where it speaks of nothing else and is checked here."""
    if isinstance(constraint, Elsewhere):
        return told(context.within(constraint.env), constraint.of)
    if isinstance(constraint, Combined):
        return merged(constraint, [told(context, part) for part in constraint.parts], SIZES)
    return sizes_of(context, constraint.of) if isinstance(constraint, Size) and is_checked(context) else None


def least(context: Context, constraint: Placed) -> Allowed | None:
    """Of a constraint that is not checked as it stands: that the list has an item, where it asks for one or more."""
    size = size_of(context.state.library, context.env, constraint)
    if size is None:
        leaves.remark_on(context, constraint)
        return None
    is_one = size.low is not None and size.low >= 1
    if size not in (Bounds(1, None), Bounds(0, None)):
        checked = "checked as (1..MAX)" if is_one else "not checked"
        context.remark(constraint.place, f"SIZE {leaves.bounds_text(size)} is {checked}")
    return NOT_EMPTY if is_one else None
