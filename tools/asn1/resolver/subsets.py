"""The values that constraints allow (X.680 49 to 51), of the types whose constraints are checked."""

from __future__ import annotations

from dataclasses import replace

from ..bounds import MACHINE, Elsewhere, Placed, bounds_of
from ..errors import AsnError, Place
from ..model import Alias, Allowed, Leaf, Measure, Resolved, Tagged, Use, Whole
from ..syntax import Alphabet, Combined, Constraint, Range, SingleValue, Size, TextValue
from .context import Context

Run = tuple[int, int]
Runs = tuple[Run, ...]

# Types whose characters have one octet each.
OF_OCTETS = frozenset(
    [
        Whole.NUMERIC_STRING,
        Whole.PRINTABLE_STRING,
        Whole.TELETEX_STRING,
        Whole.VIDEOTEX_STRING,
        Whole.IA5_STRING,
        Whole.VISIBLE_STRING,
    ]
)
# What may be asked of a type, and the numbers that there are of it.
SIZED = OF_OCTETS | {Whole.OCTET_STRING, Whole.BIT_STRING, Whole.UTF8_STRING}
SIZES = (0, 2**32 - 1)
CHARACTERS = (0, 127)
# The numbers that the library compares with.
LEAST, GREATEST = -(2**63), 2**63 - 1


def is_checked(context: Context) -> bool:
    """Whether constraints are checked here: an annotation, and one of the whole module, say that they are not."""
    return context.checks and not context.env.scope.module.is_unchecked and not context.notes.has("unchecked")


def narrowed(
    context: Context, leaf: Leaf, constraints: tuple[Placed, ...], named: dict[str, int]
) -> tuple[Leaf, tuple[Placed, ...]]:
    """The type with the values that constraints allow, and the constraints that are not checked."""
    left = []
    for constraint in constraints:
        found = constrained(context, leaf, constraint, named)
        if found is None:
            left.append(constraint)
        else:
            leaf = found
    return leaf, tuple(left)


def narrowed_name(
    context: Context, found: Use, constraints: tuple[Placed, ...]
) -> tuple[Resolved, tuple[Placed, ...]]:
    """The same of a type that has a name, which stays where nothing is checked: else it is the library's type after its tags."""
    tags, type_, named = through(found)
    if not isinstance(type_, Leaf):
        return found, constraints
    leaf, left = narrowed(context, type_, constraints, named)
    return (found if leaf == type_ else behind(tags, leaf)), left


def unconstrained(context: Context, place: Place, found: Resolved) -> Resolved:
    """A type of which all values are read: that of a component with a DEFAULT, whose name may have a constraint."""
    tags, leaf, _ = through(found)
    if not isinstance(leaf, Leaf) or leaf.allowed is None:
        return found
    context.remark(place, "the constraint of a component with a DEFAULT")
    return behind(tags, replace(leaf, allowed=None))


def through(found: Resolved | None) -> tuple[list[Tagged], Resolved | None, dict[str, int]]:
    """The tags of a type, what stands after them and after its names, and the names of its numbers."""
    tags: list[Tagged] = []
    named: dict[str, int] = {}
    while isinstance(found, Tagged) or (isinstance(found, Use) and isinstance(found.definition, Alias)):
        if isinstance(found, Tagged):
            tags.append(found)
            found = found.of
        else:
            assert isinstance(found.definition, Alias)
            named |= {one.name: one.number for one in found.definition.numbers}
            found = found.definition.type
    return tags, found, named


def behind(tags: list[Tagged], type_: Resolved) -> Resolved:
    """A type after these tags."""
    for tag in reversed(tags):
        type_ = replace(tag, of=type_)
    return type_


def constrained(context: Context, leaf: Leaf, constraint: Placed, named: dict[str, int]) -> Leaf | None:
    """The type with the values that a constraint allows, of those that it had; None where the constraint can't be checked."""
    if isinstance(constraint, Elsewhere):
        return constrained(context.within(constraint.env), leaf, constraint.of, named)
    if leaf.is_owned or not is_checked(context):
        return None
    found = allowed_of(context, leaf, constraint, named)
    if found is None or not is_told(found):
        return None
    return Leaf(leaf.whole, leaf.is_owned, leaf.width, leaf.octets, simplest(constraint, leaf, both(leaf.allowed, found)))


def allowed_of(context: Context, leaf: Leaf, constraint: Constraint, named: dict[str, int]) -> Allowed | None:
    """The values that a constraint allows, where that can be told."""
    library, env = context.state.library, context.env
    if isinstance(constraint, Combined):
        return combined(context, leaf, constraint, named)
    if leaf.whole is Whole.MACHINE_INTEGER and isinstance(constraint, (SingleValue, Range)):
        bounds = bounds_of(library, env, constraint, named)
        least, greatest = universe(leaf, Measure.NUMBER)
        low = least if bounds.low is None else bounds.low
        high = greatest if bounds.high is None else bounds.high
        return Allowed(Measure.NUMBER, run(low, high))
    if leaf.whole in SIZED and isinstance(constraint, Size):
        return sizes_of(context, constraint.of)
    if leaf.whole in OF_OCTETS and isinstance(constraint, Alphabet):
        return characters_of(context, constraint.of)
    return None


def run(low: int, high: int) -> Runs:
    return ((low, high),) if low <= high else ()


def sizes_of(context: Context, constraint: Constraint) -> Allowed | None:
    """The sizes of a SIZE constraint (51.5), which is one of an INTEGER (0..MAX)."""
    if isinstance(constraint, Combined):
        parts = [sizes_of(context, part) for part in constraint.parts]
        return merged(constraint, parts, SIZES)
    if not isinstance(constraint, (SingleValue, Range)):
        return None
    bounds = bounds_of(context.state.library, context.env, constraint, {})
    low, high = bounds.low or 0, SIZES[1] if bounds.high is None else bounds.high
    return Allowed(Measure.SIZE, run(low, high))


def characters_of(context: Context, constraint: Constraint) -> Allowed | None:
    """The characters of a FROM constraint (51.7): those of strings, and those between two characters."""
    if isinstance(constraint, Combined):
        parts = [characters_of(context, part) for part in constraint.parts]
        return merged(constraint, parts, CHARACTERS)
    if isinstance(constraint, SingleValue) and isinstance(constraint.value, TextValue):
        codes = sorted({ord(character) for character in constraint.value.text})
        return Allowed(Measure.CHARACTER, joined(tuple((code, code) for code in codes)))
    if isinstance(constraint, Range):
        ends = (end_of(constraint.low, constraint.above_low, 1), end_of(constraint.high, constraint.below_high, -1))
        low, high = CHARACTERS[0] if constraint.low is None else ends[0], CHARACTERS[1] if constraint.high is None else ends[1]
        return None if low is None or high is None else Allowed(Measure.CHARACTER, run(low, high))
    return None


def end_of(value: object, is_open: bool, step: int) -> int | None:
    """The code of a character that is the end of a range."""
    if not isinstance(value, TextValue) or len(value.text) != 1:
        return None
    return ord(value.text) + (step if is_open else 0)


# ---- sets of values


def combined(context: Context, leaf: Leaf, constraint: Combined, named: dict[str, int]) -> Allowed | None:
    """What a union, an intersection or an EXCEPT allows (50.8); an extensible constraint allows other values too (53)."""
    parts = [allowed_of(context, leaf, part, named) for part in constraint.parts]
    known = [part for part in parts if part is not None]
    if constraint.extensible or not parts or len(known) != len(parts):
        return None
    measures = {part.measure for part in known}
    if len(measures) == 1 and None not in measures:
        measure = known[0].measure
        assert measure is not None
        return merged(constraint, parts, universe(leaf, measure))
    if constraint.operator == "EXCEPT":
        return None
    return Allowed(any_of=tuple(known)) if constraint.operator == "|" else Allowed(all_of=tuple(known))


def merged(constraint: Combined, parts: list[Allowed | None], whole: Run) -> Allowed | None:
    """The same of parts that speak of one measure, by their runs."""
    known = [part for part in parts if part is not None]
    if constraint.extensible or not parts or len(known) != len(parts):
        return None
    runs = [part.runs for part in known]
    if constraint.operator == "EXCEPT":
        kept, excluded = ((whole,), runs[0]) if len(runs) == 1 else (runs[0], runs[1])
        return Allowed(known[0].measure, shared(kept, complement(excluded, whole)))
    found = runs[0]
    for one in runs[1:]:
        found = joined((*found, *one)) if constraint.operator == "|" else shared(found, one)
    return Allowed(known[0].measure, found)


def joined(runs: Runs) -> Runs:
    """Runs in order, with those that touch made one."""
    found: list[Run] = []
    for low, high in sorted(runs):
        if found and low <= found[-1][1] + 1:
            found[-1] = (found[-1][0], max(high, found[-1][1]))
        else:
            found.append((low, high))
    return tuple(found)


def shared(first: Runs, other: Runs) -> Runs:
    """The numbers that are in both."""
    pairs = [(max(a, c), min(b, d)) for a, b in first for c, d in other]
    return joined(tuple(pair for pair in pairs if pair[0] <= pair[1]))


def complement(runs: Runs, whole: Run) -> Runs:
    """The numbers of the whole that are in none of the runs."""
    found: list[Run] = []
    following = whole[0]
    for low, high in joined(runs):
        if following < low:
            found.append((following, min(low - 1, whole[1])))
        following = max(following, high + 1)
    if following <= whole[1]:
        found.append((following, whole[1]))
    return tuple(found)


def universe(leaf: Leaf, measure: Measure) -> Run:
    """All numbers that a type has of a measure."""
    if measure is Measure.NUMBER:
        machine = MACHINE[leaf.width or "u8"]
        assert machine.low is not None and machine.high is not None
        return machine.low, machine.high
    return SIZES if measure is Measure.SIZE else CHARACTERS


def is_told(allowed: Allowed) -> bool:
    """Whether the library compares with all numbers in it: of 64 bits with their sign."""
    parts = (*allowed.any_of, *allowed.all_of)
    return all(is_told(part) for part in parts) and all(LEAST <= low and high <= GREATEST for low, high in allowed.runs)


def both(first: Allowed | None, other: Allowed) -> Allowed:
    """What two constraints allow, one after another (51.1)."""
    if first is None:
        return other
    if first.measure is not None and first.measure is other.measure:
        return Allowed(first.measure, shared(first.runs, other.runs))
    return Allowed(all_of=(*(first.all_of or (first,)), other))


def simplest(constraint: Constraint, leaf: Leaf, allowed: Allowed) -> Allowed | None:
    """None where all values are allowed; that no value is allowed is an error."""
    if allowed.measure is None:
        return allowed
    whole = universe(leaf, allowed.measure)
    runs = shared(allowed.runs, (whole,))
    if not runs:
        raise AsnError(constraint.place, f"this constraint leaves no value of {leaf.whole.value}", "write a lower and a higher end in this order")
    return None if runs == (whole,) else Allowed(allowed.measure, runs)
