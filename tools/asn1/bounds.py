"""The bounds that constraints give (X.680 51.2, 51.4, 51.5)."""

from __future__ import annotations

from dataclasses import dataclass
from typing import Union

from .scope import Env, Library
from .syntax import Combined, Constraint, Range, SingleValue, Size, Value
from .values import number_of


@dataclass(frozen=True)
class Bounds:
    """The least and the greatest number, None where there is none; `exact` where no other constraint was left out."""

    low: int | None = None
    high: int | None = None
    exact: bool = True

    @property
    def is_free(self) -> bool:
        return self.low is None and self.high is None


FREE = Bounds()
UNKNOWN = Bounds(exact=False)


@dataclass(frozen=True)
class Elsewhere:
    """A constraint, and the names that it is understood by, where these are not those of the type before it."""

    env: Env
    of: Constraint


Placed = Union[Constraint, Elsewhere]


def placed(env: Env, constraints: tuple[Placed, ...]) -> tuple[Placed, ...]:
    """The constraints, each with the names that it is understood by: these, or those that it has already."""
    return tuple(one if isinstance(one, Elsewhere) else Elsewhere(env, one) for one in constraints)


def bounds_of(library: Library, env: Env, constraint: Placed, named: dict[str, int]) -> Bounds:
    """The bounds of a constraint on an INTEGER, or on a size."""
    if isinstance(constraint, Elsewhere):
        return bounds_of(library, constraint.env, constraint.of, named)
    if isinstance(constraint, SingleValue):
        number = number_of(library, env, constraint.value, named)
        return Bounds(number, number)
    if isinstance(constraint, Range):
        low = end_of(library, env, constraint.low, named, 1 if constraint.above_low else 0)
        high = end_of(library, env, constraint.high, named, -1 if constraint.below_high else 0)
        return Bounds(low, high)
    if isinstance(constraint, Combined):
        parts = [bounds_of(library, env, part, named) for part in constraint.parts]
        return combined(constraint, parts)
    return UNKNOWN


def end_of(library: Library, env: Env, value: Value | None, named: dict[str, int], step: int) -> int | None:
    return None if value is None else number_of(library, env, value, named) + step


def combined(constraint: Combined, parts: list[Bounds]) -> Bounds:
    """Of a union all, of an intersection what each has; an extensible one bounds nothing (53)."""
    if constraint.extensible or not parts:
        return UNKNOWN
    if constraint.operator == "^":
        found = parts[0]
        for part in parts[1:]:
            found = both(found, part)
        return found
    if constraint.operator == "EXCEPT":
        return UNKNOWN if len(parts) == 1 else Bounds(parts[0].low, parts[0].high, False)
    lows, highs = [part.low for part in parts], [part.high for part in parts]
    low = None if None in lows else min(low for low in lows if low is not None)
    high = None if None in highs else max(high for high in highs if high is not None)
    return Bounds(low, high, all(part.exact for part in parts) and is_one_run(parts))


def is_one_run(parts: list[Bounds]) -> bool:
    """Whether a union leaves no number between its parts out."""
    known = sorted((p.low, p.high) for p in parts if p.low is not None and p.high is not None)
    if len(known) != len(parts):
        return len(parts) == 1
    return all(after[0] <= before[1] + 1 for before, after in zip(known, known[1:]))


def both(first: Bounds, second: Bounds) -> Bounds:
    """What two constraints leave."""
    lows = [low for low in (first.low, second.low) if low is not None]
    highs = [high for high in (first.high, second.high) if high is not None]
    return Bounds(
        max(lows) if lows else None, min(highs) if highs else None, first.exact and second.exact
    )


def size_of(library: Library, env: Env, constraint: Placed) -> Bounds | None:
    """The bounds of a SIZE constraint; None where it is none."""
    if isinstance(constraint, Elsewhere):
        return size_of(library, constraint.env, constraint.of)
    if isinstance(constraint, Size):
        return bounds_of(library, env, constraint.of, {})
    if isinstance(constraint, Combined) and len(constraint.parts) == 1 and constraint.extensible:
        return None
    return None


# ---- machine integers

WIDTHS = (8, 16, 32, 64, 128)
MACHINE = {
    **{f"u{width}": Bounds(0, 2**width - 1) for width in WIDTHS},
    **{f"i{width}": Bounds(-(2 ** (width - 1)), 2 ** (width - 1) - 1) for width in WIDTHS},
}


def holds(width: str, bounds: Bounds) -> bool:
    """Whether a machine integer has all numbers within bounds."""
    machine = MACHINE[width]
    assert machine.low is not None and machine.high is not None
    return (
        bounds.low is not None and bounds.high is not None and machine.low <= bounds.low and bounds.high <= machine.high
    )


def narrowest(bounds: Bounds) -> str | None:
    """The narrowest machine integer with all numbers within bounds, unsigned where none is negative."""
    if bounds.low is None or bounds.high is None:
        return None
    sign = "u" if bounds.low >= 0 else "i"
    return next((f"{sign}{width}" for width in WIDTHS if holds(f"{sign}{width}", bounds)), None)
