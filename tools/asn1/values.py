"""What values come to: numbers, and the arcs of object identifiers (X.680 19, 32)."""

from __future__ import annotations

from collections.abc import Container
from itertools import count

from .errors import AsnError, Place
from .scope import Binding, Env, Library, check_names
from .syntax import (
    Arc,
    BracedValue,
    NamedNumber,
    NumberValue,
    ReferenceValue,
    Value,
    ValueAssignment,
)

# The names of arcs that stand with no number (32.3, X.660 annex A), by the arcs before them.
KNOWN_ARCS = {
    (): {"itu-t": 0, "ccitt": 0, "iso": 1, "joint-iso-itu-t": 2, "joint-iso-ccitt": 2},
    (0,): {"recommendation": 0, "question": 1, "administration": 2, "network-operator": 3, "identified-organization": 4},
    (1,): {"standard": 0, "registration-authority": 1, "member-body": 2, "identified-organization": 3},
}

# How many object identifiers may stand first in one another.
MOST_NAMES = 64


def number_of(library: Library, env: Env, value: Value, named: dict[str, int] | None = None) -> int:
    """The number that a value comes to; `named` are the names of numbers of its type."""
    last = value
    if isinstance(value, ReferenceValue):
        last = assigned_value(library, env, value, named or {})[1]
    if named and isinstance(last, ReferenceValue) and last.module is None and last.name in named:
        return named[last.name]
    if isinstance(last, NumberValue):
        return last.number
    raise AsnError(last.place, "this value is no number", "write a number, or the name of one")


def assigned_value(library: Library, env: Env, value: Value, own: Container[str] = ()) -> tuple[Env, Value]:
    """What a name of a value stands for, by the names that stand for one another, and the names within it; `own` are the
    names of the type's numbers, which come before those of values."""
    found: Value = value
    seen: set[tuple[str, str]] = set()
    while isinstance(found, ReferenceValue) and (found.module is not None or found.name not in own):
        binding = env.bindings.get(found.name) if found.module is None else None
        if binding is not None:
            env, found = binding.env, value_of(binding, found)
            continue
        scope, assignment = library.find(env, found.name, found.place, found.module)
        key = (scope.module.name, found.name)
        if key in seen:
            raise AsnError(found.place, f"the value '{found.name}' stands for itself", "assign a number or arcs to one of the names")
        seen.add(key)
        if not isinstance(assignment, ValueAssignment):
            break
        env, found = Env(scope), assignment.value
    return env, found


def value_of(binding: Binding, name: ReferenceValue) -> Value:
    """The value that is given for a parameter (X.683 9.5)."""
    if binding.actual.value is None:
        raise AsnError(name.place, f"'{name.name}' stands for no value here", "give a value as the parameter")
    return binding.actual.value


def numbers_of(library: Library, env: Env, named: tuple[NamedNumber, ...]) -> dict[str, int]:
    """Named numbers or bits, whose names and numbers differ (19.4, 19.5, 22.4, 22.5)."""
    found: dict[str, int] = {}
    for one in named:
        number = one.number if isinstance(one.number, int) else number_of(library, env, wanted(one))
        if one.name in found:
            raise AsnError(one.place, f"the name '{one.name}' stands twice", "give one another name")
        if number in found.values():
            raise AsnError(one.place, f"the number {number} has two names", "leave one out")
        found[one.name] = number
    return found


def wanted(one: NamedNumber) -> ReferenceValue:
    assert isinstance(one.number, ReferenceValue)
    return one.number


def enumeration_of(library: Library, env: Env, named: tuple[NamedNumber, ...]) -> dict[str, int]:
    """The numbers of an ENUMERATED: of the root, of which those left out are the next that none of it has (20.3), and then
    of the additions."""
    check_names([(one.place, one.name) for one in named], "name")
    root = tuple(one for one in named if not one.is_addition)
    given = numbers_of(library, env, tuple(one for one in root if one.number is not None))
    taken = set(given.values())
    found: dict[str, int] = {}
    following = 0
    for one in root:
        while following in taken:
            following += 1
        found[one.name] = given.get(one.name, following)
        taken.add(found[one.name])
    return found | additions_of(library, env, named[len(root) :], taken)


def additions_of(library: Library, env: Env, named: tuple[NamedNumber, ...], root: set[int]) -> dict[str, int]:
    """The numbers of the additions, each greater than those of the additions before it: one left out is the least of these
    that the root has not (20.5 to 20.7)."""
    found: dict[str, int] = {}
    least = 0
    for one in named:
        if one.number is None:
            number = next(number for number in count(least) if number not in root)
        else:
            number = one.number if isinstance(one.number, int) else number_of(library, env, one.number)
            check_addition(one, number, root, tuple(found.values()))
        found[one.name] = number
        least = max(least, number + 1)
    return found


def check_addition(one: NamedNumber, number: int, root: set[int], before: tuple[int, ...]) -> None:
    """An addition has a number that the root has not, and that is above those of the additions before it (20.5, 20.6)."""
    instead = "write a greater one, or leave the number out (X.680 20.7)"
    if number in root:
        raise AsnError(one.place, f"the number {number} of '{one.name}' is one of those before '...'", instead)
    if before and number <= before[-1]:
        raise AsnError(one.place, f"the number {number} of '{one.name}' is not greater than {before[-1]}, before it", instead)


def arcs_of(library: Library, env: Env, value: Value, before: tuple[Value, ...] = ()) -> tuple[int, ...]:
    """The arcs of an object identifier value; `before` are those whose first arcs are its."""
    if isinstance(value, ReferenceValue):
        env, value = assigned_value(library, env, value)
    is_within = any(value is one for one in before)
    if is_within or len(before) == MOST_NAMES:
        problem = "stands first in itself" if is_within else f"has more than {MOST_NAMES} names one before another"
        raise AsnError(value.place, f"this object identifier {problem}", "write its arcs out")
    if not isinstance(value, BracedValue) or not value.arcs:
        raise AsnError(value.place, "this is no object identifier", "write '{ iso(1) member-body(2) .. }'")
    arcs: tuple[int, ...] = ()
    for arc in value.arcs:
        arcs += one_arc(library, env, arc, arcs, (*before, value))
    check_arcs(arcs, value.place)
    return arcs


def one_arc(library: Library, env: Env, arc: Arc, before: tuple[int, ...], by: tuple[Value, ...]) -> tuple[int, ...]:
    """One arc, or all of an object identifier whose name stands first."""
    if isinstance(arc.number, int):
        return (arc.number,)
    if arc.name is not None and arc.number is None:
        known = KNOWN_ARCS.get(before, {})
        if arc.name in known:
            return (known[arc.name],)
    reference = arc.number if isinstance(arc.number, ReferenceValue) else ReferenceValue(arc.place, None, arc.name or "")
    inner, found = assigned_value(library, env, reference)
    if isinstance(found, ReferenceValue):
        raise AsnError(arc.place, f"'{reference.name}' is no value", "write a number, or the name of an object identifier")
    if isinstance(found, NumberValue):
        return (found.number,)
    if before:
        raise AsnError(arc.place, f"the object identifier '{reference.name}' does not stand first", "write it first")
    return arcs_of(library, inner, found, by)


def check_arcs(arcs: tuple[int, ...], place: Place) -> None:
    """The first arc is 0, 1 or 2, and the second below 40 where that is 0 or 1 (X.660 A.2)."""
    if len(arcs) < 2:
        raise AsnError(place, "an object identifier has at least two arcs", "write the second too")
    if arcs[0] > 2 or (arcs[0] < 2 and arcs[1] > 39):
        raise AsnError(place, f"no object identifier begins with {arcs[0]}.{arcs[1]}", "write 0, 1 or 2, and then below 40")


def contents(arcs: tuple[int, ...]) -> list[int]:
    """The contents octets of an object identifier (X.690 8.19)."""
    found: list[int] = []
    for number in (arcs[0] * 40 + arcs[1], *arcs[2:]):
        octets = [number & 0x7F]
        while number > 0x7F:
            number >>= 7
            octets.append(number & 0x7F | 0x80)
        found += reversed(octets)
    return found
