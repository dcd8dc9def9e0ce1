"""Constraints: the type of the library that names one, in code and in the logic, and the term of the page of the grammar."""

from __future__ import annotations

from typing import Protocol

from ..model import Allowed, Measure, Whole
from .source import Page, Source

CONSTANTS = 2**64  # how many numbers a constant has: the logic has a negative one as its two's complement
MARKERS = {Measure.NUMBER: "InRange", Measure.SIZE: "HasSize", Measure.CHARACTER: "CharacterRange"}


class Words(Protocol):
    """A page that names words of the library's constraints."""

    def constraint_word(self, name: str) -> str:
        """A word, which is imported."""
        ...


# ---- in code


def constraint_type(source: Source, allowed: Allowed) -> str:
    """The type that names a constraint."""
    if allowed.measure is None:
        parts = [constraint_type(source, part) for part in allowed.any_of or allowed.all_of]
        return nested(source.use("UnionOf" if allowed.any_of else "IntersectionOf"), parts)
    marker = source.use(MARKERS[allowed.measure])
    runs = [f"{marker}<{low}, {high}>" for low, high in allowed.runs]
    if allowed.measure is Measure.CHARACTER:
        return f"{source.use('HasCharacters')}<{nested('CharacterUnion', runs, source)}>"
    return nested("UnionOf", runs, source)


def nested(outer: str, parts: list[str], source: Source | None = None) -> str:
    """Two at a time: `UnionOf<A, UnionOf<B, C>>`."""
    if len(parts) == 1:
        return parts[0]
    name = outer if source is None else source.use(outer)
    return f"{name}<{parts[0]}, {nested(name, parts[1:])}>"


# ---- in the logic


def logic_constraint(page: Page, allowed: Allowed) -> str:
    """The same type as the logic has it."""
    if allowed.measure is None:
        parts = [logic_constraint(page, part) for part in allowed.any_of or allowed.all_of]
        return joined(page.logic("UnionOf" if allowed.any_of else "IntersectionOf"), parts)
    marker = page.logic(MARKERS[allowed.measure])
    runs = [f"{marker} {low % CONSTANTS} {high % CONSTANTS}" for low, high in allowed.runs]
    if allowed.measure is Measure.CHARACTER:
        found = runs[0] if len(runs) == 1 else joined(page.logic("CharacterUnion"), runs)
        return f"{page.logic('HasCharacters')} ({found})"
    return runs[0] if len(runs) == 1 else joined(page.logic("UnionOf"), runs)


def joined(outer: str, parts: list[str]) -> str:
    """Two at a time, each in parentheses."""
    if len(parts) == 1:
        return parts[0]
    return f"{outer} ({parts[0]}) ({joined(outer, parts[1:])})"


# ---- on the page of the grammar


def allowed_term(words: Words, allowed: Allowed, size_word: str) -> str:
    """Which contents octets are those of values that are allowed; the word says what a size counts."""
    if allowed.measure is None:
        parts = [allowed_term(words, part, size_word) for part in allowed.any_of or allowed.all_of]
        return joined(words.constraint_word("union" if allowed.any_of else "intersection"), parts)
    if allowed.measure is Measure.CHARACTER:
        name = words.constraint_word("characters")
        found = joined_if_many(words, "either_set", [f"{name} {low} {high}" for low, high in allowed.runs])
        return f"{words.constraint_word('permitted')} ({found})"
    if allowed.measure is Measure.NUMBER:
        name = words.constraint_word("range")
        ends = [f"{integer(words, low)} {integer(words, high)}" for low, high in allowed.runs]
    else:
        name = words.constraint_word(size_word)
        ends = [f"{low} {high}" for low, high in allowed.runs]
    return joined_if_many(words, "union", [f"{name} {one}" for one in ends])


def joined_if_many(words: Words, outer: str, parts: list[str]) -> str:
    return parts[0] if len(parts) == 1 else joined(words.constraint_word(outer), parts)


def integer(words: Words, number: int) -> str:
    """An integer of the logic."""
    name = words.constraint_word("pos" if number >= 0 else "negsuc")
    return f"({name} {number if number >= 0 else -number - 1})"


def size_word_of(whole: Whole) -> str:
    """What a size of a type with no items counts."""
    if whole is Whole.BIT_STRING:
        return "size_in_bits"
    return "size_in_characters" if whole is Whole.UTF8_STRING else "size_in_octets"
