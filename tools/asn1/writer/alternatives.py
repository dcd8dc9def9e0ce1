"""The alternatives of a CHOICE, their tree, and terms that go by them."""

from __future__ import annotations

from collections.abc import Callable
from dataclasses import dataclass

from ..model import Alias, Choice, Resolved, Use
from ..spelling import snake
from .source import Source


@dataclass
class Alternatives:
    """The alternatives of a CHOICE as its file writes them."""

    choice: Choice
    lifetime: str
    types: list[str]  # of each alternative, in code
    leaves: list[str]  # of each leaf of the tree: the same, or the two halves of a CHOICE that is split

    @property
    def names(self) -> list[str]:
        return [part.rust for part in self.choice.alternatives]

    @property
    def whole(self) -> str:
        return self.choice.rust + self.lifetime

    @property
    def parts(self) -> list[Resolved]:
        """The types of the leaves."""
        return parts_of(self.choice)

    def leaf(self, index: int) -> int:
        """Which leaf an alternative is, or is in."""
        return leaf_of(self.choice, index)[0]

    def half(self, index: int) -> Choice | None:
        """The half that an alternative is in, of a CHOICE that is split."""
        return leaf_of(self.choice, index)[1]

    @staticmethod
    def choice_of(type_: Resolved) -> Choice | None:
        """The CHOICE that an alternative is, which has more tags than one."""
        while isinstance(type_, Use) and isinstance(type_.definition, Alias):
            assert type_.definition.type is not None
            type_ = type_.definition.type
        return type_.definition if isinstance(type_, Use) and isinstance(type_.definition, Choice) else None

    @property
    def view(self) -> str:
        """The function of the page that gives the tree of a value."""
        return "tree_of"

    @property
    def variants(self) -> str:
        """The module of the variants, as ghost members call it."""
        return "of"


def parts_of(choice: Choice) -> list[Resolved]:
    """The types of the leaves of a tree."""
    if choice.halves:
        return [Use(half) for half in choice.halves]
    return [part.type for part in choice.alternatives]


def leaf_of(choice: Choice, index: int) -> tuple[int, Choice | None]:
    """The leaf of the tree that an alternative stands in, and the half that this is."""
    left = index
    for number, half in enumerate(choice.halves):
        if left < len(half.alternatives):
            return number, half
        left -= len(half.alternatives)
    return index, None


# ---- the tree


def halves(count: int) -> int:
    """How many alternatives stand in the first half of a tree."""
    return (count + 1) // 2


def tree(source: Source, types: list[str]) -> str:
    """The alternatives as a balanced tree of CHOICEs of two."""
    if len(types) == 1:
        return types[0]
    middle = halves(len(types))
    return f"{source.use('OneOf')}<{tree(source, types[:middle])}, {tree(source, types[middle:])}>"


def at(index: int, count: int, wrap: Callable[[str, str], str], value: str) -> str:
    """The value of an alternative, in the tree."""
    if count == 1:
        return value
    middle = halves(count)
    if index < middle:
        return wrap("First", at(index, middle, wrap, value))
    return wrap("Other", at(index - middle, count - middle, wrap, value))


def depth(index: int, count: int) -> int:
    """How deep an alternative stands in the tree."""
    if count == 1:
        return 0
    middle = halves(count)
    return 1 + (depth(index, middle) if index < middle else depth(index - middle, count - middle))


def quote(all_of: Alternatives, trait: str) -> str:
    return f"⟦<Tree{all_of.lifetime} as {trait}>⟧"


# ---- terms


def ghosts(members: list[tuple[str, str]]) -> str:
    return "\n\n".join(f"    ghost {name} = {{ {term} }};" for name, term in members)


def by_variants(all_of: Alternatives, motive: str, term: Callable[[int], str]) -> str:
    """A term by the alternatives, with what it is to be a proof of."""
    cases = " | ".join(f"{all_of.variants}.{name} x ↦ {term(i)}" for i, name in enumerate(all_of.names))
    return f"elim v as (λ k. {motive}) [ {cases} ]"


def law(source: Source, all_of: Alternatives, index: int, name: str, trait: str = "Tagged") -> str:
    """A law of a trait of an alternative that is a CHOICE itself."""
    choice = all_of.choice_of(all_of.parts[all_of.leaf(index)])
    assert choice is not None
    target = source.plan.of(choice)
    path = f"{target.crate}.specs.contracts.{target.module}.{snake(choice.rust)}"
    alias = f"{snake(choice.rust)}_{trait.lower()}"
    source.page_word(f"{path}.{choice.rust}{trait}.TheImpl.Laws as {alias}", "")
    return f"{alias}.{name}-law"


def value_in_leaf(source: Source, all_of: Alternatives, index: int) -> str:
    """The value `x` of an alternative, as the leaf of the tree has it."""
    half = all_of.half(index)
    if half is None:
        return "x"
    alias = snake(half.rust)
    source.page_word(f"{source.target.crate}.specs.declared.{source.target.module}.{alias}.{half.rust}.TheVariants as {alias}", "")
    return f"({alias}.{all_of.names[index]} x)"


def first_tag_law(source: Source, all_of: Alternatives, index: int) -> str:
    if all_of.choice_of(all_of.parts[all_of.leaf(index)]):
        value = value_in_leaf(source, all_of, index)
        return f"{law(source, all_of, index, source.member('has_first_tag'), 'Choice')} {value}"
    tag, is_tag = source.member("HasFirstTag.tag"), source.member("HasFirstTag.is_tag")
    return f"record {{ {tag} = _; {is_tag} = {source.word('refl')} }}"


def first_tags(source: Source, all_of: Alternatives) -> str:
    """That a value's encoding begins with a tag, by its alternatives."""
    place = f"{quote(all_of, 'Form')}.{source.member('first_tag_of')} ({all_of.view} k)"
    return by_variants(
        all_of, f"{source.word('HasFirstTag')} ({place})", lambda i: first_tag_law(source, all_of, i)
    )
