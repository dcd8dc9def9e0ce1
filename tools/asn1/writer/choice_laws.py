"""Copies and the known tags of a CHOICE, from those of its alternatives."""

from __future__ import annotations

from ..model import Resolved
from ..properties import properties_of_definition
from .alternatives import Alternatives, first_tags, ghosts, halves, quote, tree
from .equality import BREAK, choice_of, own_eq, same_equality
from .copies import Copies
from .source import Source
from .values import COPIES, copy_laws, law_of_copies


class TreeLaws:
    """Laws of the tree of alternatives, node by node."""

    def __init__(self, source: Source, all_of: Alternatives) -> None:
        self.source = source
        self.all_of = all_of
        self.laws = Copies(source)

    def types(self) -> list[Resolved]:
        return self.all_of.parts

    def node(self, indices: list[int]) -> str:
        """The type of a node."""
        return tree(self.source, [self.all_of.leaves[i] for i in indices])

    def sides(self, indices: list[int]) -> tuple[list[int], list[int]]:
        middle = halves(len(indices))
        return indices[:middle], indices[middle:]

    def has_tags(self, indices: list[int]) -> str:
        """That an encoding of a node is a tag and contents octets."""
        return f"{choice_of(self.source, self.node(indices))}.has_tag"

    def copies(self, indices: list[int]) -> str:
        """That a copy of a value of a node has its encoding, and all else."""
        if len(indices) == 1:
            return self.laws.encoding_copies(self.types()[indices[0]])
        first, other = self.sides(indices)
        forms = " ".join(self.laws.quote(self.node(part), "Form") for part in (first, other))
        eq = self.laws.quote(self.node(indices), "PartialEq") + ".eq"
        return (
            f"({self.source.word('either_copies')} {forms}{BREAK}{self.has_tags(first)}{BREAK}{self.has_tags(other)}"
            f"{BREAK}{self.copies(first)}{BREAK}{self.copies(other)}{BREAK}{eq} (λ v x. refl) (λ w y. refl))"
        )

    def known(self, indices: list[int]) -> str:
        """That the tags of a node are among those that are known of it."""
        m = self.source.member
        if len(indices) == 1:
            type_ = self.types()[indices[0]]
            choice = self.all_of.choice_of(type_)
            if choice is not None:
                return self.laws.law(self.laws.of_definition(choice, "KnownTags"), "are_known")
            return f"({self.source.word('own_is_known')} _)"
        first, other = self.sides(indices)
        parts = []
        for trait, member in (("KnownTags", "known_tags"), ("Form", "tags")):
            parts += [f"{self.laws.quote(self.node(part), trait)}.{m(member)}" for part in (first, other)]
        return f"({self.source.word('known_either')} {' '.join(parts)} {self.known(first)} {self.known(other)})"


def everything(all_of: Alternatives) -> list[int]:
    return list(range(len(all_of.leaves)))


def copies(source: Source, all_of: Alternatives) -> str:
    """That a copy is as the value: the value itself where it is small, else as copies of the tree."""
    m = source.member
    if properties_of_definition(all_of.choice).is_copy:
        form = f"⟦<{all_of.whole} as Form>⟧"
        equal = Copies(source).equal_to_itself(all_of.choice)
        members = " ".join(f"{form}.{m(name)}" for name in ("encoding", "comparable", "re_reads"))
        return f"({source.word('same_copies')} {members} {own_eq(all_of)} {equal})"
    inner = TreeLaws(source, all_of).copies(everything(all_of))
    tree_eq = f"{quote(all_of, 'PartialEq')}.eq"
    seen = f"{source.word('seen_copies')} {all_of.view} {own_eq(all_of)} {tree_eq}"
    return f"({seen} {same_equality(source, all_of, tree_eq)} {inner})"


def duplicate(source: Source, all_of: Alternatives) -> str:
    """Copies of a value."""
    m, view = source.member, all_of.view
    copy_laws(source, all_of.whole, all_of.lifetime, copies(source, all_of))
    names = (m("copy_encoding"), m("copy_comparable"), m("copy_re_reads"))
    terms = [law_of_copies(source, all_of.whole, key) for key in COPIES]
    if properties_of_definition(all_of.choice).is_copy:
        is_copy, takes = f"λ v w. w {source.word('≡')} v", source.word("false")
        body = f"        Ok({source.use('copy_of')}(self))"
    else:
        q = quote(all_of, "Duplicate")
        is_copy, takes = f"λ v w. {q}.{m('is_copy')} ({view} v) ({view} w)", f"{q}.{m('takes_memory_to_copy')}"
        body = "        match self {\n" + "\n".join(copy_arm(all_of, name) for name in all_of.names) + "\n        }"
    return (
        f"impl{all_of.lifetime} {source.use('Duplicate')} for {all_of.whole} {{\n"
        f"    ghost {m('is_copy')} = {{ {is_copy} }};\n\n    ghost {m('takes_memory_to_copy')} = {{ {takes} }};\n\n"
        f"    fn duplicate(&self) -> Result<{all_of.whole}, {source.use('Error')}> {{\n{body}\n    }}\n\n"
        f"{ghosts(list(zip(names, terms)))}\n}}"
    )


def duplicate_is_equal(source: Source, all_of: Alternatives) -> str:
    """That a copy is equal."""
    return (
        f"impl{all_of.lifetime} {source.use('DuplicateIsEqual')} for {all_of.whole} {{\n"
        f"    ghost {source.member('copy_is_equal')} = {{ {law_of_copies(source, all_of.whole, 'equal_are')} }};\n}}"
    )


def copy_arm(all_of: Alternatives, name: str) -> str:
    rust = all_of.choice.rust
    return (
        f"            {rust}::{name}(value) => match value.duplicate() {{\n"
        f"                Ok(value) => Ok({rust}::{name}(value)),\n                Err(e) => Err(e),\n            }},"
    )


def known_tags(source: Source, all_of: Alternatives) -> str:
    """The tags as a list, where they are known."""
    q, m = quote(all_of, "KnownTags"), source.member
    members = [
        (m("known_tags"), f"{q}.{m('known_tags')}"),
        (m("MAY_BE_ABSENT"), source.word("false")),
        (m("are_known"), TreeLaws(source, all_of).known(everything(all_of))),
        (m("is_there"), f"λ e v. {first_tags(source, all_of)}"),
    ]
    return f"impl{all_of.lifetime} {source.use('KnownTags')} for {all_of.whole} {{\n{ghosts(members)}\n}}"
