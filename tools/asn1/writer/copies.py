"""Terms that prove copies of a type, of which a copy takes more than the value, from those of its fields, one by one.

A quote of the logic names the data of an impl at a concrete type, and not its laws; so a law of a field is named by the
impl that proves it, and joined with those of the others by the words of `MemberLaws`.
"""

from __future__ import annotations

from ..model import Choice, Definition, Enumeration, Field, Leaf, Listed, Presence, Resolved, Tagged, Use, Whole
from ..properties import properties_of, properties_of_definition
from ..spelling import snake
from .equality import BREAK, choice_of, member_of, named, tag_of_marker
from . import markers
from .fields import AT_ONCE
from .names import LAWS
from .source import Source
from .types import CHARACTERS, WHOLES, default_type, field_type, rust_type


class Copies:
    """The copies that a file speaks of."""

    def __init__(self, source: Source) -> None:
        self.source = source

    # ---- names

    def quote(self, type_: str, trait: str) -> str:
        if trait != "PartialEq":
            self.source.use(trait.split("<")[0])
        return f"⟦<{type_} as {trait}>⟧"

    def word(self, key: str) -> str:
        return self.source.word(key)

    def of_library(self, key: str, trait: str) -> str:
        """The laws of a trait of one of the library's types, by the name that this file gives them."""
        module, type_ = LAWS[key]
        alias = f"{key.lower()}_{snake(trait)}"
        self.source.page_word(f"{module}.{type_}{trait}.TheImpl.Laws as {alias}", "")
        return alias

    def of_definition(self, definition: Definition, trait: str) -> str:
        """The laws of a trait of a type that is written too."""
        module = self.source.plan.module(definition, "contracts")
        alias = f"{snake(definition.rust)}_{snake(trait)}"
        self.source.page_word(f"{module}.{definition.rust}{trait}.TheImpl.Laws as {alias}", "")
        return alias

    def law(self, alias: str, member: str) -> str:
        return f"{alias}.{self.source.member(member)}-law"

    def member(self, type_: Resolved, trait: str, path: str) -> str:
        """A member of what octets mean: of whole encodings by `Form`, of contents by `FormValue`."""
        quoted = self.quote(rust_type(self.source, type_), trait)
        return f"{quoted}.{'.'.join(self.source.member(name) for name in path.split('.'))}"

    # ---- fields

    def first(self, type_: Resolved) -> str:
        """That the octets of a value start with its tag."""
        return f"({self.word('first_of')} {choice_of(self.source, rust_type(self.source, type_))})"

    def first_of_field(self, part: Field) -> str:
        """That the octets of a field start with its first tag, by its presence."""
        equality = choice_of(self.source, rust_type(self.source, part.type))
        if part.presence is Presence.ALWAYS:
            return self.first(part.type)
        if part.presence is Presence.OPTIONAL:
            return f"({self.word('first_of_option')} {equality})"
        return f"({self.word('first_of_default')} {equality} (λ x. x.value) {self.default(part)})"

    def form(self, type_: Resolved) -> str:
        return self.quote(rust_type(self.source, type_), "Form")

    def default(self, part: Field) -> str:
        """The encoding of a field's default."""
        quoted = self.quote(default_type(self.source, part), f"DefaultOf<{rust_type(self.source, part.type)}>")
        return f"{quoted}.{self.source.member('octets')}"

    # ---- copies of a type

    def encoding_copies(self, type_: Resolved) -> str:
        """That a copy has the same encoding, and all else that a copy has."""
        type_ = named(type_)
        if isinstance(type_, Leaf) and type_.whole is Whole.ANY:
            traits = [self.of_library(leaf_key(type_), trait) for trait in ("Duplicate", "DuplicateIsEqual")]
            return self.copies_of(traits[0], traits[1], True)
        if isinstance(type_, Use) and isinstance(type_.definition, Choice):
            if properties_of_definition(type_.definition).is_copy:
                return self.same(type_, self.equal_to_itself(type_.definition), True)
            traits = [self.of_definition(type_.definition, trait) for trait in ("Duplicate", "DuplicateIsEqual")]
            return self.copies_of(traits[0], traits[1], True)
        tag = tag_of_marker(self.source, markers.of_type(self.source, type_))
        return f"({self.word('one_tag_copies')} {tag} {self.contents_copies(type_)})"

    def same(self, type_: Resolved, equal: str, whole: bool) -> str:
        """Of a value whose copy is the value: it is equal to itself."""
        trait, at = ("Form", "") if whole else ("FormValue", "value.")
        names = ("encoding" if whole else "contents", "comparable", "re_reads")
        parts = " ".join(self.member(type_, trait, at + name) for name in names)
        eq = self.quote(rust_type(self.source, type_), "PartialEq")
        return f"({self.word('same_copies')} {parts} {eq}.eq {equal})"

    def equal_to_itself(self, definition: Definition) -> str:
        """That the values of a derived `Eq` are equal to themselves."""
        return f"{self.law(self.of_definition(definition, 'Eq'), 'laws')}.{self.source.member('laws.refl')}"

    def copies_of(self, copies: str, equal: str, whole: bool) -> str:
        """The laws of `Duplicate` or of `DuplicateValue`, and that a copy is equal."""
        of_whole = ("copy_encoding", "copy_comparable", "copy_re_reads")
        names = of_whole if whole else ("copy_contents", "copy_comparable_value", "copy_re_reads_value")
        keys = ("octets_are", "comparable_are", "re_reads_are")
        parts = [f"{key} = {self.law(copies, name)}" for key, name in zip(keys, names)]
        parts.append(f"equal_are = {self.law(equal, 'copy_is_equal' if whole else 'copy_value_is_equal')}")
        return f"(record {{ {'; '.join(parts)} }})"

    def contents_copies(self, type_: Resolved) -> str:
        """The same of contents octets, of a type with one tag."""
        type_ = named(type_)
        if is_compared(type_) and (not isinstance(type_, Leaf) or properties_of(type_).is_copy):
            equality = member_of(self.source, rust_type(self.source, type_))
            return self.same(type_, f"(λ v. ({equality}.equal v v tt).1 {self.word('refl')})", False)
        if isinstance(type_, Leaf):
            traits = [self.of_library(leaf_key(type_), trait) for trait in ("DuplicateValue", "DuplicateValueIsEqual")]
            return self.copies_of(traits[0], traits[1], False)
        if isinstance(type_, Use):
            if properties_of_definition(type_.definition).is_copy:
                return self.same(type_, self.equal_to_itself(type_.definition), False)
            traits = [self.of_definition(type_.definition, trait) for trait in ("DuplicateValue", "DuplicateValueIsEqual")]
            return self.copies_of(traits[0], traits[1], False)
        assert isinstance(type_, Tagged)
        if not type_.is_explicit:
            return f"({self.word('held_copies')} (λ x. x.value) {self.contents_copies(type_.of)})"
        inner = rust_type(self.source, type_.of)
        copies = self.encoding_copies(type_.of)
        alone = self.member_copies(inner, self.first(type_.of), copies, self.word("no_copies"))
        return f"({self.word('held_copies')} (λ x. x.fields) ({self.word('listed_copies')} {alone}))"

    # ---- copies of a list of fields

    def member_copies(self, type_: str, first: str, copies: str, rest: str) -> str:
        return f"({self.word('member_copies')} {self.quote(type_, 'Form')}{BREAK}{first}{BREAK}{copies}{BREAK}{rest})"

    def member_of_copies(self, part: Field, rest: str) -> str:
        """The copies of a field, by its presence, and those of the others."""
        type_, form, copies = field_type(self.source, part), self.form(part.type), self.encoding_copies(part.type)
        if part.presence is Presence.OPTIONAL:
            copies = f"({self.word('optional_copies')} {form} {copies})"
        if part.presence is Presence.DEFAULT:
            copies = f"({self.word('default_copies')} {form} {copies} (λ x. x.value) {self.default(part)})"
        return self.member_copies(type_, self.first_of_field(part), copies, rest)

    def list_copies(self, fields: tuple[Field, ...], end: str = "no_copies") -> str:
        """The copies of a list of fields, and of what stands after them."""
        found = self.word(end)
        if len(fields) > AT_ONCE:
            found = f"({self.word('part_copies')} (λ x. x.list) {self.list_copies(fields[AT_ONCE:], end)})"
        for part in reversed(fields[:AT_ONCE]):
            found = self.member_of_copies(part, found)
        return found


def is_compared(type_: Resolved) -> bool:
    """Whether any two values of a type may be compared: a leaf, a list, and an ENUMERATED."""
    return isinstance(type_, (Leaf, Listed)) or (isinstance(type_, Use) and isinstance(type_.definition, Enumeration))


def way_to_list(type_: Listed) -> str:
    """The way to a list from a list of which not all values are allowed."""
    if type_.allowed is not None:
        return ".value"
    return ".list" if type_.is_never_empty else ""


def leaf_key(leaf: Leaf) -> str:
    """The library's type, as the table of laws calls it."""
    if leaf.whole is Whole.BOOLEAN:
        return "bool"
    if leaf.whole is Whole.MACHINE_INTEGER:
        return leaf.width or "u8"
    if leaf.whole in CHARACTERS:
        return CHARACTERS[leaf.whole][0] + ("" if leaf.is_owned else "Ref")
    return WHOLES[leaf.whole][1 if leaf.is_owned else 0]
