"""A CHOICE as an enum, whose meaning is that of a tree of its alternatives."""

from __future__ import annotations

from ..model import Alias, Choice, List, Resolved, Struct, Tagged, Use
from ..properties import properties_of_definition
from ..spelling import snake
from . import choice_laws, docs
from .alternatives import (
    Alternatives,
    at,
    by_variants,
    depth,
    first_tags,
    ghosts,
    halves,
    law,
    leaf_of,
    parts_of,
    quote,
    tree,
    value_in_leaf,
)
from .equality import choice_of, write_choice_member
from .module_laws import add_laws
from .plan import Plan
from .source import Page, Source
from .types import lifetime_of, logic_type, rust_type
from .values import derives


def write_choice(plan: Plan, choice: Choice) -> str:
    """The source file of a CHOICE."""
    source = Source(plan, plan.of(choice), plan.file(choice))
    lifetime = lifetime_of(properties_of_definition(choice).borrows)
    types = [rust_type(source, part.type) for part in choice.alternatives]
    leaves = [rust_type(source, part) for part in parts_of(choice)] if choice.halves else types
    all_of = Alternatives(choice, lifetime, types, leaves)
    source.add(f"/// The alternatives, as a tree.\ntype Tree{lifetime} = {tree(source, leaves)};")
    source.add(declaration(all_of))
    source.add(form(source, all_of))
    source.add(form_value(source, all_of))
    source.add(tagged(source, all_of))
    source.add(choice_trait(source, all_of))
    source.add(choice_laws.known_tags(source, all_of))
    source.add(decode(source, all_of))
    source.add(decode_field(source, all_of))
    source.add(encode(source, all_of))
    source.add(order(source, all_of))
    write_choice_member(source, all_of)
    source.add(choice_laws.duplicate(source, all_of))
    source.add(choice_laws.duplicate_is_equal(source, all_of))
    if not choice.is_half:
        add_laws(source, choice)
    name = choice.name[0].upper() + choice.name[1:] if choice.is_half else choice.name
    return source.text([f"//! {name}, a CHOICE of {len(types)} alternatives."])


# ---- the enum


def declaration(all_of: Alternatives) -> str:
    rows = "\n".join(
        f"    /// `{part.name}`, `{part.text}`.\n    {part.rust}({type_}),"
        for part, type_ in zip(all_of.choice.alternatives, all_of.types)
    )
    refused = "Reading refuses a tag that no alternative has (`ErrorKind::TagUnexpected`, 4), and the alternative's faults."
    return (
        f"{docs.of_definition(all_of.choice, refused)}\n{derives(all_of.choice)}\n"
        f"pub enum {all_of.whole} {{\n{rows}\n}}"
    )


def page_words(source: Source, all_of: Alternatives) -> None:
    """What ghost members need of the pages."""
    target = source.target
    source.page_word(f"{target.crate}.specs.{target.page}.{all_of.choice.rust}", all_of.view)


FORM = (
    ("encoding", 1),
    ("comparable", 2),
    ("re_reads", 1),
    ("accepts", -1),
    ("parse", 0),
    ("tags", 0),
    ("first_tag_of", 1),
    ("readable", 1),
    ("TAKES_MEMORY", 0),
    ("FAULTS_FIRST", 0),
    ("parse_of_accepted", -1),
    ("faults_of_octets", 0),
    ("begins", -1),
    ("begins_first", -1),
    ("same_length", -1),
    ("accepts_encoding", -1),
    ("only_readable", -1),
    ("accepts_comparable", -2),
    ("re_reads_memory", 1),
)


def form(source: Source, all_of: Alternatives) -> str:
    """What the whole encodings mean: member by member what those of the tree mean."""
    page_words(source, all_of)
    members = []
    for key, values in FORM:
        name = source.member(key)
        names = ["v", "w"][: abs(values)]
        seen = "".join(f" ({all_of.view} {value})" for value in names)
        rules = ["rules"] if values < 0 else []
        term = f"{quote(all_of, 'Form')}.{name}{''.join(f' {rule}' for rule in rules)}{seen}"
        members.append((name, f"λ {' '.join(rules + names)}. {term}" if names else term))
    return f"impl{all_of.lifetime} {source.use('Form')} for {all_of.whole} {{\n{ghosts(members)}\n}}"


def form_value(source: Source, all_of: Alternatives) -> str:
    return (
        f"impl{all_of.lifetime} {source.use('FormValue')} for {all_of.whole} {{\n"
        f"    ghost {source.member('value')} = {{ {source.word('mapped_format')} {all_of.view} "
        f"{quote(all_of, 'FormValue')}.{source.member('value')} }};\n}}"
    )


# ---- the tag


def tagged(source: Source, all_of: Alternatives) -> str:
    """The tag of a value, and that its encoding begins with it."""
    source.page_word(variants_module(source, all_of), "")
    form_q, value_q, tagged_q = (quote(all_of, trait) for trait in ("Form", "FormValue", "Tagged"))
    m, k = source.member, f"({all_of.view} k)"
    tag_of = f"{tagged_q}.{m('tag_of')}"
    has_tags = f"{choice_of(source, all_of.whole)}.has_tag"
    is_tlv = by_variants(
        all_of, f"{form_q}.{m('accepts')} rules {k} b → {source.word('IsTlv')} b", lambda i: tlv_law(source, all_of, i)
    )
    re_reads = by_variants(
        all_of,
        f"{value_q}.{m('value')}.{m('re_reads')} {k} ≡ {source.word('true')} → {form_q}.{m('re_reads')} {k} ≡ true",
        lambda i: re_reads_law(source, all_of, i),
    )
    members = [
        (m("encoding_is"), f"{has_tags}.encoding_is"),
        (m("accepted_is_tlv"), f"λ rules v b. {is_tlv}"),
        (m("own_tag"), f"{has_tags}.own_tag"),
        (m("first_tag_is"), f"{has_tags}.first_tag_is"),
        (m("re_reads_alike"), f"λ v. {re_reads}"),
        (m("comparable_alike"), "λ v w h. tt"),
    ]
    return (
        f"impl{all_of.lifetime} {source.use('Tagged')} for {all_of.whole} {{\n"
        f"    ghost {m('tag_of')} = {{ λ v. {tag_of} ({all_of.view} v) }};\n\n"
        f"    fn tag(&self) -> {source.use('Tag')} {{\n        match self {{\n"
        f"{arms(all_of, 'tag()')}\n        }}\n    }}\n\n"
        f"{ghosts(members)}\n}}"
    )


def variants_module(source: Source, all_of: Alternatives) -> str:
    target = source.target
    path = f"{target.crate}.specs.declared.{target.module}.{snake(all_of.choice.rust)}.{all_of.choice.rust}"
    return f"{path}.TheVariants as {all_of.variants}"


def re_reads_law(source: Source, all_of: Alternatives, index: int) -> str:
    if all_of.choice_of(all_of.parts[all_of.leaf(index)]):
        return f"{law(source, all_of, index, source.member('re_reads_alike'))} {value_in_leaf(source, all_of, index)}"
    return "λ h. h"


def tlv_law(source: Source, all_of: Alternatives, index: int) -> str:
    leaf = all_of.leaf(index)
    part = f"a{'.0' * depth(leaf, len(all_of.parts))}"
    if all_of.choice_of(all_of.parts[leaf]):
        value = value_in_leaf(source, all_of, index)
        return f"λ a. {law(source, all_of, index, source.member('accepted_is_tlv'))} rules {value} b {part}"
    accepts = f"⟦<{all_of.types[index]} as FormValue>⟧.{source.member('value')}.{source.member('accepts')}"
    return f"λ a. {source.word('tlv_tagged')} _ {accepts} rules x b {part}"


def choice_trait(source: Source, all_of: Alternatives) -> str:
    """Which tags it is read after. A method with no lifetime of its own, in an impl with one, writes its clause."""
    form_q, m = quote(all_of, "Form"), source.member
    clause = f"\n        ensures {{ result ≡ {form_q}.{m('tags')} tag }}\n   " if all_of.lifetime else ""
    turbofish = f"Tree::{all_of.lifetime}" if all_of.lifetime else "Tree"
    return (
        f"impl{all_of.lifetime} {source.use('Choice')} for {all_of.whole} {{\n"
        f"    fn can_decode(tag: {source.use('Tag')}) -> bool{clause} {{\n        {turbofish}::can_decode(tag)\n    }}\n\n"
        f"    ghost {m('has_first_tag')} = {{ λ v. {first_tags(source, all_of)} }};\n}}"
    )


# ---- reading and writing


def arms(all_of: Alternatives, call: str) -> str:
    return "\n".join(f"            {all_of.choice.rust}::{name}(value) => value.{call}," for name in all_of.names)


def decode(source: Source, all_of: Alternatives) -> str:
    """Reading by the tree."""
    seen = [place(source, all_of, i) for i in range(len(all_of.types))]
    rows = "\n".join(
        f"            Ok({place}) => Ok({all_of.choice.rust}::{name}(value))," for place, name in zip(seen, all_of.names)
    )
    turbofish = f"Tree::{all_of.lifetime}" if all_of.lifetime else "Tree"
    body = f"        match {turbofish}::decode(alloc, reader) {{\n{rows}\n            Err(e) => Err(e),\n        }}"
    return reading(source, all_of, "Decode", "decode", body)


def decode_field(source: Source, all_of: Alternatives) -> str:
    """Reading as a field: the same, since a value of a CHOICE is always there."""
    return reading(source, all_of, "DecodeField", "decode_field", f"        {all_of.choice.rust}::decode(alloc, reader)")


def reading(source: Source, all_of: Alternatives, trait: str, call: str, body: str) -> str:
    """One of the two traits of reading."""
    takes = "true" if properties_of_definition(all_of.choice).takes_memory else "false"
    source.word(takes)
    need, law_name = source.member("TAKES_MEMORY"), source.member("takes_memory_is")
    return (
        f"impl<'a, R: {source.use('Source')}<'a>> {source.use(trait)}<'a, R> for {all_of.whole} {{\n"
        f"    ghost {need} = {{ {takes} }};\n\n    const {need}: bool = {takes};\n\n"
        f"    fn {call}(alloc: {source.use('Global')}, reader: &mut R) -> Result<{all_of.whole}, {source.use('Error')}> {{\n"
        f"{body}\n    }}\n\n"
        f"    ghost {law_name} = {{ refl }};\n}}"
    )


def place(source: Source, all_of: Alternatives, index: int) -> str:
    """The value of an alternative, in the tree."""
    half = all_of.half(index)
    value = "value" if half is None else f"{source.use_type(half)}::{all_of.names[index]}(value)"
    return at(all_of.leaf(index), len(all_of.parts), lambda side, inner: f"OneOf::{side}({inner})", value)


def encode(source: Source, all_of: Alternatives) -> str:
    error, length = source.use("Error"), source.use("Length")
    return (
        f"impl{all_of.lifetime} {source.use('EncodeValue')} for {all_of.whole} {{\n"
        f"    fn value_len(&self) -> Result<{length}, {error}> {{\n        match self {{\n{arms(all_of, 'value_len()')}\n"
        f"        }}\n    }}\n\n"
        f"    fn encode_value<W: {source.use('Writer')}>(&self, writer: &mut W) -> Result<(), {error}> {{\n"
        f"        match self {{\n{arms(all_of, 'encode_value(writer)')}\n        }}\n    }}\n\n"
        f"    fn encode_value_back<W: {source.use('BackWriter')}>(&self, writer: &mut W) -> Result<(), {error}> {{\n"
        f"        match self {{\n{arms(all_of, 'encode_value_back(writer)')}\n        }}\n    }}\n}}"
    )


def order(source: Source, all_of: Alternatives) -> str:
    """The order of encodings: of two alternatives their headers decide."""
    name = all_of.choice.rust
    rows = "\n".join(f"            ({name}::{one}(value), {name}::{one}(other)) => value.der_cmp(other)," for one in all_of.names)
    return (
        f"impl{all_of.lifetime} {source.use('DerOrd')} for {all_of.whole} {{\n"
        f"    fn der_cmp(&self, other: &{all_of.whole}) -> Result<{source.use('Ordering')}, {source.use('Error')}> {{\n"
        f"        match (self, other) {{\n{rows}\n            _ => {source.use('cmp_headers')}(self, other),\n        }}\n    }}\n}}"
    )


# ---- the proof


def write_order_proof(plan: Plan, choice: Choice) -> dict[str, str]:
    """The proof of the order, where an alternative is a struct or a CHOICE with no tag before it, or a struct of many fields
    behind one: what its comparison says is said of the CHOICE, which the prover's search meets a limit at."""
    own = [part.rust for part in choice.alternatives if has_parts(part.type) or is_long(part.type)]
    if not own:
        return {}
    first = choice.alternatives[0].rust
    target = plan.of(choice)
    place = f"{target.module}.{snake(choice.rust)}.{choice.rust}DerOrd.der_cmp"
    text = f"-- The order of {choice.name}, of two values of one alternative.\n"
    text += f"use Rattle.{target.crate}.proofs.{place}.Goals as goal\n"
    for name in own:
        goal, arm = f"returns-in-{name}-{name}", f"in-{name}-{name}"
        call = "der_cmp" if name == first else f"der_cmp-{arm}"
        text += (
            f"\npub {goal} : goal.{goal}\n"
            f"{goal} c = rw c.{arm}.is-0 (rw c.{arm}.is-1 c.{call}.ensures)\n"
        )
    return {f"proofs/{place.replace('.', '/')}/Answers.antt": text}


def has_parts(type_: Resolved) -> bool:
    """Whether a type is a struct or a CHOICE that is written too, by whatever name."""
    while isinstance(type_, Use) and isinstance(type_.definition, Alias):
        assert type_.definition.type is not None
        type_ = type_.definition.type
    return isinstance(type_, Use) and isinstance(type_.definition, (Choice, Struct, List))


def is_long(type_: Resolved) -> bool:
    """Whether a type is a struct of more than four fields behind a tag, by whatever name."""
    while isinstance(type_, Tagged) or (isinstance(type_, Use) and isinstance(type_.definition, Alias)):
        inner = type_.of if isinstance(type_, Tagged) else type_.definition.type
        assert inner is not None
        type_ = inner
    return isinstance(type_, Use) and isinstance(type_.definition, Struct) and len(type_.definition.fields) > 4


# ---- the page


def write_choice_page(plan: Plan, choice: Choice) -> str:
    """The tree of a value, by its alternatives."""
    page = Page(plan, plan.of(choice), f"-- The alternatives of {choice.name}, as a tree.")
    parts = parts_of(choice)
    name = page.logic_type(choice)
    target = plan.of(choice)
    path = f"{target.crate}.specs.declared.{target.module}.{snake(choice.rust)}.{choice.rust}"
    page.from_module(f"{path}.TheVariants as of", "")
    types = [logic_type(page, part) for part in parts]

    def listed(parts: list[str]) -> str:
        if len(parts) == 1:
            return f"({parts[0]})" if " " in parts[0] else parts[0]
        middle = halves(len(parts))
        return f"({page.logic('OneOf')} {listed(parts[:middle])} {listed(parts[middle:])})"

    def wrap(side: str, inner: str) -> str:
        return f"{page.logic(side)} {f'({inner})' if ' ' in inner else inner}"

    def row(index: int, name: str) -> str:
        leaf, half = leaf_of(choice, index)
        value = "v"
        if half is not None:
            alias = snake(half.rust)
            page.from_module(f"{target.crate}.specs.declared.{target.module}.{alias}.{half.rust}.TheVariants as {alias}", "")
            value = f"{alias}.{name} v"
        return f"tree_of (of.{name} v) = {at(leaf, len(parts), wrap, value)}"

    rows = [row(i, part.rust) for i, part in enumerate(choice.alternatives)]
    page.add(f"abbrev pub tree_of : {name} → {listed(types)}\n" + "\n".join(rows))
    return page.text()
