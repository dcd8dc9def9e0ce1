"""A SEQUENCE OF or a SET OF with a name of its own, as a struct that holds its items."""

from __future__ import annotations

from dataclasses import replace

from ..model import List
from ..properties import properties_of_definition
from . import docs, markers
from .equality import member_of, tag_of_marker, write_member
from .grammar import word_of
from .module_laws import add_laws
from .plan import Plan
from .source import Source
from .types import lifetime_of, rust_type
from .values import code_traits, copy_is_duplicate, derives, one_tag, value_order

IN_ORDER = "The items stand in the order of their octets (X.690 11.6): others are refused (`ErrorKind::SetOrdering`, 11)."
ANY_ORDER = "The items stand in the order in which they came: BER asks for none."


def write_list(plan: Plan, definition: List) -> str:
    """The source file of a list."""
    source = Source(plan, plan.of(definition), plan.file(definition))
    lifetime = lifetime_of(properties_of_definition(definition).borrows)
    listed = definition.listed
    held = rust_type(source, listed)
    whole = definition.rust + lifetime
    source.add(declaration(definition, whole, held))
    source.add(own_calls(source, definition, lifetime, held))
    one_tag(source, definition, whole, lifetime, markers.of_definition(source, definition))
    source.add(
        f"impl{lifetime} {source.use('FormValue')} for {whole} {{\n"
        f"    ghost {source.member('value')} = {{ {source.word('mapped_format')} (λ v. v.items) "
        f"⟦<{held} as FormValue>⟧.{source.member('value')} }};\n}}"
    )
    code_traits(source, definition, lifetime, "items", held.replace("<", "::<", 1), is_list_of_fields=False)
    value_order(source, whole, lifetime, "self.items.value_cmp(&other.items)", "ValueOrd")
    tag = tag_of_marker(source, markers.of_definition(source, definition))
    write_member(source, whole, lifetime, f"{source.word('seen_member')} {tag} (λ v. v.items) {member_of(source, held)}")
    copy_is_duplicate(source, whole, lifetime)
    add_laws(source, definition)
    kind = "SET OF" if definition.is_set else "SEQUENCE OF"
    return source.text([f"//! {definition.name}, a {kind}."])


def declaration(definition: List, whole: str, held: str) -> str:
    """The struct."""
    order = []
    if definition.is_set:
        order = [ANY_ORDER if definition.is_any_order else IN_ORDER]
    return (
        f"{docs.of_definition(definition, *order, docs.errors(definition))}\n{derives(definition)}\n"
        f"pub struct {whole} {{\n    items: {held},\n}}"
    )


def own_calls(source: Source, definition: List, lifetime: str, held: str) -> str:
    """`new` and `items`."""
    words, listed = word_of(definition), definition.listed
    source.word("≡")
    of = f"{words}.items_of"
    given, inner = "items.entry", "&self.items"
    if listed.allowed is not None:
        given, inner = f"{source.word('value_of')} items.entry", "&self.items"
    elif listed.is_never_empty:
        given, inner = f"{source.word('list_of')} items.entry", "self.items.list()"
    return f"""impl{lifetime} {definition.rust}{lifetime} {{
    ghost use Rattle.{source.target.crate}.specs.{source.target.page}.{definition.rust} as {words};

    /// These items.
    pub fn new(items: {held}) -> {definition.rust}{lifetime}
        ensures {{ {of} result ≡ {given} }}
    {{
        {definition.rust} {{ items }}
    }}

    /// The items, in their order.
    pub fn items(&self) -> &{rust_type(source, replace(listed, is_never_empty=False, allowed=None))}
        ensures {{ result.now ≡ {of} self.now }}
    {{
        {inner}
    }}
}}"""
