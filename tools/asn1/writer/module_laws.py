"""The laws of a module: what is read as a type is what its page says, and its octets are those of its fields by name."""

from __future__ import annotations

from .. import as_written
from ..as_written import key_of
from ..model import Definition, Enumeration, Leaf, Presence, Resolved, ResolvedModule, Struct, Tagged, Use, Whole, is_within
from ..properties import properties_of_definition
from ..resolver.classes import base_of
from ..spelling import snake
from ..syntax import FieldsType
from . import docs
from .fields import Member, members_of
from .grammar import CLASSES, word_of
from .equality import named
from .names import ADDITIONS, ADDITIONS_OF, ASN1
from .plan import Plan
from .source import Source
from .types import default_type, enumeration_of, lifetime_of, rust_type

CLASS_WORDS = {one.value: word for one, word in CLASSES.items()}


def write_laws(plan: Plan, module: ResolvedModule) -> str:
    """The source file of a module's laws, each of which stands with its type."""
    target, by_file = plan.targets[module.name], dict[str, list[str]]()
    for definition in module.definitions:
        names = names_of_laws(definition)
        if names:
            by_file.setdefault(plan.file(definition), []).extend(names)
    lines = [f"//! The laws of {module.name}: functions with empty bodies, whose contracts state what holds of its types.", ""]
    for file, names in sorted(by_file.items()):
        listed = names[0] if len(names) == 1 else "{" + ", ".join(sorted(names)) + "}"
        lines.append(f"pub use crate::{target.module}::{file}::{listed};")
    return "\n".join(lines) + "\n"


def names_of_laws(definition: Definition) -> list[str]:
    """The names of a type's laws."""
    if is_within(definition):
        return []
    has_fields = isinstance(definition, Struct) and not definition.by_hand
    octets = [f"octets_of_{snake(definition.rust)}"] if has_fields else []
    return [f"grammar_of_{word_of(definition)}", *octets]


def add_laws(source: Source, definition: Definition) -> None:
    """The laws of a type, in its file."""
    source.word("≡")
    source.page_word(ASN1, "parse_of")
    source.add(grammar_law(source, definition))
    if isinstance(definition, Struct) and not definition.by_hand:
        source.add(octets_law(source, definition))


def whole(source: Source, definition: Definition) -> tuple[str, str]:
    """A type, and its lifetime."""
    return rust_type(source, Use(definition)), lifetime_of(properties_of_definition(definition).borrows)


def grammar_law(source: Source, definition: Definition) -> str:
    """That what octets are parsed as is what the page says."""
    type_, lifetime = whole(source, definition)
    target = source.target
    word = source.page_word(f"{target.crate}.specs.{target.page}.Grammar", word_of(definition))
    form = f"⟦<{type_} as {source.use('Form')}>⟧"
    head = docs.doc(f"What is read as `{definition.name}` is what the grammar page says.")
    return (
        f"{head}\npub fn grammar_of_{word}{lifetime}()\n"
        f"    ensures {{ {form}.{source.member('parse')} ≡ parse_of {word} }}\n{{}}"
    )


# ---- the octets by the names of the fields


def octets_law(source: Source, struct: Struct) -> str:
    """That the contents octets are the encodings of the fields, one after another."""
    type_, lifetime = whole(source, struct)
    target = source.target
    name = snake(struct.rust)
    words = f"{name}_fields"
    if struct.fields or struct.has_additions:
        source.page_word(f"{target.crate}.specs.{target.page}.{struct.rust} as {words}", "")
    contents = f"⟦<{type_} as {source.use('FormValue')}>⟧.{source.member('value')}.{source.member('contents')} v"
    others = ", and then the elements after them" if struct.has_additions else ""
    head = docs.doc(f"The contents octets of `{struct.name}` are the encodings of its fields, one after another{others}.")
    logic = source.logic_name(struct)
    path = "::".join("crate" if part == target.crate else part for part in ASN1.split("."))
    has_held = any(member.is_optional and member.way for member in members_of(struct))
    lemma = f"#[tactic(auto, using({path}::optional_of))]\n" if has_held else ""
    return (
        f"{head}\n{lemma}"
        f"pub fn octets_of_{name}{lifetime}()\n"
        f"    ensures {{ (v : {logic}) → {contents} ≡ {all_octets(source, struct, words)} }}\n{{}}"
    )


def all_octets(source: Source, struct: Struct, words: str) -> str:
    """The encodings of the fields, and then the elements after them, if these are kept."""
    octets = [member_octets(source, member, f"({words}.{name} v)") for name, member in members_as_written(struct)]
    listed = "\n        ∷ ".join([*octets, source.word("[]")])
    if octets:
        source.word("∷")
    if not struct.has_additions:
        return f"{source.page_word(ASN1, 'joined')} (\n        {listed})"
    kept = f"({source.page_word(ADDITIONS_OF, 'octets_of')} ({words}.additions v))"
    return f"{source.page_word(ADDITIONS, 'joined_before')} {kept} (\n        {listed})"


def members_as_written(struct: Struct) -> list[tuple[str, Member]]:
    """The fields by the names and in the order of the text, and no resolver's: so the prover refuses the law where the calls
    have others."""
    assert struct.origin is not None
    library = struct.origin.library
    env, type_ = base_of(library, struct.origin.env, struct.origin.type)
    assert isinstance(type_, FieldsType)
    members = {key_of(member.field.component): member for member in members_of(struct)}
    return [(part.field_name, members[key_of(part.component)]) for part in as_written.fields(library, env, type_)]


def member_octets(source: Source, member: Member, value: str) -> str:
    """The octets of a field, from its value."""
    type_ = member.field.type
    if member.field.presence is Presence.OPTIONAL:
        return f"{source.page_word(ASN1, 'optional')} (λ x. {encoding(source, type_, 'x')}) {value}"
    if member.field.presence is Presence.DEFAULT:
        word = source.page_word(ASN1, "unless_default")
        return f"{word} {default_octets(source, member)} {encoding(source, type_, value)}"
    return encoding(source, type_, value)


def default_octets(source: Source, member: Member) -> str:
    """The encoding of the default."""
    part = member.field
    inner = default_type(source, part)
    return f"⟦<{inner} as {source.use('DefaultOf')}<{rust_type(source, part.type)}>>⟧.{source.member('octets')}"


def encoding(source: Source, type_: Resolved, value: str) -> str:
    """The encoding of a value after the tags of a type."""
    if not isinstance(type_, Tagged):
        return f"(⟦<{rust_type(source, type_)} as Form>⟧.{source.member('encoding')} {in_message(type_, value)})"
    place = f"{source.page_word(ASN1, CLASS_WORDS[type_.tag.tag_class])}"
    if type_.is_explicit:
        word = source.page_word(ASN1, "explicit_encoding")
        return f"({word} {place} {type_.tag.number} {encoding(source, type_.of, value)})"
    word = source.page_word(ASN1, "implicit_encoding")
    form = source.word("true" if is_constructed(type_.of) else "false")
    return f"({word} {place} {form} {type_.tag.number} {contents_of(source, type_.of, value)})"


def in_message(type_: Resolved, value: str) -> str:
    """A value as it stands in a message: a name of a number is held by `Enumerated`."""
    return value if enumeration_of(type_) is None else f"(record {{ value = {value} }})"


def contents_of(source: Source, type_: Resolved, value: str) -> str:
    """The contents octets of a value after the tags of a type."""
    if not isinstance(type_, Tagged):
        form = f"⟦<{rust_type(source, type_)} as FormValue>⟧.{source.member('value')}"
        return f"({form}.{source.member('contents')} {in_message(type_, value)})"
    if type_.is_explicit:
        return f"({encoding(source, type_.of, value)} {source.word('++')} {source.word('[]')})"
    return contents_of(source, type_.of, value)


def is_constructed(type_: Resolved) -> bool:
    """Whether a type with one tag is encoded from the encodings of others (X.690 8.1.2.5)."""
    type_ = named(type_)
    if isinstance(type_, Tagged):
        return type_.is_explicit or is_constructed(type_.of)
    if isinstance(type_, Leaf):
        return type_.whole is Whole.UNREAD_SEQUENCE
    return not (isinstance(type_, Use) and isinstance(type_.definition, Enumeration))

