"""Where the fields of each SEQUENCE stand in its octets: a file a type, in a crate that has the places of others' types.

`der_places` has the words and the calls, and the places of the library's own messages; another crate takes them from there.
"""

from __future__ import annotations

from dataclasses import dataclass, replace

from ..errors import AsnError
from ..model import Alias, Choice, Leaf, Presence, Resolved, ResolvedModule, Struct, Tag, Tagged, Use, Whole
from ..properties import is_constructed, properties_of_definition, tags_of
from ..spelling import snake
from . import docs
from .alternatives import depth
from .fields import Member, members_of
from .names import TAGS
from .plan import Plan, Target, is_apart
from .source import Source
from .types import default_type, enumeration_of, lifetime_of, rust_type, way, wrapped

# What the calls and the proofs name within them: a local of such a name has an underscore after it.
LOCALS = frozenset(["octets", "start", "self", "first", "value", "fields", "rest", "result"])
LIBRARY = "der_places"  # the crate that has the words and the calls
FILES = {"Place": "place", "Placed": "placed", "next_place": "walk", "is_there": "presence", "is_some": "presence"}


def write_places(plan: Plan, crate: str, modules: list[ResolvedModule]) -> dict[str, str]:
    """The files of the places of all structs of these modules, by their paths."""
    files: dict[str, str] = {}
    for module in modules:
        target = Target(crate, plan.targets[module.name].module)
        structs = structs_of(module)
        for struct in structs:
            files[f"src/{target.module}/{snake(struct.rust)}.rt"] = Places(plan, target, struct).text()
        if structs:
            files[f"src/{target.module}.rt"] = root(module, structs)
    return files


def structs_of(module: ResolvedModule) -> list[Struct]:
    """The structs that a user meets, and that are written."""
    structs = [found for found in module.definitions if isinstance(found, Struct) and found.fields]
    return [found for found in structs if not found.is_holder and not is_apart(found)]


def check_end(struct: Struct) -> None:
    """The words of places end with the last field."""
    if struct.has_additions:
        words = f"the places of the fields of '{struct.name}', which has elements after them ('@skip'), are not written"
        raise AsnError(struct.place, words, "leave the crate out of the line 'places', or the '@skip' out")


def root(module: ResolvedModule, structs: list[Struct]) -> str:
    """The module's own file."""
    names = sorted((snake(struct.rust), places_name(struct)) for struct in structs)
    lines = [f"//! Byte ranges of the fields of the types of {module.name}.", ""]
    lines += [f"mod {file};" for file, _ in names] + [""]
    lines += [f"pub use {file}::{name};" for file, name in names]
    return "\n".join(lines) + "\n"


def places_name(struct: Struct) -> str:
    return f"{struct.rust}Places"


def untagged(type_: Resolved) -> Resolved:
    """A type after second names."""
    while isinstance(type_, Use) and isinstance(type_.definition, Alias):
        assert type_.definition.type is not None
        type_ = type_.definition.type
    return type_


@dataclass(frozen=True)
class Placed:
    """A field, as the walk and the proof name it."""

    member: Member
    word: str  # of its step in the proof

    @property
    def name(self) -> str:
        return self.member.name

    @property
    def local(self) -> str:
        return self.name + ("_" if self.name in LOCALS else "")

    @property
    def type(self) -> Resolved:
        return self.member.field.type

    @property
    def presence(self) -> Presence:
        return self.member.field.presence


class Places:
    """The file of one struct."""

    def __init__(self, plan: Plan, target: Target, struct: Struct) -> None:
        check_end(struct)
        self.struct = struct
        self.source = Source(plan, target, snake(struct.rust))
        self.fields = [Placed(member, f"field{member.index + 1}") for member in members_of(struct)]
        self.lifetime = lifetime_of(properties_of_definition(struct).borrows)
        self.choices: dict[Choice, str] = {}
        own = plan.of(struct)
        self.words("std.specs.Prelude", "[]", "◌∷◌")
        self.words("der_tlv.specs.declared.encoding_rules.EncodingRules.TheVariants", "Der")
        self.words(f"{LIBRARY}.specs.Layout", "no_more")
        self.words(f"{LIBRARY}.specs.LayoutLaws", "first_of")
        self.words(f"{own.crate}.specs.{own.page}.{struct.rust} as fields_of", "")
        for name in ("Place", "Placed", "next_place"):
            self.of_library(name)
        self.source.use("Form")

    # ---- what is imported

    def words(self, module: str, *names: str) -> None:
        for name in names:
            self.source.page_word(module, name)

    def layout_word(self, name: str) -> str:
        self.words(f"{LIBRARY}.specs.Layout", name)
        return name

    def law(self, name: str) -> str:
        self.words(f"{LIBRARY}.specs.LayoutLaws", name)
        return name

    def of_library(self, name: str) -> str:
        """A type, a trait or a call of the library."""
        path = f"crate::{FILES[name]}" if self.source.target.crate == LIBRARY else LIBRARY
        self.source.imports.setdefault(path, set()).add(name)
        return name

    # ---- the file

    def text(self) -> str:
        self.source.add(self.declaration())
        self.source.add(self.placed())
        return self.source.text([f"//! The fields of {article(self.struct.name)} {self.struct.name}."])

    def declaration(self) -> str:
        rows = "\n".join(f"{docs.doc(words_of(one), indent='    ')}\n    pub {one.name}: Place," for one in self.fields)
        return (
            f"{docs.doc(f'Byte ranges of the fields of {article(self.struct.name)} `{self.struct.name}`.')}\n"
            "#[repr(C)]\n#[derive(Clone, Copy, Debug, PartialEq, Eq)]\n"
            f"pub struct {places_name(self.struct)} {{\n{rows}\n}}"
        )

    def placed(self) -> str:
        whole = self.source.use_type(self.struct) + self.lifetime
        listed = " ∷ ".join([*(f"p.{one.name}" for one in self.fields), "[]"])
        parts = [
            f"    type Places = {places_name(self.struct)};",
            f"    ghost listed = {{ λ p. {listed} }};",
            f"    ghost layout = {{ λ v.\n        {self.layout()} }};",
            self.walk(),
            f"    ghost are_fields = {{ λ v c a.\n{self.are_fields()} }};",
        ]
        return f"impl{self.lifetime} Placed for {whole} {{\n" + "\n\n".join(parts) + "\n}"

    # ---- types and values in the logic

    def form(self, type_: Resolved) -> str:
        """What whole encodings of a type mean, with each tag written out."""
        return f"⟦<{self.rust(type_)} as Form>⟧"

    def rust(self, type_: Resolved) -> str:
        return rust_type(self.source, bare(type_))

    def accepts(self, type_: Resolved) -> str:
        return f"{self.form(type_)}.accepts Der"

    def tagged(self, type_: Resolved, value: str) -> str:
        """A value with the tags of its type around it."""
        if isinstance(type_, Tagged):
            word = self.layout_word("explicit" if type_.is_explicit else "implicit")
            return f"({word} {self.tagged(type_.of, value)})"
        if enumeration_of(type_) is not None:
            return f"(record {{ value = {value} }})"
        return value if " " not in value else f"({value})"

    def is_plain(self, type_: Resolved) -> bool:
        return not isinstance(type_, Tagged) and enumeration_of(type_) is None

    def default(self, one: Placed) -> str:
        """That a value is the default, by its encoding."""
        self.words("der_fields.specs.Defaults", "is_default")
        self.source.use("DefaultOf")
        quote = f"⟦<{default_type(self.source, one.member.field)} as DefaultOf<{self.rust(one.type)}>>⟧.octets"
        return f"(is_default {quote} ({self.form(one.type)}.encoding {self.value(one)}))"

    def value(self, one: Placed) -> str:
        return self.tagged(one.type, f"fields_of.{one.name} v")

    # ---- the fields

    def layout(self) -> str:
        rows = [self.part(one) for one in self.fields]
        listed = "".join(f"{'(' if i else ''}{row}\n        " for i, row in enumerate(rows))
        return f"{listed}no_more{')' * (len(rows) - 1)}"

    def part(self, one: Placed) -> str:
        if one.presence is Presence.ALWAYS:
            return f"{self.layout_word('field')} ({self.accepts(one.type)} {self.value(one)})"
        if one.presence is Presence.DEFAULT:
            return f"{self.layout_word('unless')} {self.default(one)} ({self.accepts(one.type)} {self.value(one)})"
        return f"{self.layout_word('optional')} {self.reads(one)} (fields_of.{one.name} v)"

    def reads(self, one: Placed) -> str:
        """Which octets are read as the value of a field that may be absent."""
        if self.is_plain(one.type):
            return f"({self.accepts(one.type)})"
        return f"(λ x. {self.accepts(one.type)} {self.tagged(one.type, 'x')})"

    # ---- the walk

    def walk(self) -> str:
        lines, last = [], "start"
        for one in self.fields:
            lets, there = self.told(one)
            lines += [*lets, f"let {one.local} = next_place(octets, {last}, {there});"]
            last = one.local
        named = ", ".join(one.name if one.name == one.local else f"{one.name}: {one.local}" for one in self.fields)
        body = "".join(f"        {line}\n" for line in lines)
        name = places_name(self.struct)
        head = f"    fn walk(&self, octets: &[u8], start: Place) -> {name} {{\n"
        return f"{head}{body}        {name} {{ {named} }}\n    }}"

    def told(self, one: Placed) -> tuple[list[str], str]:
        """Whether a field is there, in code."""
        if one.presence is Presence.ALWAYS:
            return [], "true"
        if one.presence is Presence.OPTIONAL:
            return [], f"{self.of_library('is_some' if one.member.is_small else 'is_there')}(self.{one.name}())"
        rust, is_small = self.rust(one.type), one.member.is_small
        lets, reference = [f"let value = self.{one.name}();"], "&value" if is_small else "value"
        value = wrapped(self.source, bare(one.type), "value" if is_small else self.copied(one))
        if not self.is_plain(one.type):
            lets.append(f"let tagged: {rust} = {value};")
            reference = "&tagged"
        default = f"<{default_type(self.source, one.member.field)} as {self.source.use('DefaultOf')}<{rust}>>"
        return [*lets, f"let is_default = {default}::is_default({reference});"], "!is_default"

    def copied(self, one: Placed) -> str:
        """A value that is lent, to stand after its tags."""
        return f"{self.source.use('copy_of')}(value)" if one.member.is_lent else "*value"

    # ---- the proof

    def are_fields(self) -> str:
        steps = [f"let {self.fields[0].word} = a in"]
        steps += [f"let {one.word} = {before.word}.rest in" for before, one in zip(self.fields, self.fields[1:])]
        shown = [self.shown(one) for one in self.fields]
        steps = [self.alternatives(choice, name) for choice, name in self.choices.items()] + steps
        rows = [f"(first_of {one.word} {term}" for one, term in zip(self.fields, shown)]
        end = f"{self.fields[-1].word}.rest" + ")" * len(rows)
        return "".join(f"        {line}\n" for line in [*steps, *rows]) + f"        {end}"

    def shown(self, one: Placed) -> str:
        """That a field is one, and is read as its value."""
        word, path = one.word, f"v.fields{one.member.place}"
        end = f"{word}.front {word}.first)"
        if one.presence is Presence.ALWAYS:
            return f"({self.encoding(one.type, f'{word}.front', f'{word}.first')}, {word}.first)"
        if one.presence is Presence.DEFAULT:
            readable = f"({self.form(one.type)}.readable {self.value(one)})"
            reads = f"({self.accepts(one.type)} {self.value(one)})"
            each = f"(λ o b. {self.encoding(one.type, 'o', 'b')})"
            return f"({self.law('besides')} {self.default(one)} {readable} {reads} {each} {end}"
        if self.is_plain(one.type):
            each = f"(λ x o b. {self.encoding(one.type, 'o', 'b', 'x')})"
            return f"({self.law('perhaps')} {self.reads(one)} {each} {path} {end}"
        each = f"(λ x o b. ({self.encoding(one.type, 'o', 'b')}, b))"
        value = f"(λ x. x{way(one.type)})"
        return f"({self.law('maybe')} {value} {self.held(one)} {self.reads(one)} {each} {path} {end}"

    def held(self, one: Placed) -> str:
        """Which octets are read as a field that may be absent, with its tags."""
        type_ = one.type
        if isinstance(type_, Tagged) and type_.holder is not None:
            holder = self.source.logic_name(type_.holder)
            return f"(λ (x : {holder}). {self.accepts(type_)} {self.tagged(type_, f'x{way(type_)}')})"
        return f"({self.accepts(type_)})"

    def encoding(self, type_: Resolved, octets: str, read: str, value: str = "_") -> str:
        """That octets which are read as a type are an encoding."""
        self.law("is_encoding")
        plain = untagged(type_)
        if isinstance(plain, Leaf) and plain.whole is Whole.ANY:
            return f"is_encoding _ {read}.0 {octets} _ {read}.1"
        if isinstance(plain, Use) and isinstance(plain.definition, Choice):
            return f"{self.is_alternative(plain.definition)} {value} {octets} {read}"
        return f"is_encoding {self.tag(type_)} {octets} {read}.0 {read}.1"

    def tag(self, type_: Resolved) -> str:
        """The tag of a type with one, and that it is within range."""
        tags = tags_of(type_)
        assert tags is not None
        (tag,) = tags
        if tag.tag_class == 0:
            self.words("der_tlv.specs.declared.tag.Tag.TheVariants as tags", "")
            self.words("std.proofs.Common", "lit<")
            return f"tags.{TAGS[tag.number]} (lit< tt)"
        return self.marker(tag, is_constructed(type_))

    def marker(self, tag: Tag, constructed: bool) -> str:
        word = "true" if constructed else "false"
        self.words("std.proofs.Common", word)
        self.words("der_fields.specs.MarkerTags", "marker_tag", "marker_tag-in_range")
        numbers = f"{tag.tag_class} {word} {tag.number}"
        return f"(marker_tag {numbers}) (marker_tag-in_range {numbers})"

    def is_alternative(self, choice: Choice) -> str:
        if choice.halves:
            words = f"the places of a field that is a '{choice.name}', a CHOICE of many structs, are not written"
            raise AsnError(choice.place, words, "write a tag before the field's type")
        return self.choices.setdefault(choice, f"is_{snake(choice.rust)}")

    def alternatives(self, choice: Choice, name: str) -> str:
        """That octets which are read as a CHOICE are an encoding, by its alternatives."""
        rust, logic = self.rust(Use(choice)), self.source.logic_name(choice)
        variants = f"{snake(choice.rust)}_of"
        self.words(f"{self.source.plan.module(choice, 'declared')}.{choice.rust}.TheVariants as {variants}", "")
        self.words("std.specs.Prelude", "List", "ℕ")
        self.words(f"{LIBRARY}.specs.Walking", "IsEncoding")
        count = len(choice.alternatives)
        cases = " | ".join(
            f"{variants}.{part.rust} x ↦ λ o b. {self.encoding(part.type, 'o', 'b' + '.0' * depth(i, count), 'x')}"
            for i, part in enumerate(choice.alternatives)
        )
        accepts = f"⟦<{rust} as Form>⟧.accepts Der"
        return (
            f"let {name} : (t : {logic}) (o : List ℕ) → {accepts} t o → IsEncoding o = "
            f"λ t. elim t as (λ k. (o : List ℕ) → {accepts} k o → IsEncoding o) [ {cases} ] in"
        )


def bare(type_: Resolved) -> Resolved:
    """A type with its tags written out, and no holder."""
    if isinstance(type_, Tagged):
        return replace(type_, of=bare(type_.of), holder=None)
    return type_


def article(name: str) -> str:
    return "an" if name[0] in "AEIOU" else "a"


def words_of(one: Placed) -> str:
    """What a place is of."""
    field = one.member.field
    absent = {Presence.OPTIONAL: "; empty if it is absent", Presence.DEFAULT: "; empty if it has its default"}
    return f"`{field.name}`, `{field.text}`{absent.get(field.presence, '')}."
