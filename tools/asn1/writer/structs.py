"""A SEQUENCE, or a SET whose fields stand in the order of their tags, as a struct over the list of its fields."""

from __future__ import annotations

from ..model import Presence, Struct
from ..properties import properties_of_definition
from ..spelling import snake
from . import additions, docs, markers
from .copies import Copies
from .equality import BREAK, listed, tag_of_marker, write_member
from .fields import AT_ONCE, TAIL, Member, list_type, members_of, place_within
from .module_laws import add_laws
from .plan import Plan
from .source import Source
from .types import lifetime_of, wrapped
from .values import (
    code_traits,
    copy_is_duplicate,
    copy_laws,
    derives,
    duplicate_value,
    one_tag,
    value_order,
)


def write_struct(plan: Plan, struct: Struct) -> str:
    """The source file of a SEQUENCE."""
    source = Source(plan, plan.of(struct), plan.file(struct))
    members = members_of(struct)
    lifetime = lifetime_of(properties_of_definition(struct).borrows)
    types = [member.list_type(source) for member in members]
    source.add(f"/// The list of the fields.\ntype Fields{lifetime} = {list_type(source, types, additions.end_type(source, struct))};")
    source.add(declaration(struct, lifetime))
    if not struct.is_holder:
        source.add(own_calls(source, struct, members, lifetime))
        source.add(shown(source, struct, members, lifetime))
    one_tag(source, struct, struct.rust + lifetime, lifetime, markers.of_definition(source, struct))
    whole = f"Fields{lifetime}"
    turbofish = f"Fields::{lifetime}" if lifetime else "Fields"
    source.add(
        f"impl{lifetime} {source.use('FormValue')} for {struct.rust}{lifetime} {{\n"
        f"    ghost {source.member('value')} = {{ {source.word('mapped_format')} (λ v. v.fields) "
        f"⟦<{whole} as {source.use('FieldList')}>⟧.{source.member('list')}.{source.member('octets')} }};\n}}"
    )
    code_traits(source, struct, lifetime, "fields", turbofish, is_list_of_fields=True)
    value_order(source, struct.rust + lifetime, lifetime, "self.fields.cmp_fields(&other.fields)", "FieldsOrd")
    equality_and_copies(source, struct, lifetime)
    if not struct.is_holder:
        add_laws(source, struct)
    return source.text(first_lines(struct))


def equality_and_copies(source: Source, struct: Struct, lifetime: str) -> None:
    """Both by those of the fields."""
    whole = struct.rust + lifetime
    tag = tag_of_marker(source, markers.of_definition(source, struct))
    view = "v.fields.list" if struct.fields else "v.fields"
    equal, copied = ("additions_members", "additions_copies") if struct.has_additions else ("no_fields", "no_copies")
    term = f"{source.word('struct_member')} {tag} (λ v. {view}){BREAK}{listed(source, struct.fields, equal)}"
    write_member(source, whole, lifetime, term)
    if properties_of_definition(struct).is_copy:
        copy_is_duplicate(source, whole, lifetime)
        return
    copies = f"({source.word('listed_copies')} {Copies(source).list_copies(struct.fields, copied)})"
    copy_laws(source, whole, lifetime, f"{source.word('held_copies')} (λ v. v.fields.list){BREAK}{copies}")
    duplicate_value(source, struct, lifetime)


def first_lines(struct: Struct) -> list[str]:
    if struct.is_holder:
        return [f"//! {struct.name}, a value with its tag."]
    kind = "SET" if struct.is_set else "SEQUENCE"
    count = f"{len(struct.fields) or 'no'} field{'s' if len(struct.fields) != 1 else ''}"
    return [f"//! {struct.name}, a {kind} of {count}{' and what comes after' if struct.has_additions else ''}."]


def declaration(struct: Struct, lifetime: str) -> str:
    more = ["The fields are encoded in the order of their tags (X.690 10.3)."] if struct.is_set else additions.words(struct)
    return (
        f"{docs.of_definition(struct, *more, docs.errors(struct))}\n{derives(struct, is_shown=False)}\n"
        f"pub struct {struct.rust}{lifetime} {{\n    {'pub(crate) ' if struct.is_holder else ''}fields: Fields{lifetime},\n}}"
    )


# ---- the calls of a user


def own_calls(source: Source, struct: Struct, members: list[Member], lifetime: str) -> str:
    """`new`, `into_parts`, and an accessor a field, each with its clauses."""
    if not members and not struct.has_additions:
        return no_fields_call(source, struct)
    words = page_of(source, struct)
    parts = [
        f"    ghost use Rattle.{source.target.crate}.specs.{source.target.page}.{struct.rust} as {words};",
        new_call(source, struct, members, lifetime, words),
    ]
    if not properties_of_definition(struct).is_copy:
        parts.append(into_parts_call(source, struct, members, words))
    if any(member.is_optional and not member.is_small for member in members):
        parts.insert(1, "    ghost use Rattle.std.specs.Prelude.{option_copied};")
        parts[0:2] = ["\n".join(parts[0:2])]
    parts += [accessor(source, member, words) for member in members]
    parts += [additions.call(source, struct, words)] if struct.has_additions else []
    source.word("≡")
    return f"impl{lifetime} {struct.rust}{lifetime} {{\n" + "\n\n".join(parts) + "\n}"


def no_fields_call(source: Source, struct: Struct) -> str:
    """`new` of a type with no fields, which has one value."""
    return (
        f"impl {struct.rust} {{\n{docs.doc('The value, which has no fields.', indent='    ')}\n"
        f"    pub fn new() -> {struct.rust} {{\n        {struct.rust} {{ fields: {source.use('End')} }}\n    }}\n}}"
    )


def shown(source: Source, struct: Struct, members: list[Member], lifetime: str) -> str:
    """`Debug`: the fields by their names."""
    fmt = source.use("fmt")
    rows = "".join(
        f"            .field(\"{member.name}\", {'&' if member.is_small or member.is_optional else ''}self.{member.name}())\n"
        for member in members
    )
    rows += '            .field("additions", self.additions())\n' if struct.has_additions else ""
    return (
        f"impl{lifetime} {fmt}::Debug for {struct.rust}{lifetime} {{\n"
        f"    fn fmt<W: {fmt}::Write>(&self, f: &mut {fmt}::Formatter<W>) -> {fmt}::Result {{\n"
        f"        f.debug_struct(\"{struct.rust}\")\n{rows}            .finish()\n    }}\n}}"
    )


def page_of(source: Source, struct: Struct) -> str:
    """The name by which clauses call the page of a struct's fields."""
    return f"{snake(struct.rust)}_fields"


def new_call(source: Source, struct: Struct, members: list[Member], lifetime: str, words: str) -> str:
    """`new`, from the values of all fields."""
    values = [(member.local, member.parameter_type(source)) for member in members]
    given = [(member.name, entry(member)) for member in members]
    if struct.has_additions:
        values.append(("additions", f"&{additions.TYPE}"))
        given.append(("additions", "additions.now"))
    parameters = ", ".join(f"{name}: {type_}" for name, type_ in values)
    clauses = "".join(f"\n        ensures {name} {{ {words}.{name} result ≡ {value} }}" for name, value in given)
    lets = list_lets(source, members, additions.copied(source, struct))
    return (
        f"{docs.doc('A value of these fields.', indent='    ')}\n"
        f"    pub fn new({parameters}) -> {struct.rust}{lifetime}{clauses}\n    {{\n"
        f"{lets}        {struct.rust} {{ fields }}\n    }}"
    )


def entry(member: Member) -> str:
    """A value that came as a parameter, as clauses call it."""
    if member.is_lent:
        return f"option_copied {member.local}.entry" if member.is_optional else f"{member.local}.now"
    return f"{member.local}.entry" if member.borrows else member.local


def list_lets(source: Source, members: list[Member], end: str) -> str:
    """The list of the values: of more than eight, those after them first. `end` is what stands after the last, if anything."""
    if not members:
        return f"        let fields = {end};\n"
    head, tail = members[:AT_ONCE], members[AT_ONCE:]
    lines = list_lets(source, tail, end) if tail else ""
    after = "rest" if tail else end
    values = ", ".join(in_list(source, member) for member in head) + (f"; {after}" if after else "")
    whole = source.use(f"Fields{min(AT_ONCE, len(members))}")
    name = "rest" if head[0].index else "fields"
    return f"{lines}        let list = {source.use('field_list')}![{values}];\n        let {name} = {whole} {{ list }};\n"


def in_list(source: Source, member: Member) -> str:
    """The value of a field, after its tags and with its default, if it has any."""
    if not member.way and not member.is_lent:
        return member.local
    name = "value" if member.is_optional else member.local
    value = f"{source.use('copy_of')}({name})" if member.is_lent else name
    inner = wrapped(source, member.field.type, value)
    if member.is_optional:
        return if_present(source, member.local, inner)
    if member.field.presence is Presence.DEFAULT:
        return f"{source.use('WithDefault')}::new({inner})"
    return inner


def into_parts_call(source: Source, struct: Struct, members: list[Member], words: str) -> str:
    """`into_parts`, the values of all fields."""
    parts = [(member.name, member.local, member.value_type(source)) for member in members]
    parts += [("additions", "additions", additions.end_type(source, struct))] if struct.has_additions else []
    types = [type_ for _, _, type_ in parts]
    result = types[0] if len(types) == 1 else f"({', '.join(types)})"
    whole = "self.entry" if properties_of_definition(struct).borrows else "self"
    clauses = "".join(
        f"\n        ensures {name} {{ {words}.{name} {whole} ≡ result{'' if len(types) == 1 else f'.{i}'} }}"
        for i, (name, _, _) in enumerate(parts)
    )
    lets = "".join(f"        {line}\n" for line in parts_lets(source, members, "rest: additions" if struct.has_additions else ".."))
    last = parts[0][1] if len(types) == 1 else f"({', '.join(local for _, local, _ in parts)})"
    return (
        f"{docs.doc('The values of the fields, in their order.', indent='    ')}\n"
        f"    pub fn into_parts(self) -> {result}{clauses}\n    {{\n{lets}        {last}\n    }}"
    )


def parts_lets(source: Source, members: list[Member], end: str) -> list[str]:
    """Each value by its field's name: the list is taken apart from its first on; `end` stands for what is after its last."""
    lines, place = [], "self.fields"
    for member in members:
        if member.index % AT_ONCE == 0:
            whole = source.use(f"Fields{min(AT_ONCE, len(members) - member.index)}")
            lines.append(f"let {whole} {{ list }} = {place};")
            place = "list"
        rest = end if member is members[-1] else "rest"
        first = "first" if member.local == "first" else f"first: {member.local}"
        lines.append(f"let {source.use('Field')} {{ {first}, {rest} }} = {place};")
        place = "rest"
    for member in members:
        if member.is_optional and member.way:
            lines.append(f"let {member.local} = {if_present(source, member.local, f'value{member.way}')};")
        elif member.way:
            lines.append(f"let {member.local} = {member.local}{member.way};")
    return lines


def accessor(source: Source, member: Member, words: str) -> str:
    """The call that gives a field by its name: a small value itself, another by reference."""
    head = docs.doc(f"`{member.field.name}`, `{member.field.text}`.", indent="    ")
    lets, place = accessor_place(member)
    of = f"{words}.{member.name} self.now"
    value_type = member.value_type(source)
    if member.is_optional and member.is_small:
        body = place if not member.way else if_present(source, place, f"value{member.way}")
        return call(head, member.name, value_type, f"result ≡ {of}", lets + body)
    if member.is_optional:
        inner = value_type[len("Option<") : -1]
        body = if_present(source, f"&{place}", f"&value{member.way}" if member.way else "value")
        return call(head, member.name, f"Option<&{inner}>", f"option_copied result ≡ {of}", lets + body)
    if member.is_small:
        return call(head, member.name, value_type, f"result ≡ {of}", lets + place + member.way)
    return call(head, member.name, f"&{value_type}", f"result.now ≡ {of}", f"{lets}&{place}{member.way}")


def accessor_place(member: Member) -> tuple[str, str]:
    """Where a field stands: in the part of the list that has it, which is named first where it is a tail."""
    if member.index < AT_ONCE:
        return "", f"self.fields{member.place}"
    return f"let tail = &self.fields{TAIL * (member.index // AT_ONCE)};\n        ", f"tail{place_within(member.index)}"


def if_present(source: Source, place: str, made: str) -> str:
    """What is made of the value of an OPTIONAL field."""
    return f"{source.use('if_present')}!(value in {place} => {made})"


def call(head: str, name: str, result: str, clause: str, body: str) -> str:
    return f"{head}\n    pub fn {name}(&self) -> {result}\n        ensures {{ {clause} }}\n    {{\n        {body}\n    }}"
