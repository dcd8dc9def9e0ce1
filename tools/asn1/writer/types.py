"""Types as Rattle writes them: in its code, and in its logic."""

from __future__ import annotations

from dataclasses import replace

from ..model import Alias, Enumeration, Field, Leaf, Listed, NameOf, Presence, Resolved, Tag, Tagged, Use, Whole
from ..properties import properties_of, properties_of_definition
from ..syntax import TagClass
from .constraints import constraint_type, logic_constraint
from .leaves import CHARACTERS, WHOLES, lifetime_of, rust_leaf
from .source import Page, Source

CLASSES = {TagClass.CONTEXT.value: "", TagClass.APPLICATION.value: "Application", TagClass.PRIVATE.value: "Private"}


# ---- in code


def tagging(tag: Tag, is_explicit: bool) -> str:
    """The library's name of explicit or implicit tagging with a tag's class."""
    return ("Explicit" if is_explicit else "Implicit") + CLASSES[tag.tag_class]


def rust_type(source: Source, type_: Resolved) -> str:
    """A type, with its lifetime if it has one."""
    if isinstance(type_, Leaf):
        return rust_leaf(source, type_)
    if isinstance(type_, NameOf):
        return source.use_type(type_.definition)
    if isinstance(type_, Use):
        name = source.use_type(type_.definition)
        if isinstance(type_.definition, Enumeration):
            return f"{source.use('Enumerated')}<{name}>"
        return name + lifetime_of(properties_of_definition(type_.definition).borrows)
    if isinstance(type_, Listed):
        return rust_list(source, type_)
    if type_.holder is not None:
        return rust_type(source, Use(type_.holder))
    return f"{source.use(tagging(type_.tag, type_.is_explicit))}<{rust_type(source, type_.of)}, {type_.tag.number}>"


def rust_list(source: Source, type_: Listed) -> str:
    """A list, which borrows the octets that were read."""
    found = f"{source.use(list_name(type_))}<'a, {rust_type(source, type_.item)}>"
    if type_.allowed is not None:
        return f"{source.use('Constrained')}<{found}, {constraint_type(source, type_.allowed)}>"
    return f"{source.use('NonEmptyRef')}<{found}>" if type_.is_never_empty else found


def list_name(type_: Listed) -> str:
    """The library's type of a list."""
    if not type_.is_set:
        return "ListRef"
    return "UnorderedSetRef" if type_.is_any_order else "SetRef"


def enumeration_of(type_: Resolved) -> Enumeration | None:
    """The ENUMERATED that a type is, after second names."""
    while isinstance(type_, Use) and isinstance(type_.definition, Alias):
        assert type_.definition.type is not None
        type_ = type_.definition.type
    return type_.definition if isinstance(type_, Use) and isinstance(type_.definition, Enumeration) else None


def field_type(source: Source, part: Field) -> str:
    """The type of a field in its list."""
    inner = rust_type(source, part.type)
    if part.presence is Presence.OPTIONAL:
        return f"Option<{inner}>"
    if part.presence is Presence.DEFAULT:
        return f"{source.use('WithDefault')}<{inner}, {default_type(source, part)}>"
    return inner


def default_type(source: Source, part: Field) -> str:
    """The type that stands for a default."""
    if part.marker is not None:
        return source.use_default(part.marker)
    return source.use("DefaultFalse") if part.default is False else f"{source.use('DefaultNumber')}<{part.default}>"


# ---- what a user sees: with no tags, and with no DEFAULT


def plain(type_: Resolved) -> Resolved:
    """A type after its tags; of an ENUMERATED its names."""
    while isinstance(type_, Tagged):
        type_ = type_.of
    found = enumeration_of(type_)
    return type_ if found is None else NameOf(found)


def way(type_: Resolved) -> str:
    """The way from a type to what stands after its tags, in code and in the logic."""
    path = ""
    while isinstance(type_, Tagged):
        path += way_after(type_)
        type_ = type_.of
    return path if enumeration_of(type_) is None else path + ".value"


def way_after(type_: Tagged) -> str:
    """The way through one tag."""
    if type_.holder is not None:
        return ".fields.list.first"
    return ".fields.first" if type_.is_explicit else ".value"


def wrapped(source: Source, type_: Resolved, value: str) -> str:
    """A value after the tags of a type."""
    if not isinstance(type_, Tagged):
        if enumeration_of(type_) is None:
            return value
        return f"{source.use('Enumerated')} {{ {'value' if value == 'value' else f'value: {value}'} }}"
    inner = wrapped(source, type_.of, value)
    if type_.holder is not None:
        fields = f"{source.use('Fields1')} {{ list: {source.use('field_list')}![{inner}] }}"
        return f"{source.use_type(type_.holder)} {{ fields: {fields} }}"
    if type_.is_explicit:
        return f"{source.use('tagged')}!({source.use(tagging(type_.tag, True))}, {inner})"
    return f"{source.use(tagging(type_.tag, False))} {{ {'value' if inner == 'value' else f'value: {inner}'} }}"


def is_copy(type_: Resolved) -> bool:
    return properties_of(type_).is_copy


# ---- in the logic


def logic_type(page: Page, type_: Resolved) -> str:
    """A type as the logic has it: with its constants, and with no lifetime."""
    if isinstance(type_, Leaf):
        return logic_leaf(page, type_)
    if isinstance(type_, Use):
        if isinstance(type_.definition, Alias):
            assert type_.definition.type is not None
            return logic_type(page, type_.definition.type)
        found = page.logic_type(type_.definition)
        is_named = isinstance(type_.definition, Enumeration)
        return f"{page.logic('Enumerated')} {found}" if is_named else found
    if isinstance(type_, NameOf):
        return page.logic_type(type_.definition)
    if isinstance(type_, Listed):
        return logic_list(page, type_)
    if type_.holder is not None:
        return page.logic_type(type_.holder)
    return logic_tagged(page, type_.tag, type_.is_explicit, closed(logic_type(page, type_.of)))


def logic_list(page: Page, type_: Listed) -> str:
    found = f"{page.logic(list_name(type_))} {closed(logic_type(page, type_.item))}"
    if type_.allowed is not None:
        return f"{page.logic('Constrained')} ({found}) {closed(logic_constraint(page, type_.allowed))}"
    return f"{page.logic('NonEmptyRef')} ({found})" if type_.is_never_empty else found


def logic_tagged(page: Page, tag: Tag, is_explicit: bool, inner: str) -> str:
    if is_explicit:
        listed = f"({page.logic('Field')} {inner} {page.logic('End')})"
        return f"{page.logic('ExplicitIn')} {listed} {tag.tag_class} {tag.number}"
    return f"{page.logic('ImplicitIn')} {inner} {tag.tag_class} {tag.number}"


def logic_leaf(page: Page, leaf: Leaf) -> str:
    if leaf.allowed is not None:
        inner = closed(logic_leaf(page, replace(leaf, allowed=None)))
        return f"{page.logic('Constrained')} {inner} {closed(logic_constraint(page, leaf.allowed))}"
    if leaf.whole is Whole.BOOLEAN:
        return page.logic("bool")
    if leaf.whole is Whole.MACHINE_INTEGER:
        return page.logic("signed" if (leaf.width or "u8").startswith("i") else "unsigned")
    if leaf.whole in CHARACTERS:
        name, number = CHARACTERS[leaf.whole]
        return f"{page.logic(name + ('' if leaf.is_owned else 'Ref'))} {number}"
    name = page.logic(WHOLES[leaf.whole][1 if leaf.is_owned else 0])
    return f"{name} {leaf.octets}" if leaf.whole is Whole.OBJECT_IDENTIFIER else name


def closed(text: str) -> str:
    """In parentheses where it has more than one word."""
    return f"({text})" if " " in text else text
