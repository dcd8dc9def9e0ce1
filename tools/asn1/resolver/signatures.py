"""What two instances of a type are compared by: all that its octets depend on."""

from __future__ import annotations

from ..model import (
    Alias,
    AlternativeValue,
    Choice,
    DefaultValue,
    Definition,
    Enumeration,
    Field,
    FieldValues,
    Leaf,
    List,
    Listed,
    NamedValue,
    Resolved,
    Struct,
    Tagged,
)


def signature(definition: Definition) -> str:
    """A definition in one line, with no names of types but those of other definitions."""
    if isinstance(definition, Struct):
        fields = ", ".join(field_signature(part) for part in definition.fields)
        end = " ..." if definition.has_additions else ""
        return f"{'SET' if definition.is_set else 'SEQUENCE'} {definition.tag} {{{fields}{end}}}"
    if isinstance(definition, Choice):
        return f"CHOICE {{{', '.join(field_signature(part) for part in definition.alternatives)}}}"
    if isinstance(definition, List):
        return f"{definition.tag} {type_signature(definition.listed)}"
    if isinstance(definition, Enumeration):
        return f"ENUMERATED {definition.tag} {definition.values}"
    assert isinstance(definition, Alias) and definition.type is not None
    return f"{type_signature(definition.type)} {definition.numbers} {definition.bits}"


def field_signature(part: Field) -> str:
    return f"{part.name} {type_signature(part.type)} {part.presence.value} {default_signature(part.default)}"


def default_signature(value: DefaultValue | None) -> str:
    """A default, with the names of definitions alone."""
    if isinstance(value, NamedValue):
        return f"{value.definition.module}.{value.definition.rust}.{value.name}"
    if isinstance(value, FieldValues):
        return f"{{{', '.join(default_signature(one) for one in value.values)}}}"
    if isinstance(value, AlternativeValue):
        return f"{value.index} : {default_signature(value.value)}"
    return f"{value}"


def type_signature(type_: Resolved) -> str:
    """A type within another."""
    if isinstance(type_, Leaf):
        return f"{type_.whole.name} {type_.is_owned} {type_.width} {type_.octets} {type_.allowed}"
    if isinstance(type_, Listed):
        return f"{type_.is_set} {type_.is_never_empty} {type_.is_any_order} {type_.allowed} OF {type_signature(type_.item)}"
    if isinstance(type_, Tagged):
        return f"{type_.tag} {type_.is_explicit} {type_signature(type_.of)}"
    return f"{type_.definition.module}.{type_.definition.rust}"
