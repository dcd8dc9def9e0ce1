"""What octets are made of: the table that has the components of each type by their names, in a crate that reads others' types.

A file has the type of all parts, and one a module the components of its types.
"""

from __future__ import annotations

from collections import Counter
from dataclasses import dataclass
from typing import Union

from ..errors import AsnError
from ..model import Alias, Choice, Definition, List, Listed, Presence, ResolvedModule, Resolved, Struct, Tagged, Use, is_within
from ..properties import identifier_octet
from ..spelling import camel, screaming
from .crate import MARK
from .plan import Plan

TAKEN = ("PART", "COMPONENT", "VALUE")  # as `screaming` spells the names that the file itself has
WORDS = {"Explicit": "{} after an explicit tag", "SequenceOf": "SEQUENCE OF {}", "SetOf": "SET OF {}"}


# ---- parts


@dataclass(frozen=True)
class Around:
    """A part with no name of its own: what stands after an explicit tag, or a list."""

    word: str  # of WORDS
    of: Union[Struct, List, Choice, "Around"]


Part = Union[Struct, List, Around]


@dataclass(frozen=True)
class Component:
    """A component; its part is None where that has no components."""

    name: str
    octet: int | None
    part: Part | None


def plain(type_: Resolved) -> Resolved:
    """A type without what changes nothing within: second names, and implicit tags."""
    while True:
        if isinstance(type_, Tagged) and not type_.is_explicit:
            type_ = type_.of
        elif isinstance(type_, Use) and isinstance(type_.definition, Alias):
            assert type_.definition.type is not None
            type_ = type_.definition.type
        else:
            return type_


def held(type_: Resolved) -> Part | Choice | None:
    """The part that a type is; a CHOICE, which has no octets of its own; None where it has no components."""
    found = plain(type_)
    if isinstance(found, Tagged):
        return around("Explicit", found.of)
    if isinstance(found, Listed):
        return around("SetOf" if found.is_set else "SequenceOf", found.item)
    if isinstance(found, Use) and isinstance(found.definition, (Struct, List, Choice)):
        return found.definition
    return None


def around(word: str, inner: Resolved) -> Around | None:
    """The part around a type; None where that has no components."""
    of = held(inner)
    if of is None or (isinstance(of, Choice) and all(one.part is None for one in alternatives("", of))):
        return None
    return Around(word, of)


def alternatives(name: str, choice: Choice) -> list[Component]:
    """A component once for each alternative, those of a CHOICE within it among them."""
    return [one for field in choice.alternatives for one in standing(name, field.type, is_told=True)]


def standing(name: str, type_: Resolved, is_told: bool) -> list[Component]:
    """A component of a type: one, with its octet where that tells it, or one for each alternative."""
    part = held(type_)
    if isinstance(part, Choice):
        return alternatives(name, part)
    return [Component(name, identifier_octet(type_) if is_told else None, part)]


def components(part: Part) -> list[Component]:
    """The components of a part, in the order of its octets."""
    if isinstance(part, Around):
        return alternatives("", part.of) if isinstance(part.of, Choice) else [Component("", None, part.of)]
    if isinstance(part, List):
        assert part.item is not None
        return standing("", part.item, is_told=False)
    return [
        one
        for field in part.fields
        for one in standing(field.name, field.type, part.is_set or field.presence is not Presence.ALWAYS)
    ]


# ---- all parts of a table


def parts_of(modules: list[ResolvedModule]) -> list[Part]:
    """The parts of all types of these modules, and those that are reached from them."""
    found: dict[Part, None] = {}
    for module in modules:
        for definition in module.definitions:
            if is_within(definition):
                continue
            reach(found, standing("", Use(definition), is_told=False))
    return list(found)


def reach(found: dict[Part, None], listed: list[Component]) -> None:
    """Adds the parts of components, and what they are made of."""
    for one in listed:
        if one.part is not None and one.part not in found:
            found[one.part] = None
            reach(found, components(one.part))


def innermost(part: Part | Choice) -> Definition:
    """The type with a name that a part is, or stands around."""
    while isinstance(part, Around):
        part = part.of
    return part


def variants(plan: Plan, parts: list[Part]) -> dict[Part, str]:
    """The name of each part: that of its type, with its module's before it where another has the same."""
    definitions = list(dict.fromkeys(innermost(part) for part in parts))
    spelled = Counter([*TAKEN, *(screaming(definition.rust) for definition in definitions)])
    names = {
        definition: definition.rust if spelled[screaming(definition.rust)] == 1 else in_module(plan, definition)
        for definition in definitions
    }
    found = {part: variant(names, part) for part in parts}
    check_distinct(found)
    return found


def in_module(plan: Plan, definition: Definition) -> str:
    return camel(plan.of(definition).module) + definition.rust


def variant(names: dict[Definition, str], part: Part | Choice) -> str:
    return part.word + variant(names, part.of) if isinstance(part, Around) else names[part]


def check_distinct(found: dict[Part, str]) -> None:
    """No two parts may have one name."""
    seen = set(TAKEN)
    for part, name in found.items():
        if screaming(name) in seen:
            raise AsnError(
                innermost(part).place,
                f"'{name}' is the name of two parts",
                "write '-- @name(..)' after the assignment of one of the types",
            )
        seen.add(screaming(name))


# ---- the files


def write_parts(plan: Plan, modules: list[ResolvedModule]) -> dict[str, str]:
    """The files of the parts of all types of these modules, by their paths."""
    names = variants(plan, parts_of(modules))
    files = {"src/parts.rt": root(plan, names)}
    for module in modules_of(plan, names):
        mine = [part for part in names if module_of(plan, part) == module]
        files[f"src/parts/{module}.rt"] = tables(names, module, mine)
    return files


def module_of(plan: Plan, part: Part) -> str:
    """The module in which the type with a name stands that a part is, or stands around."""
    return plan.of(innermost(part)).module


def modules_of(plan: Plan, names: dict[Part, str]) -> list[str]:
    return sorted({module_of(plan, part) for part in names})


HEAD = f"""//! The components of each type, by their names.
//!
//! {MARK}."""

COMPONENT = """/// A component: its name in the module, empty for an item of a list and for a value after an explicit tag; its
/// identifier octet, if it may be absent or is one of several; its part.
#[derive(Clone, Copy)]
pub struct Component(pub &'static str, pub Option<u8>, pub Part);"""


def root(plan: Plan, names: dict[Part, str]) -> str:
    """The file of all parts, and where the components of each stand."""
    files = "\n".join(f"mod {module};" for module in modules_of(plan, names))
    return "\n\n".join([HEAD, *([files] if files else []), declaration(names), COMPONENT, calls(plan, names)]) + "\n"


def declaration(names: dict[Part, str]) -> str:
    """The enum of all parts."""
    listed = "".join(f"    /// {described(part)}.\n    {name},\n" for part, name in names.items())
    return (
        "/// The part that octets are: a type with components, a list, or a value without components.\n"
        "#[derive(Clone, Copy)]\n"
        f"pub enum Part {{\n{listed}    /// A value without named components.\n    Value,\n}}"
    )


def described(part: Part | Choice) -> str:
    """A part in ASN.1's words."""
    return WORDS[part.word].format(described(part.of)) if isinstance(part, Around) else f"`{part.name}`"


def calls(plan: Plan, names: dict[Part, str]) -> str:
    """What is asked of a part."""
    arms = "".join(
        f"            Part::{name} => &{module_of(plan, part)}::{screaming(name)},\n" for part, name in names.items()
    )
    lists = " | ".join(f"Part::{name}" for part, name in names.items() if is_list(part))
    return f"""impl Part {{
    /// The components, in their order; for a list one, which each item is.
    ///
    /// A component that is a CHOICE is listed once for each alternative, each time with the name of the
    /// component; one of them is present.
    pub fn components(self) -> &'static [Component] {{
        match self {{
{arms}            Part::Value => &[],
        }}
    }}

    /// Whether it is a list.
    pub fn is_list(self) -> bool {{
        {f"matches!(self, {lists})" if lists else "false"}
    }}
}}"""


def tables(names: dict[Part, str], module: str, mine: list[Part]) -> str:
    """The components of the types of a module."""
    head = f"//! The components of the types of `{module}`.\n//!\n//! {MARK}.\n\n"
    return f"{head}use super::{{Component, Part}};\n\n" + "\n".join(table(names, part) for part in mine)


def table(names: dict[Part, str], part: Part) -> str:
    """The components of a part."""
    listed = [literal(names, one) for one in components(part)]
    return f"pub(super) static {screaming(names[part])}: [Component; {len(listed)}] = [{', '.join(listed)}];\n"


def literal(names: dict[Part, str], one: Component) -> str:
    octet = "None" if one.octet is None else f"Some({one.octet:#04x})"
    part = "Value" if one.part is None else names[one.part]
    return f'Component("{one.name}", {octet}, Part::{part})'


def is_list(part: Part) -> bool:
    return isinstance(part, List) or (isinstance(part, Around) and part.word != "Explicit")
