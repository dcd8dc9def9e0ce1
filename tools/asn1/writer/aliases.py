"""Second names of types, the names of numbers and bits, and the values of object identifiers."""

from __future__ import annotations

from ..model import Alias, Constant, Definition, Leaf, Named
from ..properties import properties_of_definition
from ..spelling import screaming
from ..values import contents
from . import docs
from .module_laws import add_laws
from .plan import Plan, Target
from .source import Source
from .types import lifetime_of, rust_type


def write_aliases(plan: Plan, target: Target, aliases: list[Definition], name: str) -> str:
    """The source file of all second names of a module, and of the types that a crate has already."""
    source = Source(plan, target, "aliases")
    for alias in aliases:
        if not isinstance(alias, Alias):
            source.add(f"pub use {source.root_of(alias.by_hand[0])}::{alias.rust};")
            add_laws(source, alias)
            continue
        assert alias.type is not None
        lifetime = lifetime_of(properties_of_definition(alias).borrows)
        type_ = rust_type(source, alias.type)
        source.add(f"{docs.of_definition(alias)}\npub type {alias.rust}{lifetime} = {type_};")
        add_laws(source, alias)
        for one in alias.numbers:
            source.add(number(alias, one))
        for one in alias.bits:
            source.add(bit(alias, one))
    return source.text([f"//! Type aliases of {name}."])


def number(alias: Alias, one: Named) -> str:
    """A named number, as the machine integer that the type is; of an INTEGER of any length as an `i64`."""
    width = alias.type.width if isinstance(alias.type, Leaf) else None
    return f"/// `{one.name}` of `{alias.name}`.\npub const {constant_name(alias, one)}: {width or 'i64'} = {one.number};"


def bit(alias: Alias, one: Named) -> str:
    """The place of a named bit."""
    head = f"/// The position of the bit `{one.name}` of `{alias.name}`."
    return f"{head}\npub const {constant_name(alias, one)}: usize = {one.number};"


def constant_name(alias: Alias, one: Named) -> str:
    return f"{screaming(alias.rust)}_{screaming(one.name)}"


def write_constants(plan: Plan, target: Target, constants: list[Constant], name: str) -> str:
    """The source file of the object identifiers of a module, as their contents octets."""
    source = Source(plan, target)
    for one in constants:
        octets = contents(one.arcs)
        listed = ", ".join(f"0x{octet:02x}" for octet in octets)
        dotted = ".".join(str(arc) for arc in one.arcs)
        head = f"{docs.asn1(one.text)}\n///\n/// {dotted}, as contents octets."
        source.add(f"{head}\npub const {one.rust}: [u8; {len(octets)}] = [{listed}];")
    return source.text([f"//! Object identifiers in {name}."])
