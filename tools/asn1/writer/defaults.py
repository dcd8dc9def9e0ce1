"""The types that stand for the defaults of a module: the encoding of each, its value, and how it is told (X.690 11.5)."""

from __future__ import annotations

from dataclasses import replace

from ..errors import AsnError
from ..model import DefaultValue, Field, Marker, Resolved, ResolvedModule, Struct, Tagged
from ..properties import behind_explicit, named_type, properties_of
from . import docs
from .default_laws import write_default_laws
from .default_makers import Made
from .default_octets import encoded, encoding_term
from .default_proofs import write_proofs
from .default_values import Maker, has_parts, octets_literal
from .plan import DEFAULT_LAWS, DEFAULTS, Plan
from .source import Source
from .types import lifetime_of, rust_type

Owned = tuple[Struct, Field]  # a field, and the struct that has it


def markers_of(module: ResolvedModule) -> dict[Marker, list[Owned]]:
    """The types that stand for a module's defaults, each with the fields that have it."""
    found: dict[Marker, list[Owned]] = {}
    for definition in module.definitions:
        if not isinstance(definition, Struct) or definition.by_hand:
            continue
        for part in definition.fields:
            if part.marker is not None:
                found.setdefault(part.marker, []).append((definition, part))
    for owned in found.values():
        check_alike(owned)
    return found


def check_alike(owned: list[Owned]) -> None:
    """Fields with one marker have one default."""
    first = owned[0][1]
    for _, part in owned[1:]:
        if part.default != first.default:
            assert part.marker is not None
            raise AsnError(
                part.place,
                f"the default of '{part.name}' is named '{part.marker.rust}', as that of '{first.name}' at {first.place}",
                "write '-- @name(..)' after one of them",
            )


def write_defaults(plan: Plan, module: ResolvedModule) -> dict[str, str]:
    """The source file of a module's defaults, and the page of the laws that it takes; of a module with none no file."""
    found = markers_of(module)
    if not found:
        return {}
    source = Source(plan, plan.targets[module.name], DEFAULTS)
    called = add_types(source, found)
    add_tests(source, [part for owned in found.values() for _, part in owned])
    first = [f"//! The defaults of {module.name}, each named by a type (X.680 25.9, X.690 11.5)."]
    files = {f"src/{source.target.module}/{DEFAULTS}.rt": source.text(first)}
    if source.laws:
        page = f"specs/{source.target.page}/{DEFAULT_LAWS}.antt"
        files[page] = write_default_laws(plan, module, source.laws)
    return files | write_proofs(source, called)


def add_types(source: Source, found: dict[Marker, list[Owned]]) -> dict[str, Made]:
    """The types that stand for defaults, and the functions that make these, which it answers by their names."""
    called: dict[str, Made] = {}
    for marker, owned in found.items():
        source.add(f"{head(marker, owned)}\npub struct {marker.rust};")
        value = owned[0][1].default
        assert value is not None
        for type_ in types_of(source, [part for _, part in owned]):
            source.add(impl(source, called, marker, type_, value))
    for made in called.values():
        source.add(made.text(source))
    return called


def head(marker: Marker, owned: list[Owned]) -> str:
    """What a default is of."""
    struct, part = owned[0]
    if not marker.rust.startswith("DefaultOf"):
        return docs.doc(f"The default {shown(part.default)}.")
    return docs.doc(f"The default of `{part.name}` of `{struct.name}`, `{part.text}`.")


def shown(value: DefaultValue | None) -> str:
    """A default that has its name from its value, as ASN.1 writes it."""
    if isinstance(value, bool):
        return "TRUE" if value else "FALSE"
    return str(value) if isinstance(value, int) else "NULL"


def types_of(source: Source, parts: list[Field]) -> list[Resolved]:
    """The types that a default is of, each once: an explicit tag before one is the library's to add."""
    found: dict[str, Resolved] = {}
    for part in parts:
        type_ = written_out(behind_explicit(part.type))
        found.setdefault(rust_type(source, type_), type_)
    return list(found.values())


def written_out(type_: Resolved) -> Resolved:
    """A type with all of its tags, and no second names before them."""
    found = named_type(type_)
    return replace(found, of=written_out(found.of)) if isinstance(found, Tagged) else found


# ---- impls


def impl(source: Source, called: dict[str, Made], marker: Marker, type_: Resolved, value: DefaultValue) -> str:
    """The default as one of a type: its encoding, its value, and whether a value is it."""
    name, lifetime = rust_type(source, type_), lifetime_of(properties_of(type_).borrows)
    maker = Maker(source, called)
    made = maker.held(type_, value, "value")
    body = "\n".join([*maker.lines, made])
    return (
        f"impl{lifetime} {source.use('DefaultOf')}<{name}> for {marker.rust} {{\n"
        f"    ghost {source.member('octets')} = {{ {encoding_term(source, type_, value)} }};\n\n"
        f"    fn default_value() -> {name} {{\n{body}\n    }}\n\n"
        f"    fn is_default(value: &{name}) -> bool {{\n{told(marker, name, type_, value)}\n    }}\n}}"
    )


def told(marker: Marker, name: str, type_: Resolved, value: DefaultValue) -> str:
    """Whether a value is the default: of a type with parts by its octets, else by its equality."""
    if has_parts(type_):
        return f"is_encoded_as(value, {octets_literal(encoded(type_, value))})"
    return f"let default = <{marker.rust} as DefaultOf<{name}>>::default_value();\nhave_one_encoding(value, &default)"


# ---- what the impls call


def add_tests(source: Source, parts: list[Field]) -> None:
    """The functions that tell a default, of which one is for types with parts."""
    source.page_word("std.specs.Prelude", "◌≡◌")
    source.page_word("der_fields.specs.Defaults", "is_default")
    if not all(has_parts(part.type) for part in parts):
        source.add(by_equality(source))
    lengths = [len(encoded(behind_explicit(part.type), part.default)) for part in parts if has_parts(part.type) and part.default is not None]
    if lengths:
        source.add(by_octets(source, max(lengths)))


def by_equality(source: Source) -> str:
    """The test of a value by its equality with the default."""
    return (
        f"{docs.doc('Whether two values have one encoding: where they can be compared, their equality says so.')}\n"
        f"{source.using('told_by_equality')}\n"
        f"fn have_one_encoding<T: {source.use('EncodingEq')}>(value: &T, default: &T) -> bool\n"
        "    requires { T.comparable value.now default.now }\n"
        "    ensures { result ≡ is_default (T.encoding default.now) (T.encoding value.now) }\n"
        f"{{\n    {source.use('equal_encodings')}::<T>();\n    *value == *default\n}}"
    )


def by_octets(source: Source, room: int) -> str:
    """The test of a value by its octets, which are written where there is room for those of a default."""
    source.word("false")
    for name in ("◌≤◌", "length"):
        source.page_word("std.specs.Prelude", name)
    return (
        f"{docs.doc(f'Whether these octets, of which there are {room} at most, are the encoding of a value.')}\n"
        f"{source.using('told_by_length')}\n"
        f"fn is_encoded_as<T: {source.use('Encode')}>(value: &T, octets: &[u8]) -> bool\n"
        f"    requires memory {{ T.Form.TAKES_MEMORY ≡ false }}\n"
        f"    requires room {{ length octets.now ≤ {room} }}\n"
        "    ensures { result ≡ is_default octets.now (T.encoding value.now) }\n"
        f"{{\n    let mut buffer = [0; {room}];\n    match value.encode_to_slice(&mut buffer) {{\n"
        "        Ok(found) => *found == *octets,\n        Err(_) => false,\n    }\n}"
    )
