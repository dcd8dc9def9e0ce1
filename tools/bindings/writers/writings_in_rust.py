"""What Rust has of the calls that write messages: their declarations, and a struct of the fields of each."""

from __future__ import annotations

from ..names import camel, capital, field_in_rust, struct_in_rust, with_article, without_links
from ..tables.structs import Part, Struct, Writing
from ..wrapping import WIDTH, call_in_rust, wrapped

TYPES = {"field": "&'a [u8]", "items": "&'a [&'a [u8]]", "set": "&'a [&'a [u8]]", "version": "u64", "moment": "u64", "flag": "bool"}
OF_MOMENTS = "in seconds from 1970-01-01T00:00:00Z"


def calls(found: list[Struct]) -> list[str]:
    """The declarations of the calls, within `extern "C"`."""
    lines = []
    for struct in found:
        for writing in struct.writings:
            parameters = ["octets: *const u8", "len: usize", f"at: *const {struct_in_rust(struct)}", "buffer: *mut u8"]
            parameters += ["buffer_len: usize", "written: *mut usize", "fault: *mut Fault"]
            lines += call_in_rust("    ", f"pub fn der_write_{writing.name}", parameters, " -> u32;")
    return lines


def safe_calls(found: list[Struct]) -> list[str]:
    """The calls over slices, by a macro of safe.rs."""
    names = [(writing.name, struct_in_rust(struct)) for struct in found for writing in struct.writings]
    return [f"    write_{name}: der_write_{name} <- crate::{at}," for name, at in names]


def messages(found: list[Struct]) -> list[str]:
    """The structs of fields, and how each is put into a room."""
    lines = []
    for struct in found:
        for writing in struct.writings:
            lines += ["", *fields(writing), "", *putting(struct, writing)]
    return lines[1:]


def name_of(writing: Writing) -> str:
    return f"{camel(writing.name)}Fields"


def described(part: Part) -> str:
    """What a field is, as documentation."""
    name = part.name_in_asn1
    if part.kind in ("items", "set"):
        return f"`{name}`: the encodings of its items, in {'any' if part.kind == 'set' else 'this'} order{absent(part, 'none')}"
    if part.kind == "field":
        return f"`{name}`, {part.field.phrase}"
    return {
        "version": f"`{name}`: 1 for v1, 2 for v2 and so on",
        "moment": f"`{name}`, {OF_MOMENTS}",
        "flag": "`critical`",
        "number": f"`{name}`: {part.field.phrase}",
    }[part.kind]


def absent(part: Part, what: str) -> str:
    return f"; absent if there are {what}" if part.is_optional else ""


def type_of(part: Part) -> str:
    name = TYPES.get(part.kind, part.field.type)
    return f"Option<{name}>" if part.is_optional and part.kind in ("field", "moment") else name


def fields(writing: Writing) -> list[str]:
    lines = [f"/// The fields of {with_article(writing.noun)} ({writing.type}, {writing.standard})."]
    lines += ["#[derive(Clone, Copy, Debug, Default)]", f"pub struct {name_of(writing)}<'a> {{"]
    for part in writing.parts:
        lines += [f"    /// {line}" for line in wrapped(without_links(f"{capital(described(part))}."), WIDTH - 8)]
        lines.append(f"    pub {part.name}: {type_of(part)},")
    return [*lines, "}"]


def putting(struct: Struct, writing: Writing) -> list[str]:
    """The place of each field in the room, in the order of the struct; and the calls, by a macro."""
    by_name = {part.field.name: part for part in writing.parts}
    taken = [(field, by_name[field.name]) for field in struct.fields if field.name in by_name]
    rest = [] if len(taken) == len(struct.fields) else [f"..sys::{struct_in_rust(struct)}::default()"]
    values = [f"{field_in_rust(field)}: {value(part)}," for field, part in taken]
    at = struct_in_rust(struct)
    lines = ["writes! {", f"    {name_of(writing)}, write_{writing.name}, |it, room| sys::{at} {{"]
    return [*lines, *[f"        {line}" for line in [*values, *rest]], "    }", "}"]


def value(part: Part) -> str:
    it, optional = f"it.{part.name}", "optional_" if part.is_optional else ""
    if part.kind in ("items", "set"):
        within = ", ".join(f"0x{number:02x}" for number in part.identifiers)
        return f"room.{optional}{part.kind}({it}, &[{within}])"
    return {
        "field": f"room.{optional}field({it})",
        "version": f"{it}.wrapping_sub(1)",
        "moment": f"optional_moment({it})" if part.is_optional else it,
        "flag": f"u32::from({it})",
        "number": it,
    }[part.kind]
