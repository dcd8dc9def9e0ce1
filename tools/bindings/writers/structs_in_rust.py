"""The structs of rust/der-proved-sys, and the calls that write them."""

from __future__ import annotations

from ..names import capital, field_in_rust, struct_in_c, struct_in_rust, with_article, without_links
from ..tables.structs import Struct
from ..wrapping import call_in_rust

TYPES = {"place": "Place", "u32": "u32", "u64": "u64", "i64": "i64"}


def structs(found: list[Struct]) -> list[str]:
    lines = []
    for struct in found:
        lines += [
            f"/// Places in {with_article(struct.noun)}: `{struct_in_c(struct)}`.",
            "#[repr(C)]",
            "#[derive(Clone, Copy, Debug, Default, PartialEq, Eq)]",
            f"pub struct {struct_in_rust(struct)} {{",
        ]
        for field in struct.fields:
            lines += [f"    /// {without_links(capital(field.phrase))}.", f"    pub {field_in_rust(field)}: {TYPES[field.type]},"]
        lines += ["}", ""]
    return lines[:-1]


def safe_calls(found: list[Struct]) -> list[str]:
    """The calls over slices, by a macro of safe.rs."""
    return [f"    {struct.name}: der_{struct.name} -> crate::{struct_in_rust(struct)}," for struct in found]


def calls(found: list[Struct]) -> list[str]:
    """The declarations of the calls, within `extern "C"`."""
    lines = []
    for struct in found:
        parameters = ["octets: *const u8", "len: usize", f"out: *mut {struct_in_rust(struct)}", "fault: *mut Fault"]
        lines += call_in_rust("    ", f"pub fn der_{struct.name}", parameters, " -> u32;")
    return lines
