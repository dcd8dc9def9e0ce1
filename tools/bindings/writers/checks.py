"""The structs that calls which check take and write, in der.h and in rust/der-proved-sys."""

from __future__ import annotations

from ..names import capital, without_links
from ..tables.checks import Check
from ..tables.structs import SIZES
from ..wrapping import aligned, comment_in_c
from . import structs_in_c, structs_in_rust
from .structs_in_c import counted


def in_c(checks: list[Check]) -> list[str]:
    lines = []
    for check in checks:
        lines += [*typedef(check), ""]
    for check in checks:
        lines += assertions(check)
    return lines


def typedef(check: Check) -> list[str]:
    fields = aligned([(f"    {structs_in_c.TYPES[it.type]} {it.name};", f"/* {it.phrase} */") for it in check.fields])
    return [*comment_in_c(f"{check.sentence}."), f"typedef struct der_{check.name} {{", *fields, f"}} der_{check.name};"]


def assertions(check: Check) -> list[str]:
    """The size, and where fields of another type begin."""
    lines = [f'DER_ASSERT(sizeof(der_{check.name}) == {check.size}, "{counted(check.fields)}");']
    for at, field in enumerate(check.fields):
        before = check.fields[:at]
        if before and before[-1].type != field.type:
            offset = sum(SIZES[it.type] for it in before)
            lines.append(f'DER_ASSERT(offsetof(der_{check.name}, {field.name}) == {offset}, "after {counted(before)}");')
    return lines


def in_rust(checks: list[Check]) -> list[str]:
    lines = []
    for check in checks:
        lines += [f"/// {check.sentence}: `der_{check.name}`.", "#[repr(C)]", "#[derive(Clone, Copy, Debug, Default, PartialEq, Eq)]"]
        lines.append(f"pub struct {check.type} {{")
        for field in check.fields:
            lines += [f"    /// {without_links(capital(field.phrase))}.", f"    pub {field.name_elsewhere}: {structs_in_rust.TYPES[field.type]},"]
        lines += ["}", ""]
    return lines + sizes_in_rust(checks)


def sizes_in_rust(checks: list[Check]) -> list[str]:
    """What the compiler says of the sizes."""
    sizes = "\n        && ".join(f"core::mem::size_of::<{check.type}>() == {check.size}" for check in checks)
    return f'const _: () = assert!(\n    {sizes},\n    "the structs of der.h"\n);'.split("\n")
