"""The fields of the types of the packages: of each struct, those places that are returned by their names."""

from __future__ import annotations

from collections.abc import Iterator

from ..names import field_in_go, field_in_rust, field_of_c_in_go, struct_in_go, without_links
from ..tables.structs import Field, Struct
from ..wrapping import WIDTH, wrapped

LONGEST_IN_GO = 100  # of a function in one line, as gofmt has it
MACROS_IN_RUST = {"field": "fields", "optional": "optional_fields"}


def returned(struct: Struct) -> Iterator[tuple[Field, str]]:
    """The fields, each with its description, in which names stand between backquotes."""
    for group in struct.groups:
        of = f" of `{group.within}`" if group.within else ""
        for field in group.fields:
            if field.access in MACROS_IN_RUST:
                yield field, f"`{field.name_elsewhere}`{of}, {field.phrase}"


def in_rust(struct: Struct) -> list[str]:
    lines = []
    for access, macro in MACROS_IN_RUST.items():
        mine = [(field, text) for field, text in returned(struct) if field.access == access]
        if mine:
            lines += ["", f"    {macro}! {{"]
            for field, text in mine:
                lines += [f"        /// {line}" for line in wrapped(without_links(f"{text}."), WIDTH - 12)]
                lines.append(f"        {field_in_rust(field)}")
            lines.append("    }")
    return lines[1:]


def in_go(struct: Struct) -> list[str]:
    lines = [""]
    for field, text in returned(struct):
        name = field_in_go(field)
        absent = "; nil if absent" if field.access == "optional" else ""
        described = f"{name} returns {text.replace('`', '')}{absent}."
        lines += [f"// {line}" for line in wrapped(described, WIDTH - 3)]
        lines += [*method_in_go(struct, name, field_of_c_in_go(field)), ""]
    return lines


def method_in_go(struct: Struct, name: str, place: str) -> list[str]:
    """A method of a type that is returned by its address, but for those at the front."""
    it = struct.type[0].lower()
    head = f"func ({it} {'' if struct.is_front else '*'}{struct_in_go(struct)}) {name}() []byte {{"
    body = f"return at({it}.octets, {it}.at.{place})"
    line = f"{head} {body} }}"
    return [line] if len(line) <= LONGEST_IN_GO else [head, f"\t{body}", "}"]


def in_python(struct: Struct) -> list[str]:
    lines = []
    index = {field.name: at for at, field in enumerate(struct.places)}
    for field, text in returned(struct):
        arguments = f'{index[field.name]}, "{text}."'
        line = f"    {field.name} = _der.{field.access}({arguments})"
        lines += [line] if len(line) <= WIDTH else [f"    {field.name} = _der.{field.access}(", f"        {arguments}", "    )"]
    return lines
