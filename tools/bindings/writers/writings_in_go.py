"""What Go has of the calls that write messages: a struct of the fields of each, and a method of Writer."""

from __future__ import annotations

from ..names import capital, field_in_go, field_of_c_in_go, struct_in_c, with_article
from ..tables.structs import Part, Struct, Writing
from ..wrapping import WIDTH, wrapped

TYPES = {"field": "[]byte", "items": "[][]byte", "set": "[][]byte", "version": "int", "moment": "time.Time", "flag": "bool", "number": "int64"}
NUMBERS = {"u64": "uint64_t", "i64": "int64_t"}
ORDER = {"items": "in this order", "set": "in any order"}


def messages(found: list[Struct]) -> list[str]:
    lines = []
    for struct in found:
        for writing in struct.writings:
            lines += ["", *fields(writing), "", *method(struct, writing)]
    return [*lines, ""]


def type_of(writing: Writing) -> str:
    return "".join(capital(part) for part in writing.type.split("-"))


def name_of(part: Part) -> str:
    """SerialNumber of serialNumber, ThisUpdate of this_update."""
    return field_in_go(part.field) if part.field.is_place else "".join(capital(it) for it in part.name.split("_"))


def fields(writing: Writing) -> list[str]:
    name = type_of(writing)
    about = f"{name}Fields has the fields of {with_article(writing.noun)} ({writing.type}, {writing.standard})."
    lines = [*[f"// {line}" for line in wrapped(about, WIDTH - 3)], f"type {name}Fields struct {{"]
    for part in writing.parts:
        lines += [f"\t// {line}" for line in wrapped(f"{name_of(part)} is {described(part)}.", WIDTH - 7)]
        lines.append(f"\t{name_of(part)} {TYPES[part.kind]}")
    return [*lines, "}"]


def described(part: Part) -> str:
    name = part.name_in_asn1
    absent = {"field": "; nil if absent", "moment": "; the zero Time if absent"}.get(part.kind, "; absent if there are none")
    told = {
        "version": f"{name}: 1 for v1, 2 for v2 and so on",
        "moment": f"{name}; a fraction of a second is left out",
        "flag": "critical",
        "number": f"{name}: {part.field.phrase}",
        "field": f"{name}, {part.field.phrase}",
        "items": f"{name}: the encodings of its items, in this order",
        "set": f"{name}: the encodings of its items, in any order",
    }[part.kind]
    return told + (absent if part.is_optional else "")


def method(struct: Struct, writing: Writing) -> list[str]:
    name, at = type_of(writing), struct_in_c(struct)
    lines = [
        f"// {name} writes {with_article(writing.noun)}.",
        f"func (w *Writer) {name}(fields {name}Fields) []byte {{",
        f"\tvar at C.{at}",
        "\tvar put parts",
        *[f"\tat.{field_of_c_in_go(part.field)} = {value(part)}" for part in writing.parts],
        f'\treturn w.written("{name}", put.octets, func(octets []byte, to *target) C.uint32_t {{',
        "\t\taddress, count := first(octets)",
        "\t\tbuffer, size := first(to.buffer)",
        f"\t\treturn C.der_write_{writing.name}(address, count, &at, buffer, size, &to.written, &to.fault)",
        "\t})",
        "}",
    ]
    return lines


def value(part: Part) -> str:
    it = f"fields.{name_of(part)}"
    if part.kind in ORDER:
        within = ", ".join(f"0x{number:02x}" for number in part.identifiers)
        name = f"optional{part.kind.capitalize()}" if part.is_optional else part.kind
        return f"w.{name}(&put, {it}, {within})"
    if part.kind == "moment":
        return f"{'optionalMoment' if part.is_optional else 'moment'}({it})"
    return {
        "field": f"put.field({it})",
        "version": f"C.uint64_t({it} - 1)",
        "flag": f"flag({it})",
        "number": f"C.{NUMBERS.get(part.field.type)}({it})",
    }[part.kind]
