"""The types of the packages that are written as a whole: messages that stand within others."""

from __future__ import annotations

from ..names import camel, capital, source, struct_in_c, struct_in_go, struct_in_rust, with_article
from ..tables.structs import Struct
from ..wrapping import WIDTH, wrapped
from . import fields


def inner(found: list[Struct]) -> list[Struct]:
    return [struct for struct in found if struct.is_inner]


def described(struct: Struct) -> str:
    """'An RSA public key (RSAPublicKey, RFC 8017 A.1.1).', with the notes."""
    return " ".join([f"{capital(with_article(struct.noun))} {source(struct)}.", *struct.notes])


def in_rust(found: list[Struct]) -> list[str]:
    lines = []
    for struct in inner(found):
        name = camel(struct.name)
        derived = [] if struct.is_secret else ["    #[derive(Debug)]"]
        lines += ["", "message! {", *[f"    /// {line}" for line in wrapped(described(struct), WIDTH - 8)], *derived]
        lines += [f"    {name}, {struct.name}, {struct_in_rust(struct)}", "}", ""]
        lines += [f"impl<'a> {name}<'a> {{", *fields.in_rust(struct), "}"]
        lines += ["", f"without_octets!({name});"] if struct.is_secret else []
    return lines[1:]


def in_go(found: list[Struct]) -> list[str]:
    lines = []
    for struct in inner(found):
        name = struct_in_go(struct)
        about = f"{name} is {with_article(struct.noun)} {source(struct)}."
        lines += ["", *[f"// {line}" for line in wrapped(" ".join([about, *struct.notes]), WIDTH - 3)]]
        lines += [f"type {name} struct {{", "\toctets []byte", f"\tat     C.{struct_in_c(struct)}", "}", ""]
        reads = f"Read{name} reads all octets as {with_article(struct.noun)}. They must not change as long as the result is used."
        lines += [f"// {line}" for line in wrapped(reads, WIDTH - 3)]
        lines += [f"func Read{name}(octets []byte) (*{name}, error) {{", *reading_in_go(struct, name), "}"]
        lines += fields.in_go(struct)[:-1]
        lines += secret_in_go(name) if struct.is_secret else []
    return [*lines, ""]


def reading_in_go(struct: Struct, name: str) -> list[str]:
    return [
        f"\tread := reading[{name}]{{it: {name}{{octets: octets}}}}",
        "\taddress, count := first(octets)",
        f"\tif err := answered(C.der_{struct.name}(address, count, &read.it.at, &read.fault), &read.fault); err != nil {{",
        "\t\treturn nil, err",
        "\t}",
        "\treturn &read.it, nil",
    ]


def secret_in_go(name: str) -> list[str]:
    receiver = name[0].lower()
    return [
        "",
        "// Format writes the name of the type, and nothing of the key.",
        f"func ({receiver} {name}) Format(state fmt.State, _ rune) {{",
        f'\t_, _ = io.WriteString(state, "der.{name}")',
        "}",
    ]


def in_python(found: list[Struct]) -> list[str]:
    names = [camel(struct.name) for struct in inner(found)]
    lines = ["__all__ = [", *[f'    "{name}",' for name in sorted(names)], "]"]
    for struct in inner(found):
        name = camel(struct.name)
        lines += ["", "", f"class {name}(_der.{name}):", *docstring(described(struct)), "", "    __slots__ = ()", ""]
        lines += fields.in_python(struct)
    return lines


def docstring(text: str) -> list[str]:
    if len(text) <= WIDTH - 10:
        return [f'    """{text}"""']
    lines = wrapped(text, WIDTH - 8)
    return [f'    """{lines[0]}', *[f"    {line}" for line in lines[1:]], '    """']
