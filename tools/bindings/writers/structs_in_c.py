"""The structs of der.h, and the calls that write them."""

from __future__ import annotations

from ..names import source, struct_in_c, with_article
from ..tables.structs import SIZES, Field, Struct
from ..wrapping import aligned, call_in_c, comment_in_c

TYPES = {"place": "der_place", "u32": "uint32_t", "u64": "uint64_t", "i64": "int64_t"}
OCTETS = ["const uint8_t *octets", "size_t len"]


def structs(found: list[Struct]) -> list[str]:
    lines = []
    for struct in found:
        lines += [*typedef(struct), ""]
    for struct in found:
        lines += assertions(struct)
    return lines


def typedef(struct: Struct) -> list[str]:
    name = struct_in_c(struct)
    lines = [*comment_in_c(f"Places in {with_article(struct.noun)} {source(struct)}"), f"typedef struct {name} {{"]
    run: list[tuple[str, str]] = []  # lines that stand one below another
    for at, group in enumerate(struct.groups):
        if at and (group.within or group.member == "numbers"):
            lines += [*aligned(run), ""]
            run = []
        if group.within:
            lines.append(f"    /* the fields of {group.within} */")
        run += [(f"    {TYPES[it.type]} {it.name};", f"/* {phrase(it)} */") for it in group.fields]
    return [*lines, *aligned(run), f"}} {name};"]


def phrase(field: Field) -> str:
    """What a field is, and that it may be absent."""
    return f"{field.phrase}; may be absent" if field.access == "optional" and "absent" not in field.phrase else field.phrase


def assertions(struct: Struct) -> list[str]:
    """What a compiler says of the layout: the size, and where each group of fields but the first begins."""
    name = struct_in_c(struct)
    lines = [f'DER_ASSERT(sizeof({name}) == {struct.size}, "{counted(struct.fields)}");']
    before: list[Field] = []
    for group in struct.groups:
        if before:
            offset = sum(SIZES[field.type] for field in before)
            words = f'offsetof({name}, {group.fields[0].name}) == {offset}, "after {counted(before)}"'
            lines.append(f"DER_ASSERT({words});")
        before += group.fields
    return lines


def counted(fields: list[Field] | tuple[Field, ...]) -> str:
    """'13 places and 3 numbers of 64 bits'."""
    words = []
    for size, what in (("place", "place"), ("64", "number"), ("32", "number")):
        count = sum(size in field.type for field in fields)
        bits = "" if what == "place" else f" of {size} bits"
        words += [f"{count} {what}{'' if count == 1 else 's'}{bits}"] if count else []
    return " and ".join(words)


def calls(found: list[Struct]) -> list[str]:
    """The declarations of the calls."""
    lines = []
    for struct in found:
        parameters = [*OCTETS, f"{struct_in_c(struct)} *out", "der_fault *fault"]
        lines += comment_in_c(described(struct))
        lines += [*call_in_c(f"uint32_t der_{struct.name}(", parameters, ");"), ""]
    return lines[:-1]


def described(struct: Struct) -> str:
    """What a call reads."""
    if struct.is_front:
        first = f"Reads the {struct.noun} at the front of the octets {source(struct)}. Its places count from there."
    else:
        first = f"Reads all octets as {with_article(struct.noun)} {source(struct)}."
    return " ".join([first, *struct.notes])


def checked_calls(found: list[Struct]) -> list[str]:
    """The calls that refuse a null pointer, by a macro of c/checked.c."""
    return [f"CHECKED({struct.name}, {struct_in_c(struct)})" for struct in found]


def in_lists(found: list[Struct]) -> list[Struct]:
    """The structs with a written call that reads one message after another."""
    return [struct for struct in found if struct.next and struct.next.is_written]


def checked_next_calls(found: list[Struct]) -> list[str]:
    """The calls that read one message after another, by a macro of c/checked.c."""
    return [f"CHECKED_NEXT({struct.name}, {struct_in_c(struct)})" for struct in in_lists(found)]


def refusing_calls(found: list[Struct]) -> list[str]:
    """What a test says of all calls: which octets they refuse."""
    return [f"    REFUSES({struct_in_c(struct)}, der_{struct.name});" for struct in found]


def leaving_calls(found: list[Struct]) -> list[str]:
    """What a test says of the calls that read one message after another."""
    return [f"    LEAVES({struct_in_c(struct)}, {struct.next.name});" for struct in in_lists(found) if struct.next]


def fuzzed_calls(found: list[Struct]) -> list[str]:
    """The fuzzer's calls for messages of places alone."""
    return [f"    INNER({struct.name}, {struct_in_c(struct)});" for struct in found if struct.is_inner]


def fuzzed_lists(found: list[Struct]) -> list[str]:
    """Its calls that read one message after another."""
    return [f"    ITEMS({struct.next.name}, {struct_in_c(struct)});" for struct in in_lists(found) if struct.next]


def next_calls(found: list[Struct]) -> list[str]:
    """The declarations of these calls."""
    return [line for struct in in_lists(found) for line in [*next_call(struct), ""]][:-1]


def next_call(struct: Struct) -> list[str]:
    assert struct.next
    text = (
        f"Reads the {struct.noun} at the front of `left`, and moves `left` past it. The places count from the start of the octets. "
        f"At first, `left` is {struct.next.left}. Returns 100 if `left` is not within the octets."
    )
    parameters = [*OCTETS, "der_place *left", f"{struct_in_c(struct)} *out", "der_fault *fault"]
    return [*comment_in_c(text), *call_in_c(f"uint32_t {struct.next.name}(", parameters, ");")]
