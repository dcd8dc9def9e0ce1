"""The structs of der_c, whose members are places of der_places and numbers."""

from __future__ import annotations

import re
from dataclasses import dataclass
from pathlib import Path

from ..errors import Difference
from ..names import field_in_rust
from ..regions import text_of
from ..tables.structs import Field, Group, Struct
from .listing import Entry, Listing, compare

FOLDER = "crates/der_c/src"
WRITING = f"{FOLDER}/building"
PLACES = "crates/der_places/src"
WRITES = re.compile(r'^pub extern "C" fn der_write_(\w+)<\'a>\((?:(?!^\)).*\n)*?    at: &(\w+At|\w+Places),$', re.M)
BEFORE = r"    alloc: Global,\n    octets: &'a \[u8\],\n"
CALL = re.compile(rf"^pub extern \"C\" fn der_(\w+)<'a>\(\n{BEFORE}    out: &mut (\w+At|\w+Places),$", re.M)
NEXT = re.compile(rf"^pub extern \"C\" fn (der_next_\w+)<'a>\(\n{BEFORE}    left: &mut Place,\n    out: &mut (\w+),$", re.M)
NEXT_FILE = f"{FOLDER}/next.rt"


@dataclass(frozen=True)
class Call:
    """A call of der_c: its file, its text, the type of `out`."""

    file: str
    text: str
    out: str


def compare_structs(root: Path, structs: list[Struct]) -> list[Difference]:
    calls = calls_of(root)
    wrong = [Difference(calls[name].file, 1, f"the table has no struct {name}") for name in calls if name not in names_of(structs)]
    for struct in structs:
        if struct.name in calls:
            wrong += compare_struct(root, struct, calls[struct.name])
        else:
            wrong.append(Difference(FOLDER, 1, f"no call is der_{struct.name}"))
    return wrong + compare_writings(root, structs, calls) + compare_next_calls(root, structs, calls)


def compare_writings(root: Path, structs: list[Struct], calls: dict[str, Call]) -> list[Difference]:
    """The calls that write a message: each takes the struct that the table says."""
    found = writings_of(root)
    expected = {writing.name: calls[struct.name].out for struct in structs if struct.name in calls for writing in struct.writings}
    wrong = [Difference(call.file, 1, f"the table has no call der_write_{name}") for name, call in found.items() if name not in expected]
    for name, struct in expected.items():
        if name not in found:
            wrong.append(Difference(WRITING, 1, f"no call is der_write_{name}"))
        elif found[name].out != struct:
            wrong.append(Difference(found[name].file, 1, f"der_write_{name} takes {found[name].out}, and the table has {struct}"))
    return wrong


def compare_next_calls(root: Path, structs: list[Struct], calls: dict[str, Call]) -> list[Difference]:
    """The calls that read one message after another write the same structs."""
    text = text_of(root / NEXT_FILE)
    found = {call[1]: (call[2], text.count("\n", 0, call.end()) + 1) for call in NEXT.finditer(text)}
    expected = {it.next.name: calls[it.name].out for it in structs if it.next and it.next.is_written and it.name in calls}
    wrong = [Difference(NEXT_FILE, 1, f"no call is {name}") for name in expected if name not in found]
    for name, (out, line) in found.items():
        if out != expected.get(name):
            wrong.append(Difference(NEXT_FILE, line, f"{name} writes {out}, and is to write {expected.get(name, 'nothing')}"))
    return wrong


def writings_of(root: Path) -> dict[str, Call]:
    """The calls that take a struct and write a message, by their names; `out` is the type of the struct."""
    found = {}
    for path in sorted((root / WRITING).glob("*.rt")):
        text = text_of(path)
        for name, at in WRITES.findall(text):
            found[name] = Call(f"{WRITING}/{path.name}", text, at)
    return found


def names_of(structs: list[Struct]) -> list[str]:
    return [struct.name for struct in structs]


def calls_of(root: Path) -> dict[str, Call]:
    """The calls that write a struct, by their names."""
    found = {}
    for path in sorted((root / FOLDER).glob("*.rt")):
        text = text_of(path)
        for name, out in CALL.findall(text):
            found[name] = Call(f"{FOLDER}/{path.name}", text, out)
    return found


def compare_struct(root: Path, struct: Struct, call: Call) -> list[Difference]:
    """The struct of a call, and those of its places."""
    wrong = []
    if struct.groups[0].member == "out":
        if call.out != struct.groups[0].type:
            return [Difference(call.file, 1, f"der_{struct.name} writes {call.out}, and the table has {struct.groups[0].type}")]
    else:
        wrong += compare(call.file, call.text, members(call.out), [entry for it in struct.groups for entry in entries_of(it)])
    for group in struct.groups:
        if group.type not in ("", "Place"):
            wrong += compare_places(root, call, group)
    return wrong


def entries_of(group: Group) -> list[Entry]:
    """The members of the struct of der_c that are a group: one, or the numbers."""
    if group.member == "numbers":
        return [(field.name_elsewhere, field.type) for field in group.fields]
    return [(group.member, group.type)]


def compare_places(root: Path, call: Call, group: Group) -> list[Difference]:
    """The struct of der_places that a member has as its type."""
    module = re.search(rf"^use der_places::(?:(\w+)::)?(?:\{{[^}}]*\b)?{group.type}\b", call.text, re.M)
    if not module:
        return [Difference(call.file, 1, f"{group.type} is not imported from der_places")]
    folder = f"{PLACES}/{module[1]}" if module[1] else PLACES
    for path in sorted((root / folder).glob("*.rt")):
        text = text_of(path)
        if re.search(rf"^pub struct {group.type} ", text, re.M):
            expected = [place(field) for field in group.fields]
            return compare(f"{folder}/{path.name}", text, members(group.type), expected)
    return [Difference(folder, 1, f"no file has {group.type}")]


def place(field: Field) -> Entry:
    return (field_in_rust(field), "Place")


def members(name: str) -> Listing:
    begin = rf"^#\[repr\(C\)\]\n#\[derive\(.*\)\]\npub struct {name} \{{$"
    return Listing(f"the struct {name}", begin, r"^(?:    /// .*\n)+    pub (\w+): (\w+),$", r"^\}$")
