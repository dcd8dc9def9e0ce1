#!/usr/bin/env python3
"""Writes a crate by tools/asn1 from a module that has every type of the library (the rows of `writer/leaves.py`): in a SEQUENCE,
after a tag and OPTIONAL, in a SEQUENCE OF, in a SET OF and in a CHOICE. 'rt try' compiles it, and values of each are read and
written in the first and the last. The module has tabs, names that are words of Rattle or of its pages, types
that the layer lacks in part, and lists whose default is the empty one.

    python3 tests/leaves.py

The last line counts."""
import os
import re
import shutil
import subprocess
import sys
import tempfile

from lib import ROOT
from lib.octets import sequence, tlv

sys.path.insert(0, f"{ROOT}/tools")

from asn1.model import Whole  # noqa: E402
from asn1.writer.leaves import WHOLES  # noqa: E402

AT_ONCE = 6  # leaves of a type: the compiler's time grows with the lists of fields, and with the trees of alternatives
# The library's type, whether the value owns its octets, its text in ASN.1, and an encoding.
ROWS = [
    (Whole.BOOLEAN, False, "BOOLEAN", "0101ff"),
    (Whole.NULL, False, "NULL", "0500"),
    (Whole.MACHINE_INTEGER, False, "INTEGER (0..255)", "020105"),
    (Whole.MACHINE_INTEGER, False, "INTEGER (-1..1)", "0201ff"),
    (Whole.INTEGER, False, "INTEGER", "0203800000"),
    (Whole.INTEGER, True, "INTEGER", "0203800000"),
    (Whole.NATURAL, False, "INTEGER (0..MAX)", "02020080"),
    (Whole.NATURAL, True, "INTEGER (0..MAX)", "02020080"),
    (Whole.BIT_STRING, False, "BIT STRING", "03020780"),
    (Whole.BIT_STRING, True, "BIT STRING", "03020780"),
    (Whole.NAMED_BITS, False, "Bits", "03020780"),
    (Whole.OCTET_STRING, False, "OCTET STRING", "0401aa"),
    (Whole.OCTET_STRING, True, "OCTET STRING", "0401aa"),
    (Whole.OBJECT_IDENTIFIER, False, "OBJECT IDENTIFIER", "06022a03"),
    (Whole.OBJECT_IDENTIFIER, True, "OBJECT IDENTIFIER", "06022a03"),
    (Whole.UTC_TIME, False, "UTCTime", "170d3730303130313030303030305a"),
    (Whole.GENERALIZED_TIME, False, "GeneralizedTime", "180f31393730303130313030303030305a"),
    (Whole.FRACTIONAL_TIME, False, "GeneralizedTime -- @fraction", "181131393730303130313030303030302e355a"),
    (Whole.UTF8_STRING, False, "UTF8String", "0c02c3a9"),
    (Whole.UTF8_STRING, True, "UTF8String", "0c02c3a9"),
    (Whole.PRINTABLE_STRING, False, "PrintableString", "130161"),
    (Whole.PRINTABLE_STRING, True, "PrintableString", "130161"),
    (Whole.TELETEX_STRING, False, "TeletexString", "140161"),
    (Whole.TELETEX_STRING, True, "TeletexString", "140161"),
    (Whole.VIDEOTEX_STRING, False, "VideotexString", "150161"),
    (Whole.IA5_STRING, False, "IA5String", "160161"),
    (Whole.IA5_STRING, True, "IA5String", "160161"),
    (Whole.GENERAL_STRING, False, "GeneralString", "1b0161"),
    (Whole.NUMERIC_STRING, False, "NumericString", "120131"),
    (Whole.VISIBLE_STRING, False, "VisibleString", "1a0161"),
    (Whole.RELATIVE_OID, False, "RELATIVE-OID", "0d0105"),
    (Whole.OCTET_STRING, False, "OCTET STRING (SIZE (1 | 3))", "0401aa"),
    (Whole.BMP_STRING, False, "BMPString", "1e020061"),
    (Whole.ANY, False, "ANY", "0500"),
    (Whole.ANY, True, "ANY", "0500"),
    (Whole.UNREAD_SEQUENCE, False, "Inner -- @unread", "30020500"),
]
# Types with names that are words of Rattle or of its pages, and tabs; and an encoding of each.
WORDS = """Data ::= SEQUENCE {
\tdata\tNULL,\t-- a tab
\trecord NULL, module NULL, open NULL, infix NULL, abbrev NULL, unfoldable NULL }
Record ::= SEQUENCE { ghost NULL, requires OCTET STRING, ensures SEQUENCE OF NULL, result OCTET STRING OPTIONAL, new NULL, v NULL }
Variants ::= CHOICE { self NULL, type BOOLEAN, one [1] One }
One ::= ENUMERATED { some, list, self, one }
"""
OF_WORDS = [
    ("Data", "300e" + "0500" * 7),
    ("Record", "300b" + "0500" + "0401aa" + "3000" + "0500" * 2),
    ("Record", "300d" + "0500" + "0400" + "3000" + "0401aa" + "0500" * 2),
    ("Variants", "0101ff"),
    ("Variants", "810103"),
]
# Types that the layer lacks in part, and lists whose default is the empty one; encodings of each, and some that are refused.
PARTS = """Kept ::= SEQUENCE { a NULL, b GraphicString }
KeptList ::= SEQUENCE OF EXTERNAL
KeptSet ::= SET { b GraphicString }
Keeper ::= SEQUENCE { a Kept, b [1] Kept OPTIONAL, c SEQUENCE OF Kept, d [2] KeptSet OPTIONAL, e KeptSet OPTIONAL, f EXTERNAL OPTIONAL }
Left ::= CHOICE { a GraphicString, b INTEGER (0..255) }
Lefts ::= SEQUENCE { a Left, b [0] Left DEFAULT b : 7 }
Between ::= SET { a CHOICE { b BOOLEAN, c NULL }, d INTEGER }
Betweens ::= SEQUENCE { a [0] Between OPTIONAL, b [1] SET { a ANY } OPTIONAL }
Round ::= SET { a NULL, b Round OPTIONAL, c Rounds OPTIONAL }
Rounds ::= SEQUENCE { a SET OF Round }
Numbers ::= SEQUENCE OF INTEGER
Absent ::= SEQUENCE { a SET OF NULL DEFAULT {}, b [0] Numbers DEFAULT {}, c [1] EXPLICIT Numbers DEFAULT {} }
"""
OF_PARTS = [
    ("Kept", "3005" + "0500190161"),
    ("KeptList", "3002" + "2800"),
    ("Keeper", "3010" + "30050500190161" + "3007" + "30050500190161"),
    ("Keeper", "3015" + "3000" + "a1050500190161" + "3004" + "30003000" + "a204" + "19021900"),
    ("Left", "020105"),
    ("Lefts", "3003" + "020105"),
    ("Lefts", "3008" + "020105" + "a003020108"),
    ("Between", "3106" + "0101ff" + "020105"),
    ("Between", "3105" + "020105" + "0500"),
    ("Betweens", "3006" + "a0020500" + "a100"),
    ("Round", "3102" + "0500"),
    ("Round", "3106" + "0500" + "3102" + "0500"),
    ("Rounds", "3006" + "3104" + "3102" + "0500"),
    ("Absent", "3000"),
    ("Absent", "3010" + "31020500" + "a003020105" + "a1053003020105"),
]
REFUSED = [
    ("Kept", "3105" + "0500190161"),
    ("Left", "190161"),
    ("Lefts", "3008" + "020105" + "a003020107"),
    ("Between", "3104" + "0101fe" + "05"),
    ("Absent", "3002" + "3100"),
    ("Absent", "3002" + "a000"),
    ("Absent", "3004" + "a1023000"),
]
CONSTRUCTED = frozenset([0x30])
GROUPS = [ROWS[i : i + AT_ONCE] for i in range(0, len(ROWS), AT_ONCE)]
# The forms of a type of a group: its kind, and a component.
FORMS = {
    "Alone": ("SEQUENCE", "a{i} {type}"),
    "After": ("SEQUENCE", "a{i} [{i}] {type} OPTIONAL"),
    "Lists": ("SEQUENCE", "a{i} SEQUENCE OF {type}"),
    "Sets": ("SEQUENCE", "a{i} SET OF {type}"),
    "Choice": ("CHOICE", "a{i} [{i}] {type}"),
}


def component(form, i, row, is_last):
    """A component, with its annotation after the comma."""
    _, is_owned, text, _ = row
    type_, _, note = text.partition(" -- ")
    if is_owned:
        note = "@owned"
    return f"    {form.format(i=i, type=type_)}{'' if is_last else ','}{f' -- {note}' if note else ''}\n"


def module():
    """The module of all leaves."""
    lines = f"Inner ::= SEQUENCE {{ x NULL }}\nBits ::= BIT STRING {{ first(0) }}\n{WORDS}{PARTS}"
    for number, group in enumerate(GROUPS):
        for name, (kind, form) in FORMS.items():
            parts = [component(form, i, row, row is group[-1]) for i, row in enumerate(group)]
            lines += f"{name}{number} ::= {kind} {{\n{''.join(parts)}}}\n"
    return f"Leaves DEFINITIONS IMPLICIT TAGS ::= BEGIN\n{lines}END\n"


def after(i, row):
    """An encoding after the tag [i]: ANY keeps its own tag within it (X.680 31.2.7)."""
    octets = bytes.fromhex(row[3])
    if row[0] is Whole.ANY:
        return tlv(0xA0 | i, octets)
    return bytes([0x80 | i | (0x20 if octets[0] in CONSTRUCTED else 0)]) + octets[1:]


def values():
    """Pairs of a type and an encoding."""
    for name, digits in OF_WORDS + OF_PARTS:
        yield name, bytes.fromhex(digits)
    for number, group in enumerate(GROUPS):
        yield f"Alone{number}", sequence(*(bytes.fromhex(row[3]) for row in group))
        for i, row in enumerate(group):
            yield f"Choice{number}", after(i, row)


HEAD = """//! Values of each type, read and written back.

use der_elem::{Encode, FromDer};
use std::alloc::Global;
use std::process::Abort;
use std::test::Fail;

fn holds(rt: &impl Abort, condition: bool) {
    assert!(rt; condition);
}

// Whether the octets are read, and are written again.
fn again<'a, T: FromDer<'a> + Encode>(alloc: Global, octets: &'a [u8]) -> bool {
    match T::from_der(alloc, octets) {
        Ok(value) => match value.to_der(alloc) {
            Ok(written) => written.as_slice() == octets,
            Err(_) => false,
        },
        Err(_) => false,
    }
}
"""


def tests():
    """The file of tests: one a type."""
    by_type = {}
    for name, octets in values():
        by_type.setdefault(name, []).append(octets.hex())
    found = [HEAD, f"use leaves::leaves::{{{', '.join(sorted(by_type))}}};\n"]
    for name, rows in by_type.items():
        snake = name.lower()
        listed = ", ".join(f'"{row}"' for row in rows)
        found.append(
            f"fn {snake}_again(alloc: Global, octets: &[u8]) -> bool {{ again::<{name}>(alloc, octets) }}\n\n"
            f"#[test]\nfn {snake}_is_read_and_written(rt: HostRuntime) -> Result<(), Fail> {{\n"
            f"    let alloc = rt.alloc();\n    let rows = [{listed}];\n    for digits in rows {{\n"
            f"        let octets = hex::decode(alloc, digits)?;\n"
            f"        holds(&rt, {snake}_again(alloc, octets.as_slice()));\n    }}\n    Ok(())\n}}\n"
        )
    return "\n".join([*found, refusals()])


def refusals():
    """The test of encodings that are refused."""
    lines = "".join(
        f'    let octets = hex::decode(alloc, "{digits}")?;\n    holds(&rt, !{name.lower()}_again(alloc, octets.as_slice()));\n'
        for name, digits in REFUSED
    )
    return f"#[test]\nfn some_are_refused(rt: HostRuntime) -> Result<(), Fail> {{\n    let alloc = rt.alloc();\n{lines}    Ok(())\n}}\n"


def library():
    """The lines of crates.txt of what a written crate stands on."""
    with open(f"{ROOT}/crates.txt", encoding="utf-8") as it:
        lines = dict(line.rstrip("\n").split(":", 1) for line in it if ":" in line)
    wanted, found = ["der_ascii", "der_bits", "der_constrained", "der_lists", "der_modules", "der_text", "der_time"], {}
    while wanted:
        name = wanted.pop()
        if name in lines and name not in found:
            found[name] = lines[name]
            wanted += lines[name].split()
    return found


def put(path, text):
    os.makedirs(os.path.dirname(path), exist_ok=True)
    with open(path, "w", encoding="utf-8") as it:
        it.write(text)


def write_repository(folder):
    """A repository with the library, the crate that tools/asn1 writes, and its tests."""
    lines = library()
    for name in lines:
        shutil.copytree(f"{ROOT}/crates/{name}", f"{folder}/crates/{name}", ignore=shutil.ignore_patterns("out", "must-fail"))
    shutil.copy(f"{ROOT}/HANDLES", folder)
    mine = {"leaves": " " + " ".join(lines), "leaves_tests": " der_elem hex leaves"}
    put(f"{folder}/crates.txt", "".join(f"{name}:{text}\n" for name, text in {**lines, **mine}.items()))
    put(f"{folder}/asn1/leaves.asn1", module())
    put(f"{folder}/asn1/modules.txt", "leaves: leaves=leaves.asn1\n")
    root = "//! Tests of the types of leaves.\n#![tactic(auto)]\n\n#[cfg(test)]\nmod tests;\n"
    put(f"{folder}/crates/leaves_tests/src/lib.rt", root)
    put(f"{folder}/crates/leaves_tests/src/tests.rt", tests())


def main():
    lacking = {Whole.BOOLEAN, Whole.MACHINE_INTEGER, *WHOLES} - {row[0] for row in ROWS}
    for whole in lacking:
        print(f"FAILED: leaves: no row has {whole}")
    with tempfile.TemporaryDirectory(prefix="der-leaves-") as folder:
        write_repository(folder)
        ran = subprocess.run([sys.executable, f"{ROOT}/tools/asn1", f"{folder}/asn1/modules.txt"], text=True, check=False)
        if ran.returncode:
            print("0 passed, 1 failed")
            return 1
        tried = subprocess.run(
            ["rt", "try", "--test"], cwd=f"{folder}/crates/leaves_tests", stdin=subprocess.DEVNULL,
            stdout=subprocess.PIPE, stderr=subprocess.STDOUT, text=True, errors="replace", check=False,
        )
    wanted = len({name for name, _ in values()}) + 1
    passed = len(re.findall(r"^test \S+ \.\.\. ok$", tried.stdout, re.M))
    failed = len(lacking) + max(wanted - passed, 0 if tried.returncode == 0 else 1)
    if failed:
        print("\n".join(line[:300] for line in tried.stdout.splitlines()[-40:]))
    print(f"{passed} passed, {failed} failed")
    return 1 if failed else 0


if __name__ == "__main__":
    sys.exit(main())
