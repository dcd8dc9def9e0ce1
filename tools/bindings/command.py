"""The command: writes the parts of all files, or compares them; and compares the lists of the crates."""

from __future__ import annotations

import argparse
import sys
from collections.abc import Callable
from pathlib import Path

from . import regions
from .comparing import crates
from .errors import TableError
from .tables.checks import CALLS, Check, of_call
from .tables.rules import Rule
from .tables.steps import KINDS, Step, of_kind
from .tables.structs import Struct
from .tables.tables import Tables, tables_of
from .writers import checks, fields, inner, page, rules, steps, structs_in_c, structs_in_python, structs_in_rust
from .writers import writings_in_c, writings_in_go, writings_in_python, writings_in_rust

HEADER = "c/include/barleypulley/der.h"
SYS = "rust/der-proved-sys/src/lib.rs"
PYTHON = "python/src/derproved/__init__.py"
ROOT = Path(__file__).resolve().parent.parent.parent


def main(arguments: list[str]) -> int:
    """0 where all is written, or is as it would be written, and the crates are as the tables say."""
    parser = argparse.ArgumentParser(prog="bindings", description="Lists of rules, of steps and of structs, from the tables of asn1.")
    parser.add_argument("--check", action="store_true", help="writes nothing: compares what is there")
    parser.add_argument("--root", type=Path, default=ROOT, help="the folder of the repository")
    options = parser.parse_args(arguments)
    try:
        return run(options.root, options.check)
    except TableError as error:
        print(error, file=sys.stderr)
    except OSError as error:
        print(f"{error.filename}: {error.strerror}", file=sys.stderr)
    return 1


def run(root: Path, is_check: bool) -> int:
    """Writes or compares, and prints each difference."""
    tables = tables_of(root)
    written = parts(tables)
    wrong = regions.compare(root, written) if is_check else regions.put(root, written)
    wrong += crates.compare(root, tables)
    for difference in sorted(wrong):
        print(difference, file=sys.stderr)
    count = sum(len(of_file) for of_file in written.values())
    print(f"{tables}: {count} written parts of {len(written)} files, {len(wrong)} differences")
    return 1 if wrong else 0


def parts(tables: Tables) -> dict[str, dict[str, list[str]]]:
    """The lines of each written part, by its file and its name."""
    found = parts_of_lists(tables.rules, tables.structs)
    others = (parts_of_steps(tables.steps), parts_of_checks(tables.checks), parts_of_writings(tables.structs))
    for file, of_file in [it for other in others for it in other.items()]:
        found.setdefault(file, {}).update(of_file)
    for struct in tables.structs:
        if struct.is_inner:
            continue
        name = f"fields of {struct.type}"
        found.setdefault(f"rust/der-proved/src/{struct.file}.rs", {})[name] = fields.in_rust(struct)
        found.setdefault(f"go/der/{struct.file}.go", {})[name] = fields.in_go(struct)
        found[PYTHON][name] = fields.in_python(struct)
    return found


def parts_of_lists(found_rules: list[Rule], found_structs: list[Struct]) -> dict[str, dict[str, list[str]]]:
    """Those of all rules, and those of all structs."""
    return {
        HEADER: {
            "rules": rules.in_c(found_rules),
            "structs": structs_in_c.structs(found_structs),
            "calls": structs_in_c.calls(found_structs),
            "next calls": structs_in_c.next_calls(found_structs),
        },
        "c/checked.c": {
            "checked calls": structs_in_c.checked_calls(found_structs),
            "next calls": structs_in_c.checked_next_calls(found_structs),
        },
        "c/tests/calls.c": {
            "refusing calls": structs_in_c.refusing_calls(found_structs),
            "next calls": structs_in_c.leaving_calls(found_structs),
        },
        "c/tests/fuzz_inner.c": {
            "fuzzed calls": structs_in_c.fuzzed_calls(found_structs),
            "fuzzed lists": structs_in_c.fuzzed_lists(found_structs),
        },
        SYS: {
            "structs": structs_in_rust.structs(found_structs),
            "calls": structs_in_rust.calls(found_structs),
        },
        "rust/der-proved-sys/src/safe.rs": {"safe calls": structs_in_rust.safe_calls(found_structs)},
        "rust/der-proved/src/rules.rs": {"rules": rules.in_rust(found_rules)},
        "go/der/rules.go": {"rules": rules.in_go(found_rules)},
        PYTHON: {"rules": rules.in_python(found_rules)},
        "rust/der-proved/src/inner.rs": {"messages": inner.in_rust(found_structs)},
        "go/der/inner.go": {"messages": inner.in_go(found_structs)},
        "python/src/derproved/_inner.py": {"messages": inner.in_python(found_structs)},
        "python/src/derproved/_places.py": {"indices": structs_in_python.indices(found_structs)},
        "python/src/derproved/_der.pyi": {"classes": structs_in_python.classes(found_structs)},
        "python/src/derproved/classes.h": {"structs": structs_in_python.members(found_structs)},
        "python/src/derproved/message.c": {"kinds": structs_in_python.kinds(found_structs)},
        "crates/der_verify/README.md": {
            "rules of certificates": rules.on_page(found_rules, "certificate"),
            "rules of lists": rules.on_page(found_rules, "list"),
        },
        "docs/C.md": {"calls": page.calls(found_structs), "inner calls": page.inner_calls(found_structs)},
    }


def parts_of_steps(found: list[Step]) -> dict[str, dict[str, list[str]]]:
    """Those of the steps: the packages have the ones that refuse a certificate of a chain in a file of their own."""
    return {
        HEADER: by_kind(steps.in_c, found, *KINDS),
        "c/texts.c": by_kind(steps.texts_in_c, found, *KINDS),
        "rust/der-proved/src/path.rs": by_kind(steps.in_rust, found, "certificate"),
        "rust/der-proved/src/status.rs": by_kind(steps.in_rust, found, "list", "answer"),
        "go/der/path.go": by_kind(steps.in_go, found, "certificate"),
        "go/der/status.go": by_kind(steps.in_go, found, "list", "answer"),
        "python/src/derproved/_path.py": by_kind(steps.in_python, found, "certificate"),
        "python/src/derproved/_status.py": by_kind(steps.in_python, found, "list", "answer"),
    }


def parts_of_checks(found: list[Check]) -> dict[str, dict[str, list[str]]]:
    """Those of the structs that calls which check take and write."""
    return {
        HEADER: {f"structs of {call.replace('_', ' ')}": checks.in_c(of_call(found, call)) for call in CALLS},
        SYS: {"structs of checks": checks.in_rust(found)},
    }


def by_kind(write: Callable[[list[Step]], list[str]], found: list[Step], *kinds: str) -> dict[str, list[str]]:
    """A part for each of these kinds of steps."""
    return {f"steps of {kind}s": write(of_kind(found, kind)) for kind in kinds}


def parts_of_writings(found: list[Struct]) -> dict[str, dict[str, list[str]]]:
    """Those of the calls that write messages."""
    return {
        "c/checked.c": {"writing calls": writings_in_c.checked_calls(found)},
        SYS: {"writing calls": writings_in_rust.calls(found)},
        "rust/der-proved-sys/src/safe.rs": {"safe writing calls": writings_in_rust.safe_calls(found)},
        "rust/der-proved/src/fields.rs": {"messages": writings_in_rust.messages(found)},
        "go/der/fields.go": {"messages": writings_in_go.messages(found)},
        "python/src/derproved/_fields.py": {"messages": writings_in_python.messages(found)},
        "python/src/derproved/writing.c": {"writing calls": writings_in_python.calls(found)},
    }
