"""The command: reads modules, and writes the crates of a list, or compares them."""

from __future__ import annotations

import argparse
import sys
from pathlib import Path

from .crates import entries_of, lists_of, parts_of, places_of
from .errors import AsnError
from .files import read
from .folders import check, put
from .layout import LayoutError, laid_out
from .resolver import resolve
from .standing import lines_to_write
from .writer.crate import files_of_crate, marked
from .writer.field_lists import write_field_lists
from .writer.holders import hold_tagged
from .writer.parts import write_parts
from .writer.places import write_places
from .writer.plan import Plan, Target
from .writer.splitting import split_choices

MOST_CALLS = 10_000  # within one another: types that stand deep within others are read and written so
LIST = "asn1/modules.txt"


def main(arguments: list[str]) -> int:
    """0 where all is written, or is as it would be written."""
    sys.setrecursionlimit(max(sys.getrecursionlimit(), MOST_CALLS))
    options = options_of(arguments)
    try:
        written = write_all(Path(options.list), options.remarks)
    except (AsnError, LayoutError) as error:
        print(error, file=sys.stderr)
        return 1
    except OSError as error:
        print(f"{error.filename}: {error.strerror}", file=sys.stderr)
        return 1
    top = Path(options.list).resolve().parent.parent
    status = check(top / "crates", written) if options.check else put(top / "crates", written)
    for note in lines_to_write(top / "crates.txt", written):
        print(note)
    return status


def options_of(arguments: list[str]) -> argparse.Namespace:
    parser = argparse.ArgumentParser(prog="asn1", description="Modules of ASN.1 (X.680) to crates of Rattle.")
    parser.add_argument("list", nargs="?", default=LIST, help=f"what is written where; {LIST} if left out")
    parser.add_argument("--check", action="store_true", help="writes nothing: compares what is there")
    parser.add_argument("--remarks", action="store_true", help="says what is not checked of the modules, too")
    return parser.parse_args(arguments)


def write_all(path: Path, with_remarks: bool) -> dict[str, str]:
    """The text of each file, by its path in crates/."""
    modules, entries = read(entries_of(path))
    resolved, remarks = resolve(modules)
    given = {str(entry.file) for entry in entries if entry.is_given}
    for remark in remarks if with_remarks else ():
        if remark.place.file not in given:
            print(remark, file=sys.stderr)
    split_choices(resolved)
    hold_tagged(resolved)
    targets = {module.name: Target(entry.crate, entry.module) for module, entry in zip(resolved, entries)}
    plan = Plan(targets)
    found: dict[str, str] = {}
    for crate in dict.fromkeys(entry.crate for entry in entries if not entry.is_given):
        mine = [module for module, entry in zip(resolved, entries) if entry.crate == crate and entry.module]
        for name, text in files_of_crate(plan, mine).items():
            found[f"{crate}/{name}"] = text
    for crate, others in places_of(path).items():
        for module, entry in zip(resolved, entries):
            if entry.crate in others and entry.module:
                for name, text in write_places(plan, crate, [module]).items():
                    found[f"{crate}/{name}"] = marked(name, text, module.file)
    for crate, others in parts_of(path).items():
        theirs = [module for module, entry in zip(resolved, entries) if entry.crate in others and entry.module]
        for name, text in write_parts(plan, theirs).items():
            found[f"{crate}/{name}"] = text
    for crate in lists_of(path):
        found |= {f"{crate}/{name}": text for name, text in write_field_lists().items()}
    return laid_out(found)


