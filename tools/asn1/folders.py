"""The folders of crates: what is written there, removed, or compared with what would be."""

from __future__ import annotations

import sys
from pathlib import Path

from .writer.crate import MARK

ROOTS = ("src/lib.rt", "specs/Lib.antt")
KINDS = ("src/**/*.rt", "specs/**/*.antt", "proofs/**/*.antt")


def is_ours(path: Path) -> bool:
    """Whether a file was written by this program."""
    return path.exists() and any(MARK in line for line in path.read_text(encoding="utf-8").split("\n")[:4])


def text_of(path: Path) -> str | None:
    return path.read_text(encoding="utf-8") if path.exists() else None


def stale(root: Path, written: dict[str, str]) -> list[str]:
    """Files that this program wrote, and would write no more."""
    crates = sorted({name.split("/")[0] for name in written})
    paths = [path for crate in crates for kind in KINDS for path in (root / crate).glob(kind) if is_ours(path)]
    return sorted(name for path in paths if (name := str(path.relative_to(root))) not in written)


def by_hand(root: Path, name: str) -> bool:
    """Whether a root of the crate is there and not ours: then it stays."""
    return name.split("/", 1)[1] in ROOTS and (root / name).exists() and not is_ours(root / name)


def put(root: Path, written: dict[str, str]) -> int:
    """Writes the files, and removes those that are no more written; says of each what became of it."""
    changes: dict[str, str] = {}
    for name, text in written.items():
        path = root / name
        before = text_of(path)
        if by_hand(root, name) or before == text:
            continue
        path.parent.mkdir(parents=True, exist_ok=True)
        path.write_text(text, encoding="utf-8")
        changes[name] = "new" if before is None else "changed"
    for name in stale(root, written):
        (root / name).unlink()
        changes[name] = "removed"
    tell(changes)
    print(f"{len(written)} files, {sum(text.count(chr(10)) for text in written.values())} lines")
    return 0


def tell(changes: dict[str, str]) -> None:
    """Says which crates have changed, and which of their files."""
    for crate in sorted({name.split("/")[0] for name in changes}):
        mine = {name.split("/", 1)[1]: what for name, what in changes.items() if name.startswith(f"{crate}/")}
        counts = [f"{count} {what}" for what in ("new", "changed", "removed") if (count := list(mine.values()).count(what))]
        print(f"{crate}: {', '.join(counts)}")
        for name, what in sorted(mine.items()):
            print(f"    {what:7}  {name}")


def check(root: Path, written: dict[str, str]) -> int:
    """Says which files are not as they would be written."""
    differ = [
        name
        for name, text in written.items()
        if not by_hand(root, name) and text_of(root / name) != text
    ]
    old = stale(root, written)
    for name in differ:
        print(f"crates/{name} is not what tools/asn1 writes", file=sys.stderr)
    for name in old:
        print(f"crates/{name} is no more written by tools/asn1", file=sys.stderr)
    print(f"{len(written)} files are compared, {len(differ) + len(old)} differ")
    return 1 if differ or old else 0
