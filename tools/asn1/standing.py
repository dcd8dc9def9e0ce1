"""What a crate that is written stands on, and what its line in `crates.txt` lacks."""

from __future__ import annotations

import re
from pathlib import Path

IMPORT = re.compile(r"^(?:ghost )?use (?:Rattle\.)?([a-z][a-z0-9_]*)(?:::|\.)", re.M)
OF_RATTLE = frozenset(["crate", "self", "std", "super"])


def stands_on(crate: str, written: dict[str, str]) -> list[str]:
    """The crates from which the files of a crate import."""
    texts = [text for name, text in written.items() if name.startswith(f"{crate}/")]
    return sorted({found for text in texts for found in IMPORT.findall(text)} - OF_RATTLE - {crate})


def lines_of(path: Path) -> dict[str, list[str]]:
    """The crates of a `crates.txt`, each with what its line says that it stands on."""
    text = path.read_text(encoding="utf-8") if path.exists() else ""
    lines = [line.split("#")[0].split(":", 1) for line in text.split("\n") if ":" in line.split("#")[0]]
    return {head.split()[0]: names.split() for head, names in lines if head.split()}


def lines_to_write(path: Path, written: dict[str, str]) -> list[str]:
    """What has to be added to `crates.txt` for the crates that are written."""
    lines = lines_of(path)
    wanted = {crate: stands_on(crate, written) for crate in sorted({name.split("/")[0] for name in written})}
    found = [lack for crate, names in wanted.items() if (lack := lack_of(crate, names, lines))]
    absent = {name for names in wanted.values() for name in names if lines and name not in lines}
    if absent:
        names = " ".join(sorted(absent))
        found.append(f"crates.txt has no line of {names}: 'tools/vendor FOLDER {names}' copies {'it' if len(absent) == 1 else 'them'}")
    return found


def lack_of(crate: str, wanted: list[str], lines: dict[str, list[str]]) -> str | None:
    """What the line of a crate lacks, or the line where there is none."""
    if crate not in lines:
        return f"crates.txt has no line of {crate}; it is '{crate}: {' '.join(wanted)}'"
    lacking = [name for name in wanted if name not in lines[crate]]
    return f"crates.txt: the line of {crate} lacks {' '.join(lacking)}" if lacking else None
