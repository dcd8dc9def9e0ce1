"""An empty repository with this one's library, in which crates are written from modules and compiled with a program that reads
values of their types. Nothing is proved."""

from __future__ import annotations

import os
import re
import resource
import shutil
import subprocess
import sys
import tempfile
from dataclasses import dataclass
from functools import partial
from pathlib import Path
from threading import Lock

from ..model import Definition, Enumeration, ResolvedModule, is_within

ROOT = Path(__file__).resolve().parents[3]
# What the written crates and the program stand on, beside what these stand on.
LIBRARY = ("der_asn1_types", "der_constrained", "der_lists", "der_modules", "der_simple")
AT_ONCE = 25  # types that one function of the program knows
LACKS_LINE = re.compile(r"crates\.txt has no line of (\w+); it is '(.*)'")

MAIN = """//! Reads lines, each a type's name, a space and hex digits; says of each whether the octets are a value of the type, which is
//! written as these octets or as others, or why they are refused.
#![tactic(auto)]

mod answer;
{modules}
use std::io;

fn main(rt: HostRuntime) -> io::Result<()> {{
    for line in rt.lines(rt.alloc()) {{
        let text = answer::answer(rt.alloc(), line?.as_str())?;
        println!(rt; "{{text}}")?;
    }}
    Ok(())
}}
"""

ANSWER = """//! The answer to a line.

use der_asn1_types::{{Encode, Error, FromDer}};
use std::alloc::{{AllocError, Global}};

pub fn answer(alloc: Global, line: &str) -> Result<String, AllocError> {{
    let Some((crate_name, rest)) = line.split_once(' ') else {{
        return format!(in alloc; "no name");
    }};
    let Some((name, digits)) = rest.split_once(' ') else {{
        return format!(in alloc; "no digits");
    }};
    let Ok(octets) = hex::decode(alloc, digits) else {{
        return format!(in alloc; "no hex digits");
    }};
    match crate_name {{
{arms}
        _ => format!(in alloc; "no crate"),
    }}
}}

pub fn read<'a, T: FromDer<'a> + Encode>(alloc: Global, octets: &'a [u8]) -> Result<String, AllocError> {{
    match T::from_der(alloc, octets) {{
        Ok(value) => written(alloc, &value, octets),
        Err(error) => refused(alloc, error),
    }}
}}

fn written<T: Encode>(alloc: Global, value: &T, octets: &[u8]) -> Result<String, AllocError> {{
    match value.to_der(alloc) {{
        Ok(found) if found.as_slice() == octets => format!(in alloc; "same"),
        Ok(found) => format!(in alloc; "other {{}}", hex::encode(alloc, found.as_slice())?),
        Err(error) => format!(in alloc; "not written {{}}", error.kind().number()),
    }}
}}

fn refused(alloc: Global, error: Error) -> Result<String, AllocError> {{
    format!(in alloc; "refused {{}}", error.kind().number())
}}
"""


@dataclass(frozen=True)
class Crate:
    """A crate that is written from modules: its name, each file with the module's name there, and the types that are read."""

    name: str
    files: tuple[tuple[str, Path], ...]
    types: tuple[tuple[str, str], ...]  # a name for lines, and the type in Rattle


@dataclass
class Ran:
    """What a command has said, its status, and the processor's seconds that it took, with all that it started."""

    status: int
    said: str
    seconds: float


def run(words: list[str], folder: Path, seconds: int, text: str = "") -> Ran:
    """A command in a folder; each of its processes may take so many seconds of a processor."""
    with tempfile.TemporaryFile() as given, tempfile.TemporaryFile() as said:
        given.write(text.encode())
        given.seek(0)
        limit = partial(resource.setrlimit, resource.RLIMIT_CPU, (seconds, seconds + 5))
        started = subprocess.Popen(words, cwd=folder, stdin=given, stdout=said, stderr=subprocess.STDOUT, preexec_fn=limit)
        _, status, used = os.wait4(started.pid, 0)
        started.returncode = os.waitstatus_to_exitcode(status)
        said.seek(0)
        return Ran(started.returncode, said.read().decode(errors="replace"), used.ru_utime + used.ru_stime)


def library() -> dict[str, str]:
    """The lines of crates.txt of the library."""
    text = (ROOT / "crates.txt").read_text(encoding="utf-8")
    lines = dict(line.split(":", 1) for line in text.split("\n") if ":" in line)
    wanted, found = list(LIBRARY), {}
    while wanted:
        name = wanted.pop()
        if name in lines and name not in found:
            found[name] = lines[name]
            wanted += lines[name].split()
    return found


def types_of(module: ResolvedModule, name: str) -> tuple[tuple[str, str], ...]:
    """The types of a module that octets are read as, by their names: those that have a name in the module or within it."""
    found = [one for one in module.definitions if not is_within(one)]
    return tuple((one.rust, rust_of(one, f"{name}::{one.rust}")) for one in found)


def rust_of(definition: Definition, path: str) -> str:
    """The type that octets are read as: of an ENUMERATED the library's, which holds its names."""
    return f"der_numbers::Enumerated<{path}>" if isinstance(definition, Enumeration) else path


class Repository:
    """A repository in a folder. Several threads may write its crates and its programs."""

    def __init__(self, folder: Path) -> None:
        self.folder = folder
        self.lock = Lock()
        self.lines = library()
        for name in self.lines:
            leave_out = shutil.ignore_patterns("out", "must-fail", "proofs")
            shutil.copytree(ROOT / "crates" / name, folder / "crates" / name, ignore=leave_out)
        shutil.copy(ROOT / "HANDLES", folder)
        (folder / "asn1").mkdir()
        self.add_line("", "")

    def add_line(self, name: str, rest: str) -> None:
        """Writes crates.txt with a line more; another thread's command reads the old file or the new one."""
        with self.lock:
            self.lines |= {name: rest} if name else {}
            text = "".join(f"{name}:{rest}\n" for name, rest in self.lines.items())
            (self.folder / "crates.new").write_text(text, encoding="utf-8")
            (self.folder / "crates.new").replace(self.folder / "crates.txt")

    def write_crate(self, crate: Crate, seconds: int) -> Ran:
        """Writes a crate by tools/asn1, and its line by what that says."""
        listed = " ".join(f"{name}={path}" if name else str(path) for name, path in crate.files)
        path = self.folder / "asn1" / f"{crate.name}.txt"
        path.write_text(f"{crate.name}: {listed}\n", encoding="utf-8")
        ran = run([sys.executable, str(ROOT / "tools/asn1"), str(path)], self.folder, seconds)
        for name, line in LACKS_LINE.findall(ran.said):
            self.add_line(name, line.split(":", 1)[1])
        return ran

    def write_program(self, name: str, crates: list[Crate]) -> Path:
        """Writes a program that reads the types of some crates, and gives its folder."""
        folder = self.folder / "crates" / name
        shutil.rmtree(folder, ignore_errors=True)
        (folder / "src").mkdir(parents=True)
        (folder / "specs").mkdir()
        (folder / "specs/Lib.antt").write_text("")
        parts = [(f"of_{crate.name}", crate) for crate in crates]
        modules = "".join(f"mod {part};\n" for part, _ in parts)
        arms = "\n".join(f'        "{crate.name}" => crate::{part}::answer(alloc, name, octets.as_slice()),' for part, crate in parts)
        texts = {"main": MAIN.format(modules=modules), "answer": ANSWER.format(arms=arms)}
        texts |= {part: names_of(crate) for part, crate in parts}
        for file, text in texts.items():
            (folder / f"src/{file}.rt").write_text(text, encoding="utf-8")
        self.add_line(name, " " + " ".join(["der_asn1_types", "der_numbers", "hex", *(crate.name for crate in crates)]))
        return folder


def names_of(crate: Crate) -> str:
    """The file of the program that reads the types of a crate by their names."""
    groups = [crate.types[at : at + AT_ONCE] for at in range(0, len(crate.types), AT_ONCE)] or [()]
    found = [f"//! The types of {crate.name}.\n\nuse crate::answer::read;\nuse std::alloc::{{AllocError, Global}};\n"]
    for number, group in enumerate(groups):
        head = "pub fn answer" if number == 0 else f"fn answer_{number}"
        arms = "".join(f'        "{name}" => read::<{type_}>(alloc, octets),\n' for name, type_ in group)
        is_last = number + 1 == len(groups)
        rest = 'format!(in alloc; "no type")' if is_last else f"answer_{number + 1}(alloc, name, octets)"
        found.append(
            f"{head}(alloc: Global, name: &str, octets: &[u8]) -> Result<String, AllocError> {{\n"
            f"    match name {{\n{arms}        _ => {rest},\n    }}\n}}\n"
        )
    return "\n".join(found)
