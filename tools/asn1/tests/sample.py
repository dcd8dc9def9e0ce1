#!/usr/bin/env python3
"""Draws modules by lot out of those in some folders that the compiler takes whole, with the modules that they import from; writes a
crate for each in an empty repository with this one's library, and compiles them by 'rt try' with a program that reads octets as each
of their types. Nothing is proved.

    python3 tools/asn1/tests/sample.py FOLDER.. [--count 60] [--most N] [--seed N] [--group 80000] [--seconds 600] [--jobs 2] [--keep EMPTY]

With --most, modules that assign more types than that, with those that they import from, are passed over and counted. A line a module
says how many types it has and how many lines the crate, the processor's seconds of writing it, and what failed. Small crates are
built together, so many as have --group lines. Each process of a build may take so many seconds of a processor, and one more for each
hundred lines beyond the group, as its line says. Where a build fails, the crates that its errors name have failed, and the others are
built again. The last line counts, and has the seed. --keep names an empty folder in which all is written, and stays.
"""

from __future__ import annotations

import argparse
import random
import re
import sys
import tempfile
from concurrent.futures import ThreadPoolExecutor
from dataclasses import dataclass
from itertools import islice
from pathlib import Path

sys.path.insert(0, str(Path(__file__).resolve().parents[2]))

from asn1.command import MOST_CALLS  # noqa: E402
from asn1.tests.lots import Drawn, Lot, line_count  # noqa: E402
from asn1.tests.trial import Ran, Repository, run  # noqa: E402

OCTETS = ("", "0500", "3000", "3100", "020101", "3003020101")
SECONDS_TO_WRITE = 600  # that the compiler may take for a crate
LINES_A_SECOND = 100  # of a crate with more lines than a group has


@dataclass
class Told:
    """What became of a module."""

    drawn: Drawn
    lines: int = 0
    seconds: float = 0.0
    failed: str = ""

    @property
    def name(self) -> str:
        return self.drawn.crate.name

    def line(self) -> str:
        one, files = self.drawn, f" of {self.drawn.files} files" if self.drawn.files > 1 else ""
        where = f"{one.ticket.path.parent.name}/{one.ticket.path.name}"
        result = f"FAILED: {self.failed}" if self.failed else "compiled"
        counts = f"{one.types} types, {self.lines} lines{files}, written in {self.seconds:.1f} s"
        return f"{self.name} {one.ticket.name} ({where}): {counts}: {result}"


def write(repository: Repository, drawn: Drawn) -> Told:
    """Writes the crate of a module."""
    ran = repository.write_crate(drawn.crate, SECONDS_TO_WRITE)
    told = Told(drawn, seconds=ran.seconds)
    if ran.status:
        lines = ran.said.strip().splitlines() or [f"status {ran.status}"]
        told.failed = f"writing: {next((it for it in lines if 'error' in it), lines[-1])[:300]}"
    else:
        told.lines = line_count(repository.folder / "crates" / told.name)
    return told


def groups_of(told: list[Told], size: int) -> list[list[Told]]:
    """Modules that are built together: so many that they have some number of lines, and one at least; the smallest first."""
    found: list[list[Told]] = []
    for one in sorted(told, key=lambda one: one.lines):
        if found and sum(it.lines for it in found[-1]) + one.lines <= size:
            found[-1].append(one)
        else:
            found.append([one])
    return found


def build(repository: Repository, group: list[Told], options: argparse.Namespace) -> None:
    """Compiles the crates of a group with their program; those that errors name have failed, and the others are built again."""
    left = list(group)
    while left:
        ran, asked = compiled(repository, left, options)
        if ran.status == 0:
            look_at_answers(left, asked, ran.said.splitlines())
            return
        named = set(re.findall(r"(?:crates/|\bof_)(s\d{4})\b", ran.said))
        at_fault = [one for one in left if one.name in named]
        if not at_fault and len(left) > 1:
            build(repository, left[: len(left) // 2], options)
            build(repository, left[len(left) // 2 :], options)
            return
        for one in at_fault or left:
            one.failed = "compiling: " + error_in(ran, one.name)
            print(one.line(), flush=True)
        left = [one for one in left if not one.failed]


def compiled(repository: Repository, group: list[Told], options: argparse.Namespace) -> tuple[Ran, list[str]]:
    """What becomes of a build, and the lines that its program was asked."""
    types, lines = sum(one.drawn.types for one in group), sum(one.lines for one in group)
    most = options.seconds + max(0, lines - options.group) // LINES_A_SECOND
    folder = repository.write_program(f"lines_of_{group[0].name}", [one.drawn.crate for one in group])
    asked = [f"{one.name} {name} {digits}" for one in group for name, _ in one.drawn.crate.types for digits in OCTETS]
    ran = run(["rt", "try"], folder, most, "".join(f"{line}\n" for line in asked))
    print(f"    {len(group)} crates with {types} types, {lines} lines: status {ran.status} after {ran.seconds:.0f} s, of {most} s", flush=True)
    return ran, asked


def error_in(ran: Ran, name: str) -> str:
    """The first line of an error that names a crate, or the last line."""
    lines = ran.said.strip().splitlines() or [f"status {ran.status}"]
    return next((it for it in lines if re.search(rf"(crates/|of_){name}\b", it)), lines[-1])[:300]


def look_at_answers(group: list[Told], asked: list[str], answers: list[str]) -> None:
    """Each line has an answer, and a value that was read is written as the octets that it was read from."""
    by_name = {one.name: one for one in group}
    answers += ["no answer"] * (len(asked) - len(answers))
    for question, answer in zip(asked, answers):
        if not re.fullmatch(r"same|refused \d+", answer.strip()):
            by_name[question.split()[0]].failed = f"'{question}' is answered with '{answer.strip()[:100]}'"


def options_of(arguments: list[str]) -> argparse.Namespace:
    parser = argparse.ArgumentParser(description="A sample of the modules in some folders, compiled.")
    parser.add_argument("folders", nargs="+", type=Path)
    parser.add_argument("--count", type=int, default=60)
    parser.add_argument("--most", type=int, help="types that a module may assign, with those that it imports from")
    parser.add_argument("--seed", type=int, default=random.SystemRandom().randrange(1_000_000))
    parser.add_argument("--group", type=int, default=80_000, help="lines that are built together")
    parser.add_argument("--seconds", type=int, default=600, help="of a processor, that each process of a build may take")
    parser.add_argument("--jobs", type=int, default=2, help="crates that are written, or groups that are built, at a time")
    parser.add_argument("--keep", type=Path, help="an empty folder in which all is written, and stays")
    return parser.parse_args(arguments)


def sample(folder: Path, options: argparse.Namespace) -> list[Told]:
    """What becomes of the modules that are drawn."""
    lot = Lot([it.resolve() for it in options.folders], options.most)
    print(f"{len(lot.tickets())} modules, seed {options.seed}", flush=True)
    repository = Repository(folder)
    with ThreadPoolExecutor(options.jobs) as pool:
        writing = [pool.submit(write, repository, drawn) for drawn in islice(lot.drawn(options.seed), options.count)]
        told = [one.result() for one in writing]
        others = f"{lot.refused} that were drawn are not taken whole, and {lot.passed_over} assign more types"
        print(f"{len(told)} modules are drawn and written; {others}", flush=True)
        groups = groups_of([one for one in told if not one.failed], options.group)
        building = [(pool.submit(build, repository, group, options), group) for group in groups]
        for built, group in building:
            built.result()
            print("\n".join(one.line() for one in group), flush=True)
    return told


def main(arguments: list[str]) -> int:
    sys.setrecursionlimit(max(sys.getrecursionlimit(), MOST_CALLS))
    options = options_of(arguments)
    with tempfile.TemporaryDirectory(prefix="der-sample-") as folder:
        told = sample(options.keep or Path(folder), options)
    failed = [one for one in told if one.failed]
    print("".join(f"{one.line()}\n" for one in failed), end="")
    print(f"{len(told) - len(failed)} compiled, {len(failed)} failed, seed {options.seed}")
    return 1 if failed or not told else 0


if __name__ == "__main__":
    sys.exit(main(sys.argv[1:]))
