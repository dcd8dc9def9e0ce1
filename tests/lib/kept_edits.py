"""What tests/edits.py has found out on this machine. What the prover has refused, it refuses again where nothing has changed
that the refusal stands on: the kit, the sources of the crate and of those below it but for their comments, the edit, and the
rules by which it is tried.

A refusal is a file of its own, named by the sum of all that, in a folder where 'rt' keeps its proofs, outside each checkout.
It is written apart and then renamed, so that two runs at once do no harm, and at once, so that a run which is cut off keeps
what it has tried. What was not refused is not kept.

The record, tests/refused-edits, has the refusals for other machines: a line for each edit that was refused where the record was
written. It is a part of the repository, so who changes a source writes it anew. Each line stands in the log of the run that
tried the edit, word for word."""
import contextlib
import fcntl
import hashlib
import importlib.machinery
import importlib.util
import json
import os
import re
import sys
import tempfile
from dataclasses import dataclass

# To be raised where tests/edits.py tries or judges edits in another way: what was kept by the old rules counts no more.
RULES = 2
# What a check of a crate reads.
PARTS = ("src", "specs", "proofs")
# How a line begins that is a comment, by the end of the file's name. No text of a crate goes on over lines that begin so.
COMMENTS = {".rt": b"//", ".antt": b"--"}
# What a refusal is by: a goal of the function that is not proved; names alone, which a proof file cites and the edit took away; or
# the borrow checker alone, which does not cover what the edit writes.
BY = ("goal", "names", "borrow")
LINE = re.compile(rf"([0-9a-f]{{64}}) (\w+/[\w-]+) (\d{{4}}-\d\d-\d\d) (\d+) (\S+) ({'|'.join(BY)})")
# A line of a run's log that says so of an edit.
TOLD = re.compile(rf"^refused \(\d+ of \d+\): ({LINE.pattern})$", re.M)


@dataclass(frozen=True)
class Refusal:
    """That an edit was refused: the sum of what this stands on, the edit's name, the day when it was tried, the processor seconds
    that it took, the function that is not proved, and what that is by."""

    sum: str
    label: str
    date: str
    seconds: int
    function: str
    by: str

    def line(self):
        return f"{self.sum} {self.label} {self.date} {self.seconds} {self.function} {self.by}"

    def is_as(self, other):
        """Whether another says the same of the same edit, whenever that was tried and however long that took."""
        return (self.label, self.function, self.by) == (other.label, other.function, other.by)


def refusal_of(line):
    """The refusal that a line tells, or none."""
    found = LINE.fullmatch(line)
    if not found:
        return None
    sum, label, date, seconds, function, by = found.groups()
    return Refusal(sum, label, date, int(seconds), function, by)


class Record:
    """The refusals of the record, by the names of their edits."""

    def __init__(self, file):
        self.file = file
        self.refusals = self.read()

    def read(self):
        if not os.path.isfile(self.file):
            return {}
        with open(self.file, encoding="utf-8") as lines:
            found = [refusal_of(it.rstrip("\n")) for it in lines]
        return {it.label: it for it in found if it}

    def refusal(self, label, sum):
        """The refusal of the edit of this name, if it stands on what this sum is of."""
        found = self.refusals.get(label)
        return found if found and found.sum == sum else None

    def seconds(self, label):
        """How long an edit took when it was last tried, whatever has changed since; none where it was not."""
        found = self.refusals.get(label)
        return found.seconds if found else None

    def put(self, refusals, gone=()):
        """Writes these refusals among the others, and none of the edits that are gone. Another run may write meanwhile."""
        with locked(os.path.dirname(self.file)):
            self.refusals = self.read()
            self.refusals.update((it.label, it) for it in refusals)
            kept = [it.line() + "\n" for label, it in sorted(self.refusals.items()) if label not in gone]
            with open(f"{self.file}.new", "w", encoding="utf-8") as file:
                file.writelines(kept)
            os.replace(f"{self.file}.new", self.file)

    def unlike(self, logs):
        """The lines that stand in none of these logs of runs."""
        told = {line for log in logs for line, *_ in TOLD.findall(log)}
        return [it for _, it in sorted(self.refusals.items()) if it.line() not in told]


@contextlib.contextmanager
def locked(folder):
    """Keeps other runs out of a folder."""
    at = os.open(folder, os.O_RDONLY)
    try:
        fcntl.flock(at, fcntl.LOCK_EX)
        yield
    finally:
        os.close(at)


class Kept:
    """The refusals of earlier runs on this machine."""

    def __init__(self, kit, anew=False):
        self.anew, self.at = anew, f"{os.path.dirname(kit)}/rattle-kept/der-edits"
        try:
            os.makedirs(self.at, 0o700, exist_ok=True)
            self.is_usable = os.stat(self.at).st_uid == os.geteuid() and os.access(self.at, os.W_OK)
        except OSError:
            self.is_usable = False

    def refusal(self, label, sum):
        """The refusal of the edit of this name, if it stands on what this sum is of; none where all are to be tried."""
        found = None if self.anew else refusal_of(str(self.read(sum).get("refused")))
        return found if found and (found.label, found.sum) == (label, sum) else None

    def keep(self, refusal):
        self.write(refusal.sum, {"refused": refusal.line()})

    def read(self, name):
        try:
            with open(f"{self.at}/{name}", encoding="utf-8") as file:
                found = json.load(file)
            return found if isinstance(found, dict) else {}
        except (OSError, ValueError):
            return {}

    def write(self, name, what):
        try:
            with tempfile.NamedTemporaryFile("w", prefix="new-", dir=self.at, delete=False, encoding="utf-8") as file:
                json.dump(what, file)
            os.replace(file.name, f"{self.at}/{name}")
        except OSError:
            self.is_usable = False


def sum_of(*what):
    return hashlib.sha256(repr(what).encode()).hexdigest()


def sum_of_kit(kit):
    """A sum of what tells one kit from another: its line, the page that lists what it has, and the prover's file."""
    texts = [octets_of(f"{kit}/{it}") for it in ("KIT-ID", "WHAT")]
    prover = os.stat(f"{kit}/bin/rattle")
    return sum_of(texts, prover.st_size, prover.st_mtime_ns)


def sum_of_sources(folder):
    """A sum of the files that a check of the crate in this folder reads, without their comments."""
    found = []
    for part in PARTS:
        for at, folders, files in os.walk(f"{folder}/{part}"):
            folders.sort()
            found += [(os.path.relpath(f"{at}/{it}", folder), code_of(f"{at}/{it}")) for it in sorted(files)]
    return sum_of(found)


def code_of(path):
    """The lines of a source, without those that are comments: no refusal stands on these."""
    comment = COMMENTS.get(os.path.splitext(path)[1])
    return [it for it in octets_of(path).split(b"\n") if comment is None or not it.lstrip().startswith(comment)]


def octets_of(path):
    with open(path, "rb") as file:
        return file.read()


def rtlib_of(kit):
    """The module of the kit that knows crates, with each crate's stamp read once."""
    loader = importlib.machinery.SourceFileLoader("rtlib", f"{kit}/bin/rtlib.py")
    sys.modules["rtlib"] = rtlib = importlib.util.module_from_spec(importlib.util.spec_from_loader("rtlib", loader))
    loader.exec_module(rtlib)
    made, seen = rtlib.Crate.stamp, {}

    def stamp(crate):
        if crate.folder not in seen:
            seen[crate.folder] = made(crate)
        return seen[crate.folder]

    rtlib.Crate.stamp = stamp
    return rtlib


def built_of_sources(kit, tree):
    """The names of the crates in a tree whose libraries 'rt check' has built of the sources that stand there now."""
    try:
        return {it.name for it in rtlib_of(kit).crates_below(tree) if not it.is_program and it.is_built()}
    except (Exception, SystemExit):
        # (a kit with other insides: then nothing is kept)
        return set()
