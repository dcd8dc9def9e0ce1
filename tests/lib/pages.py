"""Lists on pages that are to be those of the tree: the scripts of tests/README.md and who runs them, the crates of
docs/ARCHITECTURE.md, and on docs/TRUST.md the crates without mutants, the kit's libraries and the mutants that are refused by
little."""
import glob
import re
import subprocess

from . import ROOT, text_of
from .kept_edits import Record

WORD = re.compile(r"`([\w./-]+)`")
ROW = re.compile(r"^\| `([\w.]+)` \|.*\| ([^|]+) \|$", re.M)


def differing(what, listed, there):
    """What a list lacks, and what it has that is not there."""
    found = [f"{what} lacks {it}" for it in sorted(there - listed)]
    return found + [f"{what} has {it}, which is not there" for it in sorted(listed - there)]


def uses():
    """What each crate uses, by crates.txt."""
    lines = [it.partition("#")[0] for it in text_of("crates.txt").splitlines()]
    return {it.split(":")[0].split()[0]: set(it.split(":")[1].split()) for it in lines if ":" in it}


def scripts():
    """Each file and folder of tests/ and of tests/lib/ stands on its page, and a script is run by what the page says."""
    page = text_of("tests/README.md")
    tracked = subprocess.run(["git", "ls-files", "tests"], cwd=ROOT, capture_output=True, text=True, check=True).stdout.split()
    shared = {it.split("/")[2] for it in tracked if it.startswith("tests/lib/")}
    there = {it.split("/")[1] for it in tracked} | shared
    there -= {"README.md", "__init__.py"}
    listed = {it.strip("/") for it in WORD.findall(page)}
    found = [f"tests/README.md lacks {it}" for it in sorted(there - listed)]
    for name, by in ROW.findall(page):
        if name not in there:
            found.append(f"tests/README.md has {name}, which is not there")
        for script, words in (("all", ("all", "both")), ("quick", ("quick", "both"))):
            runs = bool(re.search(rf"tests/{re.escape(name)}\b", calls_of(text_of(f"tests/{script}"))))
            if name not in ("all", "quick") and runs != (by.strip("`") in words):
                found.append(f"tests/README.md: {name} is {'' if runs else 'not '}run by {script}")
    return found


def calls_of(script):
    """A script without its comments, and with the names of a loop over scripts of Python written out."""
    lines = [it for it in script.splitlines() if not it.lstrip().startswith("#")]
    loops = [f"tests/{name}.py" for it in lines if (loop := re.match(r"for script in ([a-z ]+);", it)) for name in loop[1].split()]
    return "\n".join(lines + loops)


def crates():
    """The table of docs/ARCHITECTURE.md has each crate, and no other."""
    table = text_of("docs/ARCHITECTURE.md").split("| Floor | Crate |", 1)[1].split("\n\n", 1)[0]
    listed = {name for row in table.splitlines()[2:] for name in WORD.findall(row.split("|")[2])}
    return differing("the table of docs/ARCHITECTURE.md", listed, set(uses()))


def trusted():
    """docs/TRUST.md has the crates without mutants, and the libraries of the kit."""
    page, known = text_of("docs/TRUST.md"), uses()
    table = page.split("These crates have none:", 1)[1].split("\n\n", 2)[1]
    listed = {name for row in table.splitlines()[2:] for name in WORD.findall(row.split("|")[1])}
    without = {it for it in known if not glob.glob(f"{ROOT}/crates/{it}/must-fail/*.edit")}
    found = differing("the crates without mutants on docs/TRUST.md", listed, without)
    row = re.search(r"^- The statements of the kit's libraries (.*)$", page, re.M)[1]
    of_kit = {"std"}.union(*known.values()) - set(known)
    return found + differing("the kit's libraries on docs/TRUST.md", set(WORD.findall(row)) - {"certview"}, of_kit)


def weakly_refused():
    """docs/TRUST.md names each mutant of the record that no goal refuses."""
    weak = {it.label for it in Record(f"{ROOT}/tests/refused-edits").refusals.values() if it.by != "goal"}
    return [f"docs/TRUST.md does not name {it}" for it in sorted(weak) if f"`{it}`" not in text_of("docs/TRUST.md")]


def wrong():
    return scripts() + crates() + trusted() + weakly_refused()
