"""The checks that tests/edits.py asks of the prover: of a crate with other texts in place of its own, over the libraries that
are built."""
import os
import re
import shutil
import subprocess
import tempfile
import threading
import time

from .kept_edits import built_of_sources, octets_of, sum_of, sum_of_sources

STATUS = re.compile(r"^fn (\S+): (.*)$", re.M)
# What antt says of a text that it cannot read, where an edit has to read well.
UNREAD = re.compile(r"is not in scope|has no field|is no name|operand is missing|expected the end|cannot continue")
# What a check says of a function's name that it does not know, or knows twice.
NO_NAME = re.compile(r"has no function `([^`]*)`")
TWO_NAMES = re.compile(r"several functions are named `([^`]*)`: help: write one of (.*)")
# What a proof file says where the edit took away a name that it cites.
NAMES = re.compile(r"(has no field|is not in scope|has no `|was not admitted)")


def kit_of_rt():
    """The folder of the kit that the command 'rt' is of."""
    return os.path.dirname(subprocess.run(["rt", "doc"], capture_output=True, text=True, check=True).stdout.strip())


def crates_of(top, sources, builds):
    """The crates of the repository at `top` by their names, each with its sources in the folder of its name in `sources`."""
    lines = [it.partition("#")[0].strip() for it in open(f"{top}/crates.txt", encoding="utf-8")]
    uses, crates = {it.split(":")[0].split()[0]: it.split(":")[1].split() for it in lines if it}, {}
    while len(crates) < len(uses):
        for name in (it for it in uses if it not in crates):
            if all(it in crates for it in uses[name] if it in uses):
                crates[name] = Crate(name, uses[name], crates, f"{sources}/{name}", builds)
    return crates


class Crate:
    """A crate of the repository: its line of crates.txt, where its sources stand, and where its library is built."""

    def __init__(self, name, uses, crates, folder, builds):
        self.name, self.uses, self.folder, self.builds, self.kit = name, uses, folder, builds, builds.kit
        self.built = f"{builds.tree}/crates/{name}"
        self.deps = [crates[it] for it in uses if it in crates]
        self.of_kit = ["std", *(it for it in uses if it not in crates and it != "std")]
        self.root = "src/main.rt" if os.path.isfile(f"{self.folder}/src/main.rt") else "src/lib.rt"
        # by the names of functions as edits have them, those by which a check knows them
        self.known_as = {}

    def below(self):
        found = []
        for dep in self.deps:
            found += [it for it in [*dep.below(), dep] if it not in found]
        return found

    def rlib(self):
        return f"{self.built}/out/rlib/{self.name}.rlib"

    def sum(self):
        """A sum of all that a check of it reads but the kit: its sources, and those that the libraries below are built of."""
        below = [(it.name, it.uses, sum_of_sources(it.built)) for it in self.below()]
        libraries = sorted({name for it in [self, *self.below()] for name in it.of_kit})
        formats = [(it, octets_of(f"{self.kit}/rlibs/{it}.rlib/format")) for it in libraries]
        return sum_of(self.name, self.uses, sum_of_sources(self.folder), below, formats)

    def mark(self):
        """What tells whether a library below was built anew meanwhile."""
        found = [os.stat(f"{it.rlib()}/format") for it in self.below()]
        return [(it.st_ino, it.st_size, it.st_mtime_ns) for it in found]

    def size(self):
        return sum(len(octets_of(f"{at}/{it}")) for at, _, files in os.walk(self.folder) for it in files)

    def command(self, kept, only):
        kit = self.kit
        words = [f"{kit}/bin/rattle", "check", "--crate-name", self.name, self.root]
        for name in self.of_kit:
            words += ["--extern", f"{name}={kit}/rlibs/{name}.rlib"]
        words += ["-L", f"dependency={kit}/rlibs"]
        for dep in self.deps:
            words += ["--extern", f"{dep.name}={dep.rlib()}"]
        for dep in self.below():
            words += ["-L", f"dependency={os.path.dirname(dep.rlib())}"]
        words += ["--antt-project", f"{kit}/rattle/logic/antt-project.json", "--logic-built", f"{kit}/logic_built"]
        words += ["--jobs", str(self.builds.share()), "--incremental", kept]
        for path in only:
            words += ["--only", path]
        return words

    def check(self, texts, kept, names):
        """What a check says of the functions or modules of these names, or of the whole crate where there are none, in a copy
        with these texts in place of its own."""
        seconds = 0
        while True:
            answer = self.run(texts, kept, sorted(set().union(*(self.known_as.get(it, {it}) for it in names))))
            answer.seconds = seconds = seconds + answer.seconds
            no_name, two_names = NO_NAME.search(answer.text), TWO_NAMES.search(answer.text)
            told = (no_name or two_names)[1] if no_name or two_names else None
            of = next((it for it in names if told in self.known_as.get(it, {it})), None)
            if of is None:
                return answer
            others = set(re.findall(r"`([^`]*)`", two_names[2])) if two_names else {told.rpartition("::")[0]}
            self.known_as[of] = self.known_as.get(of, {of}) - {told} | others

    def run(self, texts, kept, only):
        """What a check says, and its status."""
        with tempfile.TemporaryDirectory(prefix="edit-") as room:
            shutil.copytree(self.folder, room, dirs_exist_ok=True)
            for path, text in texts.items():
                with open(f"{room}/{path}", "w", encoding="utf-8") as file:
                    file.write(text)
            words = self.command(kept, only) if self.builds.ended() else ["nice", "-n", "19", *self.command(kept, only)]
            return Answer(*ran(words, room))


def ran(words, folder):
    """What a command says, its status, and the processor seconds that it took."""
    with tempfile.TemporaryFile() as said:
        how = {"stdin": subprocess.DEVNULL, "stdout": said, "stderr": subprocess.STDOUT}
        with subprocess.Popen(words, cwd=folder, **how) as process:
            _, status, used = os.wait4(process.pid, 0)
            process.returncode = os.waitstatus_to_exitcode(status)
        said.seek(0)
        return said.read().decode(errors="replace"), process.returncode, used.ru_utime + used.ru_stime


class Builds:
    """Where the libraries are built: a tree, and what 'rt ci' has said so far where it is still at work in it."""

    PROVED = re.compile(r"^rt: (\w+) (?:proved$|is kept: )", re.M)
    # (a line of tests/all)
    END = re.compile(r"^rt ci took \d+ seconds$", re.M)

    def __init__(self, kit, tree, log):
        self.kit, self.tree, self.log = kit, tree, log
        # how many processors there are, and how many crates are to come
        self.lanes = self.to_come = 1
        if log:
            threading.Thread(target=self.give_priority_back, daemon=True).start()

    def text(self):
        with open(self.log, encoding="utf-8", errors="replace") as file:
            return file.read()

    def ended(self):
        return not self.log or bool(self.END.search(self.text()))

    def has(self, crate):
        """Whether all libraries below a crate are built."""
        if not self.log:
            return all(os.path.isdir(it.rlib()) for it in crate.below())
        proved = set(self.PROVED.findall(self.text()))
        return all(it.name in proved for it in crate.below())

    def share(self):
        """How many processors a check may use: the last crates have those that no other crate waits for."""
        return max(1, self.lanes // max(1, self.to_come)) if self.ended() else 1

    def are_of_sources(self, crate):
        """Whether the libraries below a crate are known to be built of the sources that stand in the tree."""
        return bool(self.log) or {it.name for it in crate.below()} <= built_of_sources(self.kit, self.tree)

    def give_priority_back(self):
        """Gives the checks that were begun beside 'rt ci' the priority of this process once it has ended."""
        while not self.ended():
            time.sleep(1)
        # (a check that was begun in the same moment has set its own by then)
        time.sleep(2)
        try:
            os.setpriority(os.PRIO_PGRP, 0, os.getpriority(os.PRIO_PROCESS, 0))
        except OSError:
            # (only root may)
            pass


class Answer:
    """What a check has said: of each function, whether its own proof fails, and of the texts whether they are read."""

    def __init__(self, text, status, seconds):
        self.text, self.status, self.seconds = text, status, seconds
        lines = text.rstrip("\n").split("\n")
        self.judged = status in (0, 1) and lines[-1].startswith(("only=", "logic="))
        self.said = dict(STATUS.findall(text))

    def proves(self):
        return self.judged and self.status == 0

    def fails(self, path):
        said = self.said.get(path, "")
        return said == "not proved" or said.startswith("no proof: expected answers")

    def uncovered(self, path):
        return "the borrow checker does not cover" in self.said.get(path, "")

    def wrong_files(self):
        return re.findall(r"^(?:\./)?(src/\S+?):\d+:\d+: error", self.text, re.M)

    def unread(self):
        for line in self.text.split("\n"):
            at = re.match(r"(?:\./)?(?:src|specs)/\S+?:\d+:\d+: error: (?:(`[^`]*`): )?(.*)", line)
            if at and (not at[1] or UNREAD.search(re.sub(r"`[^`]*`", "", at[2]))):
                return line
        return None

    def only_names(self, path):
        """Whether all that is said of the function is that its proof file cites what is not there any more."""
        if self.said.get(path) != "not proved":
            return False
        *of, name = path.split("::")[1:]
        own = re.compile(rf"(\./)?proofs/{''.join(f'{it}/' for it in of)}\+?{name}/.*: error")
        told = [it for it in self.text.split("\n") if own.match(it)]
        return bool(told) and all(NAMES.search(it) for it in told)
