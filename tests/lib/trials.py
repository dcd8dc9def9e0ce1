"""What a script has tried, counted and said; and lines of a page that are run in a folder."""

import base64
import os
import re
import shutil
import subprocess

from . import ROOT


class Trials:
    """What was tried of something with a name."""

    def __init__(self, of):
        self.of = of
        self.passed = self.failed = 0

    def count(self, name, why):
        """Counts a trial, with what is wrong, or nothing; says so where something is."""
        self.passed, self.failed = self.passed + (not why), self.failed + bool(why)
        if why:
            print(f"FAILED: {self.of}: {name}{'' if why is True else f': {why}'}", flush=True)

    def tell(self, name, why):
        """The same, and says what is well, too."""
        self.count(name, why)
        if not why:
            print(f"{self.of}: {name}: well", flush=True)

    def holds(self, what, fact):
        """Counts a fact, and gives it."""
        self.count(what, not fact)
        return fact

    def run(self, name, words, **others):
        """Runs a command that must end with the status 0; gives what it printed."""
        ran = subprocess.run(words, text=True, stdout=subprocess.PIPE, stderr=subprocess.STDOUT, **others)
        self.tell(name, ran.returncode and f"status {ran.returncode}: {ran.stdout[-2000:]}")
        return ran.stdout

    def left_out(self, name, tool):
        print(f"{self.of}: {name}: left out, since {tool} is not there", flush=True)

    def can_build(self, what):
        """Whether there is what builds programs in C; says so where there is not."""
        found = shutil.which("cc") and shutil.which("make")
        if not found:
            self.left_out(what, "a C compiler or make")
        return bool(found)

    def end(self):
        """Prints the last line; gives the status."""
        print(f"{self.passed} passed, {self.failed} failed")
        return 1 if self.failed else 0


def walked(folder, lines):
    """Whether lines of a page succeed in a folder, and what they say. The variable DER names the repository."""
    ran = subprocess.run(
        ["bash", "-euo", "pipefail", "-c", lines], cwd=folder, env={**os.environ, "DER": ROOT}, stdin=subprocess.DEVNULL,
        stdout=subprocess.PIPE, stderr=subprocess.STDOUT, text=True, errors="replace",
    )
    if ran.returncode:
        print(ran.stdout[-2000:])
    return not ran.returncode, ran.stdout


def pem_blocks(text, label):
    """The octets of the blocks of a PEM text with this label."""
    blocks = re.findall(f"-----BEGIN {label}-----\n(.*?)-----END {label}-----", text, re.S)
    return [base64.b64decode(block) for block in blocks]


def write_files(text, label, folder):
    """Writes each block into a file of its own; gives their names."""
    names = []
    for number, octets in enumerate(pem_blocks(text, label)):
        names.append(f"{folder}/{label.lower().replace(' ', '-')}-{number}.der")
        with open(names[-1], "wb") as file:
            file.write(octets)
    return names
