"""Where files are made: commands of openssl that run two at a time, and what came of them."""

import concurrent.futures
import os
import random
import subprocess
from dataclasses import dataclass, field

AT_ONCE = 2


@dataclass
class Made:
    """A file: its kind, what it is about, and the reason for which certview refuses it, shows a part as malformed, or takes it
    for another kind."""

    path: str
    kind: str
    about: str
    refused: str = ""
    malformed: str = ""
    taken_for: str = ""
    large: bool = False
    # Why openssl is not asked what it says of the file.
    unasked: str = ""
    # What else is to be compared: how its text is had from openssl, or what is known of the file.
    known: dict = field(default_factory=dict)


class Workshop:
    def __init__(self, folder, seed=45):
        self.folder, self.random = folder, random.Random(seed)
        self.made, self.jobs, self.counts = [], [], {}
        self.write("none.cnf", "")

    def path(self, name):
        return f"{self.folder}/{name}"

    def write(self, name, text):
        with open(self.path(name), "wb") as file:
            file.write(text.encode() if isinstance(text, str) else text)
        return name

    def name(self, stem, ending):
        """A new name of a file."""
        self.counts[stem] = self.counts.get(stem, 0) + 1
        return f"{stem}-{self.counts[stem]}.{ending}"

    def pick(self, items):
        return self.random.choice(list(items))

    def some(self, items, least, most):
        """Some of them, in their order."""
        items = list(items)
        places = self.random.sample(range(len(items)), min(len(items), self.random.randint(least, most)))
        return [items[at] for at in sorted(places)]

    def run(self, *words, given=None):
        """One command of openssl; its output."""
        environment = {**os.environ, "OPENSSL_CONF": self.path("none.cnf"), "TZ": "UTC"}
        ran = subprocess.run(["openssl", *words], cwd=self.folder, env=environment, input=given, capture_output=True, timeout=120)
        if ran.returncode:
            raise RuntimeError(f"openssl {' '.join(words)}: {ran.stderr.decode(errors='replace')[-600:]}")
        return ran.stdout

    def later(self, commands, made=None):
        """Commands, one after another, and the file that comes of them."""
        self.jobs.append((commands, made))

    def out(self, stem, kind, about, *words, form=None, before=(), known=None):
        """A file in PEM text or DER, as it comes, that one command writes with `-out`."""
        form = form or self.pick(("PEM", "DER"))
        name = self.name(stem, form.lower())
        made = Made(self.path(name), kind, about, known=known or {})
        self.later([*before, [*words, "-outform", form, "-out", name]], made)
        return made

    def finish(self):
        """Runs what was put off, two at a time."""
        def work(job):
            for command in job[0]:
                self.run(*command)

        with concurrent.futures.ThreadPoolExecutor(AT_ONCE) as pool:
            list(pool.map(work, self.jobs))
        self.made += [made for _, made in self.jobs if made]
        self.jobs = []
