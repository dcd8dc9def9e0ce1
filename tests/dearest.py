#!/usr/bin/env python3
"""Tells which crates took the most processor time: looks, as long as it runs, at the processes of rattle below a folder.

    python3 tests/dearest.py FOLDER..

On SIGTERM it prints the sum, the ten dearest crates, each with its seconds of proof, of tests and of mutants, and the chain of
crates, each of which stands on the one before, that takes the most seconds of proof: however many processors there are, the
proofs take no less. The last second or so of a process is not counted."""
import os
import re
import signal
import sys
import time

LOOK = 1.0
MOST = 10


def processes():
    """The number, the folder, the words and the seconds so far of each process that can be looked at."""
    ticks = os.sysconf("SC_CLK_TCK")
    for number in filter(str.isdigit, os.listdir("/proc")):
        try:
            with open(f"/proc/{number}/cmdline", "rb") as it:
                words = it.read().decode("utf-8", "replace").split("\0")
            with open(f"/proc/{number}/stat", encoding="utf-8", errors="replace") as it:
                fields = it.read().rpartition(")")[2].split()
            folder = os.readlink(f"/proc/{number}/cwd")
        except OSError:
            continue
        yield number, folder, words, sum(map(int, fields[11:13])) / ticks


def kind_of(words):
    """The crate that a process of rattle checks, and for what: None of another process."""
    if len(words) < 2 or os.path.basename(words[0]) != "rattle" or "--crate-name" not in words[:-1]:
        return None
    name = words[words.index("--crate-name") + 1]
    if re.search(r"/edits-", " ".join(words)):
        return name, "edits"
    return name, "tests" if "--test" in words else "proof"


def look(folders, seen):
    """Adds what each process below the folders has taken so far."""
    for number, folder, words, seconds in processes():
        kind = kind_of(words)
        if kind and (kind[1] == "edits" or any(folder.startswith(f"{it}/") for it in folders)):
            seen[number, kind] = max(seen.get((number, kind), 0), seconds)


def told(seen):
    """The lines that tell the dearest crates."""
    crates = {}
    for (_, (name, what)), seconds in seen.items():
        crates.setdefault(name, {})[what] = crates.get(name, {}).get(what, 0) + seconds
    total = sum(sum(it.values()) for it in crates.values())
    yield f"processor minutes of rattle that were seen: {total / 60:.0f}; the dearest crates, in seconds:"
    for name, parts in sorted(crates.items(), key=lambda it: -sum(it[1].values()))[:MOST]:
        yield f"  {name}: {sum(parts.values()):.0f} (" + ", ".join(f"{what} {parts[what]:.0f}" for what in sorted(parts)) + ")"


def longest_chain(lines, seconds):
    """The chain of crates that takes the most seconds, by the lines of crates.txt."""
    below = {name.split()[0]: rest.split() for name, _, rest in (line.partition(":") for line in lines if ":" in line)}
    chains = {}

    def chain_to(name):
        if name not in chains:
            chains[name] = max((chain_to(it) for it in below[name] if it in below), key=lambda it: it[0], default=(0, []))
            chains[name] = chains[name][0] + seconds.get(name, 0), [*chains[name][1], name]
        return chains[name]

    return max((chain_to(name) for name in below), key=lambda it: it[0], default=(0, []))


def chain_told(folder, seen):
    """The line that tells the longest chain of the crates of a folder."""
    seconds = {}
    for (_, (name, what)), some in seen.items():
        if what == "proof":
            seconds[name] = seconds.get(name, 0) + some
    with open(os.path.join(folder, "crates.txt"), encoding="utf-8") as it:
        total, chain = longest_chain(it.read().splitlines(), seconds)
    return f"the longest chain: {total / 60:.0f} processor minutes ({' '.join(chain)})"


def main(folders):
    seen, ends = {}, []
    signal.signal(signal.SIGTERM, lambda *_: ends.append(True))
    folders = [os.path.realpath(it) for it in folders]
    while not ends:
        look(folders, seen)
        time.sleep(LOOK)
    print("\n".join([*told(seen), *(chain_told(it, seen) for it in folders)]), flush=True)


if __name__ == "__main__":
    main(sys.argv[1:])
