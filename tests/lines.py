#!/usr/bin/env python3
"""Lines of derview by the hundred thousand, the same ones in every run.

Of each type name right encodings, made by the encoder of values.py, are answered with their canonical encoding. Each cut of
one is refused with 2, each with octets behind it with 3. Of each with one octet changed: the owned and the borrowed name
answer alike, a wider type accepts what a narrower one does, and no answer is 1 or 17. Every encoding that was ever answered
is answered with itself.
"""

import os
import random
import subprocess
import sys
import tempfile
import time
from concurrent.futures import ThreadPoolExecutor

sys.dont_write_bytecode = True
from lib import programs
from lib.octets import integer, tlv
from lib.values import TWINS, VALUES, WIDER, Row, digits, names_of_derview, row

SEED = 690
LINES = 200000
# Items of a set that falls, which is to be read within SECONDS; few enough that fewer requests for memory are made than
# the program refuses one of.
ITEMS = 20_000
SECONDS = 60
# Fewer lines than the program that refuses one request for memory makes requests.
AT_ONCE = 400
JOBS = int(os.environ.get("JOBS") or min(4, os.cpu_count() or 1))
REFUSALS = {b"refused %d" % it for it in range(2, 17)}
wrong = []


def fail(text):
    wrong.append(text)
    if len(wrong) <= 20:
        print(f"lines: {text}", flush=True)


def answers(program, lines):
    """What the program answers to each line."""

    def of(part):
        how = {"stdout": subprocess.PIPE, "stderr": subprocess.PIPE, "timeout": 2 * SECONDS}
        try:
            ran = subprocess.run([program], input=b"".join(part), **how)
        except subprocess.TimeoutExpired:
            fail(f"no answers to {len(part)} lines within {2 * SECONDS} seconds, the first of them {part[0][:100]!r}")
            return [b""] * len(part)
        given = ran.stdout.split(b"\n")[:-1]
        if ran.returncode or ran.stderr or len(given) != len(part):
            fail(f"status {ran.returncode}, {len(given)} answers to {len(part)} lines, {ran.stderr[:200]!r}")
            given += [b""] * (len(part) - len(given))
        return given

    parts = [lines[at : at + AT_ONCE] for at in range(0, len(lines), AT_ONCE)]
    with ThreadPoolExecutor(JOBS) as pool:
        return [answer for part in pool.map(of, parts) for answer in part]


def cuts(r, octets):
    """Two proper fronts, seldom the empty one."""
    return [octets[: r.randrange(len(octets))] for _ in range(2)]


def changes(r, octets):
    """Some ways to change one octet, most of them near the front."""
    for _ in range(r.choice([0, 1, 2])):
        at = r.choice([0, min(1, len(octets) - 1), min(2, len(octets) - 1), r.randrange(len(octets))])
        octet = r.choice([0, 0x7F, 0x80, 0xFF, octets[at] ^ (1 << r.randrange(8)), r.randrange(256)])
        yield octets[:at] + bytes([octet]) + octets[at + 1 :]


def families():
    """For each name those that are compared with it."""
    near = {name: [name] for name in VALUES}
    for one, other in TWINS + WIDER:
        near[one].append(other)
        near[other].append(one)
    return near


def generate(r):
    """Lines, each with the answer that it must have or None, and pairs of places that are compared."""
    lines, wanted, pairs = [], [], []
    near, twins = families(), set(TWINS)

    def add(name, octets, answer):
        lines.append(b"%s %s\n" % (name.encode(), digits(octets)))
        wanted.append(answer)
        return len(lines) - 1

    while len(lines) < LINES:
        for name in VALUES:
            it = row(r, name)
            add(name, it.octets, it.answer[:-1])
            if not it.octets:
                continue
            for octets in cuts(r, it.octets):
                add(name, octets, b"ok -" if name == "opt-u8" and not octets else b"refused 2")
            if r.random() < 0.5:
                add(name, it.octets + r.randbytes(r.randint(1, 3)), b"refused 3")
            for octets in changes(r, it.octets):
                places = {other: add(other, octets, None) for other in near[name]}
                pairs.extend(
                    (places[one], places[other], (one, other) in twins)
                    for one, other in TWINS + WIDER
                    if one in places and other in places
                )
    return lines, wanted, pairs


def compare(lines, wanted, pairs, given):
    """Holds the answers to what they must be."""
    for line, want, answer in zip(lines, wanted, given):
        if want is not None and answer != want:
            fail(f"{line[:200]!r} is answered with {answer[:200]!r}, and not with {want[:200]!r}")
        elif want is None and answer not in REFUSALS and not answer.startswith(b"ok "):
            fail(f"{line[:200]!r} is answered with {answer[:200]!r}")
    for one, other, are_twins in pairs:
        differ = given[one] != given[other]
        if differ and (are_twins or given[one].startswith(b"ok ")):
            fail(f"{lines[one][:200]!r} is answered with {given[one][:200]!r}, and {lines[other][:80]!r} with {given[other][:200]!r}")


def answer_again(program, lines, given):
    """Every encoding that was answered is answered with itself."""
    accepted = [(line.split(), answer[3:]) for line, answer in zip(lines, given) if answer.startswith(b"ok ")]
    again = sorted({b"%s %s\n" % (words[0], octets) for words, octets in accepted if octets != words[1]})
    for line, answer in zip(again, answers(program, again)):
        if answer != b"ok " + line.split()[1]:
            fail(f"{line[:200]!r} is answered with {answer[:200]!r}")
    return len(accepted), len(again)


def long_sets(program):
    """4000 numbers and many OCTET STRINGs, each greater than the next."""
    numbers = [integer(it) for it in range(3999, -1, -1)]
    falling = tlv(0x31, b"".join(numbers))
    rising = tlv(0x31, b"".join(sorted(numbers)))
    rows = [Row("setvec-u16", falling, rising), Row("setref-u16", rising)]
    lines = [it.line for it in rows] + [b"setref-u16 %s\n" % falling.hex().encode()]
    if answers(program, lines) != [it.answer[:-1] for it in rows] + [b"refused 11"]:
        fail("4000 reversed numbers are not answered rightly")
    strings = [tlv(4, it.to_bytes(4, "big")) for it in range(ITEMS - 1, -1, -1)]
    it = Row("setvec-anyref", tlv(0x31, b"".join(strings)), tlv(0x31, b"".join(sorted(strings))))
    start = time.monotonic()
    if answers(program, [it.line]) != [it.answer[:-1]]:
        fail(f"a set of {ITEMS} falling items is not answered rightly")
    took = time.monotonic() - start
    print(f"lines: a set of {ITEMS} falling items took {took:.1f} seconds", flush=True)
    if took > SECONDS:
        fail(f"a set of {ITEMS} falling items took {took:.1f} seconds")


def main():
    if set(VALUES) != names_of_derview():
        fail(f"the type names of derview are others: {sorted(set(VALUES) ^ names_of_derview())}")
    with tempfile.TemporaryDirectory(prefix="der-lines-") as folder:
        program = programs.proved()
        if not program and not programs.has_compiler():
            print(f"lines: there is no C compiler {programs.COMPILER} (set CC), and no proved derview: nothing was tried")
            return 1
        program = program or programs.derview(folder)
        start = time.monotonic()
        lines, wanted, pairs = generate(random.Random(SEED))
        given = answers(program, lines)
        compare(lines, wanted, pairs, given)
        accepted, others = answer_again(program, lines, given)
        print(f"lines: {len(lines)} answered, {accepted} accepted, {others} with other octets, which were answered again, in {time.monotonic() - start:.0f} seconds", flush=True)
        long_sets(program)
    print(f"lines: {'all as it should be' if not wrong else f'{len(wrong)} wrong'}")
    return 1 if wrong else 0


if __name__ == "__main__":
    sys.exit(main())
