#!/usr/bin/env python3
"""Rows of `certview lines`: octets of messages, and what they are read and written as, or the number of why they are refused.

    python3 tests/messages.py [--built TREE]

A line of a file of tests/messages is a row: the name of a message, its octets in hexadecimal, and one of these answers.

    same                  they are read, and written as the same octets
    ok DIGITS             they are read, and written as these octets
    refused NUMBER        they are refused with this number
    cuts refused NUMBER   each beginning of them is refused so, from no octet to all but the last

A line that begins with '#' says what the rows below it show. TREE is a copy of the repository in which 'rt ci' has built
certview. Without it, or where the program is not there, certview is built by 'rt try', or is the program that CERTVIEW names.
The last line counts the rows."""

import os
import re
import subprocess
import sys
import tempfile

sys.dont_write_bytecode = True
from lib import programs

FOLDER = f"{programs.TESTS}/messages"
ROW = re.compile(r"([a-z0-9]+) ((?:[0-9a-f]{2})+|-) (same|ok (?:[0-9a-f]{2})+|(?:cuts )?refused [0-9]+)")
# Few enough lines that the program which 'rt try' builds asks for memory less often than the request that it is refused.
AT_ONCE = 50
TOLD = 20


def questions(name, digits, answer):
    """The lines that a row stands for, each with its answer."""
    if answer == "same":
        return [(f"{name} {digits}", f"ok {digits}")]
    if not answer.startswith("cuts "):
        return [(f"{name} {digits}", answer)]
    fronts = [digits[:end] or "-" for end in range(0, len(digits), 2)]
    return [(f"{name} {front}", answer.removeprefix("cuts ")) for front in fronts]


def rows():
    """The place of each row, and the lines that it stands for: none where it is no row."""
    for file in sorted(os.listdir(FOLDER)):
        with open(f"{FOLDER}/{file}") as opened:
            for number, line in enumerate(opened.read().splitlines(), 1):
                if line and not line.startswith("#"):
                    row = ROW.fullmatch(line)
                    yield f"tests/messages/{file}:{number}", questions(*row.groups()) if row else []


def answers(program, lines):
    """What the program answers to each line: an empty text where it ends before."""
    given = []
    for at in range(0, len(lines), AT_ONCE):
        part = lines[at : at + AT_ONCE]
        text = "".join(f"{line}\n" for line in part)
        ran = subprocess.run([program, "lines"], input=text, text=True, capture_output=True, timeout=120)
        found = ran.stdout.splitlines()
        if ran.returncode or ran.stderr or len(found) != len(part):
            print(f"messages: status {ran.returncode}, {len(found)} answers to {len(part)} lines, {ran.stderr[:200]!r}")
            found = [""] * len(part)
        given += found
    return given


def shown(answer, at):
    """An answer around this place."""
    start = max(0, at - 20)
    return f"{'..' if start else ''}{answer[start : at + 60]!r}"


def fault_of(questions, given):
    """What is wrong with a row, or none: the first of its lines that has another answer."""
    if not questions:
        return "this is no row"
    for (line, wanted), answer in zip(questions, given, strict=True):
        if answer != wanted:
            at = len(os.path.commonprefix([answer, wanted]))
            return f"{line[:80]!r} is answered with {shown(answer, at)}, and not with {shown(wanted, at)}"
    return None


def compare(program):
    """The faults of the rows, each with its place, and how many rows there are."""
    places = list(rows())
    given = iter(answers(program, [line for _, asked in places for line, _ in asked]))
    faults = []
    for place, asked in places:
        fault = fault_of(asked, [next(given) for _ in asked])
        if fault:
            faults.append(f"FAILED: {place}: {fault}")
    return faults, len(places)


def main(words):
    with tempfile.TemporaryDirectory(prefix="der-messages-") as folder:
        built = f"{words[1]}/crates/certview/out/certview" if words[:1] == ["--built"] else ""
        program = built if os.path.isfile(built) else programs.certview(folder)
        faults, count = compare(program)
    for fault in faults[:TOLD]:
        print(fault)
    if len(faults) > TOLD:
        print(f"messages: and {len(faults) - TOLD} rows more")
    print(f"{count - len(faults)} passed, {len(faults)} failed")
    return 1 if faults or not count else 0


if __name__ == "__main__":
    sys.exit(main(sys.argv[1:]))
