#!/usr/bin/env python3
"""Refuses memory, reads and writes, one after another, and compares what comes of it.

calls/     a program that makes each call that takes memory. The file calls/expected has, for each call, what it prints with
           ample memory, and then what it may print where its request was refused: number 1, and what stands after it.
           Each request is refused in turn, counting upwards, until no run meets a refusal.
derview    a line of each type name, in the same way; reads and writes that fail, are cut short or are interrupted, at
           each place; its exit statuses and its lines on standard error.

derview is the program that `rt try` builds (or the one that DERVIEW names, built by programs.py). Where crates/derview/out has
a program that is newer than the sources, it is run too, and there each request is also refused with all that follow it.
With --quick two of the builds are left out, those for the first requests of derview.
"""

import os
import re
import resource
import signal
import subprocess
import sys
import tempfile
from concurrent.futures import ThreadPoolExecutor

sys.dont_write_bytecode = True
from lib import octets, programs, values

JOBS = int(os.environ.get("JOBS") or min(4, os.cpu_count() or 1))
wrong = []


def fail(text):
    wrong.append(text)
    if len(wrong) <= 20:
        print(f"faults: {text}", flush=True)


def run(program, text, more=None, **how):
    """The status, the standard output and the standard error of a program on this input."""
    given = {"input": text, "stdout": subprocess.PIPE, "stderr": subprocess.PIPE, "timeout": 120, **how}
    ran = subprocess.run([program], env={**os.environ, **(more or {})}, **given)
    return ran.returncode, ran.stdout, ran.stderr


def at_once(call, items):
    with ThreadPoolExecutor(JOBS) as pool:
        return list(pool.map(call, items))


# The calls.


def read_expected(file):
    """The lines with ample memory, the other lines of each name, and for a name how many lines it stands for with '?'."""
    ample, refused, skipped = [], {}, {}
    for line in open(file).read().splitlines():
        name = line.split()[0]
        counts = re.fullmatch(r"(\S+) \? (\d+)", line)
        if counts:
            skipped[name] = int(counts[2])
        elif name in refused:
            refused[name].append(line)
        else:
            ample.append(line)
            refused[name] = []
    return ample, refused, skipped


def refusals(text, expected, seen):
    """How many refusals a run of the calls printed, or why it is wrong."""
    ample, refused, skipped = expected
    at, found = 0, 0
    for line in text.decode().splitlines():
        name = line.split(" ")[0]
        if at < len(ample) and line == ample[at]:
            at += 1
        elif at < len(ample) and name == ample[at].split()[0] and line in refused[name]:
            seen.add(name)
            at, found = at + 1, found + 1
        elif re.fullmatch(r"\S+ \?", line) and at < len(ample) and (name in skipped or name == ample[at].split()[0]):
            at, found = at + skipped.get(name, 1), found + 1
        else:
            return f"{line!r} stands in the place of {ample[at] if at < len(ample) else 'the end'!r}"
    return found if at == len(ample) else f"it ends before {ample[at]!r}"


def refuse_calls(folder):
    """Refuses each request of the calls in turn."""
    program = f"{folder}/calls"
    programs.build("calls", program, extra=f"{programs.TESTS}/calls")
    expected = read_expected(f"{programs.TESTS}/calls/expected")
    seen, refused, number, quiet = set(), 0, 1, 0

    def refusing(number):
        return run(program, b"%d\n" % (programs.REFUSED - number))

    status, text, _ = run(program, b"0\n")
    if status or text.decode().splitlines() != expected[0]:
        answers = refusals(text, expected, set())
        fail(f"calls: with ample memory the status is {status}, and {answers} calls are refused")
    while quiet < 20 and number < programs.REFUSED:
        numbers = range(number, number + 40)
        for at, (status, text, _) in zip(numbers, at_once(refusing, numbers)):
            found = refusals(text, expected, seen)
            if status or found not in (0, 1):
                fail(f"calls: at request {at}: status {status}, {found}")
            refused += found == 1
            quiet = 0 if found else quiet + 1
        number += 40
    for name, lines in expected[1].items():
        if lines and name not in seen:
            fail(f"calls: {name} was refused in no run")
    print(f"faults: {refused} requests of {len(expected[0]) - 1} calls refused in turn", flush=True)


# derview.

MEMORY = (1, b"derview: out of memory\n")
INPUT = (1, b"derview: input failed\n")
OUTPUT = (1, b"derview: output failed\n")
DONE = (0, b"")


def ends(what, ran, want, output):
    status, text, said = ran
    if (status, said) != want:
        fail(f"{what}: status {status}, standard error {said[:200]!r}, and not {want}")
    elif text != output:
        fail(f"{what}: the output {text[-200:]!r} is not {output[-200:]!r}")


def beginning(what, ran, answers):
    """How many answers stand before a refusal; None where there was none."""
    status, text, said = ran
    if (status, said) == DONE and text == answers:
        return None
    if (status, said) != MEMORY:
        fail(f"{what}: status {status}, standard error {said[:200]!r}")
    if not answers.startswith(text):
        fail(f"{what}: the output {text[-200:]!r} is no beginning of the answers")
    return text.count(b"\n")


# The names of the types that take memory of their own; the room for a line, its octets and its reply is kept.
TAKE_MEMORY = set(
    b"any octets int uint bits printable teletex ia5 string bmp vec-i64 vec-anyref vec-ctx-u8 setvec-u16 setvec-anyref setvec-algid setref-setvec-u16".split()
)


def refuse_lines(program, lines, answers):
    """Refuses each request of derview's lines in turn, behind so many lines that take one request each."""
    one = (b"octets 040100\n", b"ok 040100\n")
    text, wanted = b"".join(lines), b"".join(answers)

    def refusing(before):
        what = f"derview behind {before} lines"
        count = beginning(what, run(program, one[0] * before + text), one[1] * before + wanted)
        return None if count is None else count - before

    refused, stopped, before = 0, set(), programs.REFUSED
    while before > 0:
        counts = at_once(refusing, range(before, max(before - 40, 0), -1))
        for count in counts:
            if count is not None and count >= 0:
                refused += 1
                stopped.add(count)
        if all(count is None for count in counts):
            break
        before -= 40
    for at, line in enumerate(lines):
        if at not in stopped and line.split()[0] in TAKE_MEMORY:
            fail(f"derview: {line!r} was refused memory in no run")
    print(f"faults: {refused} requests of {len(lines)} lines of derview refused in turn", flush=True)


def refuse_first_requests():
    """The requests that derview makes before its first answer."""
    crate = f"{programs.ROOT}/crates/derview"

    def refusing(number):
        words = ["rt", "try", "--fail-alloc", str(number)]
        how = {"input": b"unit 0500\n", "stdout": subprocess.PIPE, "stderr": subprocess.PIPE}
        ran = subprocess.run(words, cwd=crate, **how)
        if ran.returncode != 1 or b"derview: out of memory" not in ran.stderr + ran.stdout or b"ok" in ran.stdout.split():
            fail(f"derview: status {ran.returncode} at its request {number}")

    at_once(refusing, [1, 2])


def refuse_memory(program, library, lines, answers):
    """Refuses each request of the proved program, alone and with all that follow."""
    text, wanted = b"".join(lines), b"".join(answers)
    for stays in ("", "1"):
        number, quiet = 1, 0
        while quiet < 20:
            numbers = range(number, number + 40)

            def refusing(at):
                settings = {"LD_PRELOAD": library, "MEMORY_FAILS": str(at), "MEMORY_STAYS_REFUSED": stays or "0"}
                return beginning(f"the proved derview at request {at}", run(program, text, settings), wanted)

            for count in at_once(refusing, numbers):
                quiet = quiet + 1 if count is None else 0
            number += 40
        print(f"faults: {number - quiet} requests of the proved derview refused, {'each and all that follow' if stays else 'one at a time'}", flush=True)


def answers_within(text, answers, count):
    """The answers of the lines that are whole in the first octets."""
    return b"".join(answers[: text[:count].count(b"\n")])


def fail_reads_and_writes(program, library, lines, answers):
    text, wanted = b"".join(lines), b"".join(answers)

    def under(**settings):
        return {"LD_PRELOAD": library, **{name: str(value) for name, value in settings.items()}}

    def reading(how):
        piece, number = how
        ran = run(program, text, under(READ_PIECE=piece, READ_FAILS=number))
        read = piece * (number - 1)
        what = f"derview at read {number} of {piece} octets"
        ends(what, ran, INPUT, answers_within(text, answers, read))

    def writing(how):
        number, name = how
        ran = run(program, text, under(WRITE_PIECE=1, **{name: number}))
        ends(f"derview at write {number} ({name})", ran, OUTPUT, wanted[: number - 1])

    reads = [(1, it) for it in range(1, len(text) + 2)] + [(7, it) for it in range(1, len(text) // 7 + 1)]
    at_once(reading, reads)
    names = ("WRITE_FAILS", "WRITE_TAKES_NONE")
    writes = [(it, name) for it in range(1, len(wanted) + 1) for name in names]
    at_once(writing, writes)
    for piece in (1, 2, 3, 1000):
        for interrupted in (0, 1):
            settings = under(READ_PIECE=piece, WRITE_PIECE=piece, INTERRUPTED=interrupted)
            ends(f"derview by {piece} octets", run(program, text, settings), DONE, wanted)
    print(f"faults: {len(reads)} reads and {len(writes)} writes failed in turn", flush=True)


def end_in_each_way(program):
    """The exit statuses and the lines on standard error, by what the system itself refuses."""
    line, answer = b"unit 0500\n", b"ok 0500\n"
    ends("derview with no input", run(program, b""), DONE, b"")
    ends("derview", run(program, line + b"none 00"), DONE, answer + b"bad line\n")
    many = 3500
    ends("derview with many lines", run(program, b"x\n" * many), DONE, b"bad line\n" * many)
    long = values.Row("octets", octets.tlv(4, bytes(1 << 20)))
    ends("derview with a long line", run(program, long.line), DONE, long.answer)
    folder = os.open("/", os.O_RDONLY)
    ends("derview on a folder", run(program, None, input=None, stdin=folder), INPUT, b"")
    os.close(folder)
    if os.path.exists("/dev/full"):
        with open("/dev/full", "wb") as full:
            status, _, said = run(program, line, stdout=full)
        ends("derview to a full device", (status, b"", said), OUTPUT, b"")

    def limit():
        signal.signal(signal.SIGXFSZ, signal.SIG_IGN)
        resource.setrlimit(resource.RLIMIT_FSIZE, (10, 10))

    with tempfile.TemporaryFile() as file:
        status, _, said = run(program, line * 3, stdout=file, preexec_fn=limit)
        file.seek(0)
        ends("derview to a file of ten octets", (status, file.read(), said), OUTPUT, (answer * 3)[:10])


def end_for_want_of_memory(program):
    """A line that is longer than the memory that the proved program may have."""

    def limit():
        resource.setrlimit(resource.RLIMIT_AS, (1 << 26, 1 << 26))

    ran = run(program, b"unit 0500\nunit " + b"00" * (1 << 26) + b"\n", preexec_fn=limit)
    ends("the proved derview under a limit", ran, MEMORY, b"ok 0500\n")


def main(words):
    if not programs.has_compiler():
        print(f"faults: there is no C compiler {programs.COMPILER} (set CC): nothing was refused")
        return 1
    with tempfile.TemporaryDirectory(prefix="der-faults-") as folder:
        library = programs.refusing_library(folder)
        with ThreadPoolExecutor(3) as pool:
            calls = pool.submit(refuse_calls, folder)
            first = None if "--quick" in words else pool.submit(refuse_first_requests)
            program = programs.derview(folder)
            rows = values.one_of_each()
            lines = [it.line for it in rows]
            answers = [it.answer for it in rows]
            refuse_lines(program, lines, answers)
            few = [b"unit 0500\n", b"unit\n", b"bool 0101FF\n", b"bool 0101\n"]
            told = [b"ok 0500\n", b"bad line\n", b"ok 0101ff\n", b"refused 2\n"]
            end_in_each_way(program)
            fail_reads_and_writes(program, library, few, told)
            proved = programs.proved()
            if proved:
                end_in_each_way(proved)
                end_for_want_of_memory(proved)
                fail_reads_and_writes(proved, library, few, told)
                refuse_memory(proved, library, lines, answers)
            else:
                print("faults: no proved derview is newer than the sources: 'rt run' in crates/derview builds it", flush=True)
            calls.result()
            if first:
                first.result()
    print(f"faults: {'all as it should be' if not wrong else f'{len(wrong)} wrong'}")
    return 1 if wrong else 0


if __name__ == "__main__":
    sys.exit(main(sys.argv[1:]))
