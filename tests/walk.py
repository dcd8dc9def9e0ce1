#!/usr/bin/env python3
"""Walks as a new user does: clones the repository, and runs there each block of commands of README.md, docs/USING.md, docs/C.md
and tools/asn1/README.md, in their order, and the program in C of docs/C.md. Says how long each took.

    python3 tests/walk.py [--from TEXT]

It proves what the pages have proved, so it takes as long as the pages say (CONTRIBUTING.md has the times), and tests/all does
not run it. With --from, it begins at the first block that has this text. The commands of a release are run by tests/release.py.
The last line counts."""
import argparse
import os
import re
import subprocess
import sys
import tempfile
import time

from lib import ROOT, text_of

BLOCK = re.compile(r"^```sh\n(.*?)^```$", re.S | re.M)
PAGES = ("README.md", "tools/asn1/README.md", "docs/USING.md", "docs/C.md")
# A line of one of these has a word that stands for a file, or is for a release that was unpacked.
OTHERS = ("sha256sum -c RELEASE",)
PROGRAM = re.compile(r"^```c\n(#include.*?)^```$", re.S | re.M)
MAIN = """
int main(void)
{
    static uint8_t octets[1 << 16];
    size_t len = fread(octets, 1, sizeof octets, stdin);
    print_dates(octets, len);
    return 0;
}
"""


def blocks():
    """Each block of commands with its page; of docs/USING.md, whose steps go on from one to the next, all in one."""
    for page in PAGES:
        found = [block for block in BLOCK.findall(text_of(page)) if not block.startswith(OTHERS)]
        yield from ((page, block) for block in (["".join(found)] if page == "docs/USING.md" else found))
    yield "docs/C.md, its program", program()


def program():
    """The commands that build the page's function with a main, and run it on a certificate of the repository."""
    source = PROGRAM.search(text_of("docs/C.md")).group(1) + MAIN
    return (
        f"cat > dates.c <<'C'\n{source}C\n"
        "cc -Wall -Werror -Ic/include dates.c c/build/libder_c.a -o dates\n"
        "openssl x509 -in tests/views/certificate.pem -outform DER | ./dates | tee dates.txt\n"
        "test -s dates.txt\n"
    )


def run(clone, page, block):
    """Whether a block's commands succeed, those of docs/USING.md beside the clone; says how long they took."""
    start = time.monotonic()
    folder = os.path.dirname(clone) if page == "docs/USING.md" else clone
    ran = subprocess.run(
        ["bash", "-euo", "pipefail", "-c", block], cwd=folder, env={**os.environ, "DER": clone}, stdin=subprocess.DEVNULL,
        stdout=subprocess.PIPE, stderr=subprocess.STDOUT, text=True, errors="replace",
    )
    seconds = time.monotonic() - start
    first = next(line for line in block.splitlines() if line.strip())
    print(f"{'FAILED: ' if ran.returncode else ''}{page}: {first[:90]}: {seconds:.0f} seconds", flush=True)
    if ran.returncode:
        print(ran.stdout[-2000:])
    return not ran.returncode


def main():
    parser = argparse.ArgumentParser()
    parser.add_argument("--from", dest="start", default="")
    start = parser.parse_args().start
    passed = failed = 0
    with tempfile.TemporaryDirectory(prefix="der-walk-") as folder:
        subprocess.run(["git", "clone", "--quiet", ROOT, f"{folder}/der"], check=True)
        begun = False
        for page, block in blocks():
            begun = begun or start in block
            if begun:
                is_well = run(f"{folder}/der", page, block)
                passed, failed = passed + is_well, failed + (not is_well)
    print(f"{passed} passed, {failed} failed")
    return 1 if failed or not passed else 0


if __name__ == "__main__":
    sys.exit(main())
