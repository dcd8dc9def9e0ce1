"""The lines of README.md in C, Rust, Python and Go, each inside a function: compiled by tests/c.py over the library, and in Python
called; and without a compiler, for tests/contracts, whether each name that they have of a package is one of the package's."""
import glob
import os
import re
import shutil
import sys

from . import ROOT

BLOCK = re.compile(r"^```text\n(C  .*?)^```$", re.S | re.M)
LANGUAGES = ["C", "Rust", "Python", "Go"]
C = """#include <barleypulley/der.h>

void show(uint64_t seconds);
void of_line(const uint8_t *octets, size_t len);

void of_line(const uint8_t *octets, size_t len)
{
    der_certificate_at certificate;
    der_fault fault;
    %s
}
"""
RUST = """pub fn of_line(octets: &[u8]) -> Result<u64, der_proved::Error> {
    %s
    Ok(not_after)
}
"""
CARGO = """[package]
name = "of-line"
version = "0.1.0"
edition = "2021"

[dependencies]
der-proved = { path = "%s/rust/der-proved" }

[workspace]
"""
PYTHON = """import sys
import derproved


def of_line(octets):
    %s


with open(sys.argv[1], "rb") as file:
    of_line(file.read())
"""
GO = """// Package line has the line of README.md.
package line

import "barleypulley/go/der"

// Of reads a certificate.
func Of(octets []byte) (*der.Certificate, error) {
	%s
	return certificate, err
}
"""
GO_MOD = """module line

go 1.19

require barleypulley/go v0.0.0

replace barleypulley/go => %s/go
"""
# By the language: what a name of its package is called by in a line, and where and how the package defines it.
NAMES = {
    "C": (r"\b(der_\w+)\(", "c/include/barleypulley/der.h", r"\b%s\("),
    "Rust": (r"der_proved::(\w+)|\.(\w+)\(", "rust/der-proved/src/*.rs", r"\b(struct|fn) %s\b|^    %s, "),
    "Python": (r"derproved\.(\w+)|\)\.(\w+)", "python/src/derproved/__init__.py", r"^(class %s\b|    %s = )"),
    "Go": (r"der\.(\w+)\(", "go/der/*.go", r"^func %s\("),
}


def lines_of(page):
    """The lines by their languages."""
    block = BLOCK.search(page)
    rows = [it.split(None, 1) for it in (block[1] if block else "").splitlines()]
    return {language: line for language, line in rows if language in LANGUAGES}


def lines():
    with open(f"{ROOT}/README.md", encoding="utf-8") as page:
        return lines_of(page.read())


def sources(language):
    found = ""
    for path in sorted(glob.glob(f"{ROOT}/{NAMES[language][1]}")):
        if not path.endswith("_test.go"):
            with open(path, encoding="utf-8") as file:
                found += file.read()
    return found


def unknown(of_page):
    """The names in the lines that no package defines, and the languages that have no line."""
    found = [f"no line in {it}" for it in LANGUAGES if it not in of_page]
    for language, line in of_page.items():
        name, _, defined = NAMES[language]
        told = [next(filter(None, it.groups())) for it in re.finditer(name, line)]
        known = sources(language)
        found += [f"{language}: {it}" for it in told if not re.search(defined.replace("%s", it), known, re.M)]
        found += [] if told else [f"{language}: the line calls nothing"]
    return found


def write(path, text):
    os.makedirs(os.path.dirname(path), exist_ok=True)
    with open(path, "w", encoding="utf-8") as file:
        file.write(text)


def try_lines(trials, room, sample):
    """Compiles each line; `room` has the library in `build` and the package for Python in `python/lib`, where it could be built."""
    of_page, at = lines(), f"{room}/lines"
    trials.tell("README.md has a line in each language", [it for it in LANGUAGES if it not in of_page])
    write(f"{at}/line.c", C % of_page["C"])
    trials.run("README.md's line in C", ["cc", "-Wall", "-Wextra", "-Werror", f"-I{ROOT}/c/include", "-c", f"{at}/line.c", "-o", f"{at}/line.o"])
    if shutil.which("cargo"):
        write(f"{at}/rust/Cargo.toml", CARGO % ROOT)
        write(f"{at}/rust/src/lib.rs", RUST % of_page["Rust"])
        settings = {**os.environ, "DER_C_LIB": f"{room}/build", "CARGO_TARGET_DIR": f"{room}/target"}
        trials.run("README.md's line in Rust", ["cargo", "check", "-q", "--offline"], cwd=f"{at}/rust", env=settings)
    else:
        trials.left_out("README.md's line in Rust", "cargo")
    if os.path.isdir(f"{room}/python/lib/derproved"):
        write(f"{at}/line.py", PYTHON % of_page["Python"])
        settings = {**os.environ, "PYTHONPATH": f"{room}/python/lib"}
        trials.run("README.md's line in Python", [sys.executable, "-B", f"{at}/line.py", sample], env=settings)
    else:
        trials.left_out("README.md's line in Python", "the package for Python")
    if shutil.which("go"):
        write(f"{at}/go/line.go", GO % of_page["Go"])
        write(f"{at}/go/go.mod", GO_MOD % ROOT)
        settings = {**os.environ, "CGO_LDFLAGS": f"-L{room}/build", "GOCACHE": f"{room}/go"}
        trials.run("README.md's line in Go", ["go", "vet", "."], cwd=f"{at}/go", env=settings)
    else:
        trials.left_out("README.md's line in Go (tests/contracts looks for its names)", "go, of Debian's package golang-go,")
