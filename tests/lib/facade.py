"""Whether der_asn1_types hands on all that the crates below it have for others: each item, each law, each macro, and the
definitions that their contracts name."""
import glob
import re

from . import text_of
from .quoting import quoted_of

FACADE = "crates/der_asn1_types"
USE = re.compile(r"^pub use ([\w:]+?)::(\{[^}]*\}|\w+(?: as \w+)?);", re.M)
GHOST_USE = re.compile(r"ghost use (Rattle\.der_\w+\.specs\.[\w.]+?)(?:\.\{([^}]*)\}| as (\w+));")
MACRO = re.compile(r"^#\[macro_export\]\nmacro_rules! (\w+) \{\n.*?^\}$", re.S | re.M)


def uses_of(text):
    """What a source hands on, each by its path without the name under which it does so."""
    return {f"{path}::{name}" for path, names in USE.findall(text) for name in re.findall(r"(?<!as )\b(?!as\b)\w+", names)}


def offered(crate):
    """What a crate has for others: what its root hands on, and the calls of its public modules."""
    root = text_of(f"crates/{crate}/src/lib.rt")
    found = {f"{crate}::{path.rpartition('::')[2]}" for path in uses_of(root)}
    for module in re.findall(r"^pub mod (\w+);", root, re.M):
        calls = re.findall(r"^pub fn (\w+)", text_of(f"crates/{crate}/src/{module}.rt"), re.M)
        found |= {f"{crate}::{module}::{it}" for it in calls}
    return found


def macros_of(crate):
    """The macros of a crate, each with its text."""
    texts = map(text_of, glob.glob(f"{crate}/src/**/*.rt", recursive=True))
    return {it[1]: it[0] for text in texts for it in MACRO.finditer(text)}


def modules_of(path):
    """The modules of definitions that the contracts of a source name."""
    quoted = "\n".join(it for it in quoted_of(path) if not it.strip().startswith("///"))
    words = set(re.findall(r"(?<![\w.])\w+", quoted))
    for module, names, alias in GHOST_USE.findall(text_of(path)):
        known = {it.strip().rpartition(" as ")[2] for it in names.split(",")} | {alias}
        # (the record of an implementation has no other name: a caller quotes it)
        if known & words and ".contracts." not in module:
            yield module


def lacking_words(crates):
    """The modules of definitions that contracts name and that a caller cannot name by the facade."""
    given = tuple(f"{it}." for it in re.findall(r"^pub use (Rattle\.\S+)", text_of(f"{FACADE}/specs/Lib.antt"), re.M))
    sources = [it for crate in crates for it in glob.glob(f"crates/{crate}/src/**/*.rt", recursive=True)]
    named = {module for path in sources for module in modules_of(path)}
    return sorted(it for it in named if not f"{it}.".startswith(given))


def lacking():
    """What the crate does not hand on."""
    below = re.search(r"^der_asn1_types: (.*)$", text_of("crates.txt"), re.M)[1].split()
    given = set().union(*(uses_of(text_of(it)) for it in glob.glob(f"{FACADE}/src/*.rt")))
    found = sorted(set().union(*map(offered, below)) - given)
    own = macros_of(FACADE)
    for crate in below:
        found += [f"{crate}::{name}!" for name, text in macros_of(f"crates/{crate}").items() if own.get(name) != text]
    return found + lacking_words(below)
