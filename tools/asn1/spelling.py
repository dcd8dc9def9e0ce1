"""ASN.1's names as Rust spells them."""

from __future__ import annotations

import re
from collections.abc import Iterable
from functools import lru_cache

KEYWORDS = frozenset(
    """
    abstract as async await become box break const continue crate do dyn else enum extern false final fn for if impl in
    let loop macro match mod move mut override priv pub ref return self static struct super trait true try type typeof
    unsafe unsized use virtual where while yield
    """.split()
)

# Rattle's own, and those of its pages and clauses.
LOGIC = frozenset(
    """
    abbrev axiom coe com data deriving elim ensures fcoe ghost hcom infix infixl infixr module mutual open package record
    requires ruleset tcoe unfold unfoldable unfolding
    """.split()
)
# What no field may be called: what each struct has beside the calls of its fields, and the value on the page of the fields.
CALLS = frozenset(["into_parts", "new", "v"])
VARIANTS = frozenset(["Self", "Type"])  # what no variant may be called, in code or on a page
NAMES = frozenset(["List", "Names", "Some"])  # nor a name of an ENUMERATED, whose page has them for something else

WORD = re.compile(r"[A-Z]+v[0-9]+|[A-Z]+(?=s\b)s|[A-Z]+(?![a-z])[0-9]*|[A-Z][a-z0-9]+|[A-Z]|[a-z0-9]+")


def words(name: str) -> list[str]:
    """The words of a name: `dNSName` is dns name, `TBSCertificate` tbs certificate."""
    parts = []
    for part in re.split(r"[-_]", name):
        # a small letter before an acronym, as ASN.1 wants of an identifier, is of the acronym
        if re.match(r"[a-z]([A-Z]{2}|[A-Z]$)", part):
            part = part[0].upper() + part[1:]
        parts += WORD.findall(part)
    return [part.lower() for part in parts]


@lru_cache(maxsize=None)
def camel(name: str) -> str:
    """As a type: `TBSCertificate` is `TbsCertificate`."""
    return "".join(word[0].upper() + word[1:] for word in words(name))


def variant(name: str) -> str:
    """As a variant: `dNSName` is `DnsName`; a reserved word gets an underscore."""
    found = camel(name)
    return f"{found}_" if found in VARIANTS else found


def enumeration_name(name: str, rust: str, names: Iterable[str]) -> str:
    """As a variant of an ENUMERATED with these names, whose own name is `rust`; where another of them is spelled alike, as
    `v1` and `v-1`, the hyphens stay, as underscores."""
    found = variant(name)
    if any(other != name and variant(other) == found for other in names):
        found = "_".join(variant(part) for part in name.split("-"))
    return f"{found}_" if found in NAMES or found == rust else found


def snake(name: str) -> str:
    """As a module: `dNSName` is `dns_name`; a reserved word gets an underscore."""
    found = "_".join(words(name))
    return f"{found}_" if found in KEYWORDS | LOGIC else found


def field(name: str) -> str:
    """As a field: the same, but for more names that are taken."""
    found = snake(name)
    return f"{found}_" if found in CALLS else found


def screaming(name: str) -> str:
    """As a constant: `id-pkix-ocsp` is `ID_PKIX_OCSP`."""
    return "_".join(words(name)).upper()


def numbered(names: list[str]) -> list[str]:
    """The names, with the least number from 2 on that makes it another after each that stands before it, or that a later one has."""
    found: list[str] = []
    for place, name in enumerate(names):
        number, other = 1, name
        while other in found or (number > 1 and other in names[place:]):
            number += 1
            other = f"{name}_{number}" if name.isupper() else f"{name}{number}"
        found.append(other)
    return found
