"""The paths from trust anchors to a certificate among others, in the order of `find_path` of `der_path`: a path of one certificate more comes
directly after the path that it begins with another certificate; the certificates whose key identifiers do not differ come first, and then
those that differ; of either the one that was given last comes first. Nothing is taken from the crates: path_certificate.py reads."""

from dataclasses import dataclass

from .path_certificate import AUTHORITY_KEY, SUBJECT_KEY, Certificate
from .path_oracle import answer
from .reader.octets import Refused


class Link:
    """A certificate with its key identifiers (4.2.1.1, 4.2.1.2), where they can be read."""

    def __init__(self, octets):
        self.octets, certificate = octets, Certificate(octets)
        self.issuer, self.subject = certificate.issuer, certificate.subject
        self.own, self.authority = None, None
        try:
            held = certificate.value(SUBJECT_KEY)
            self.own = held.has(4).contents if held else None
            held = certificate.value(AUTHORITY_KEY)
            found = held.has(0x30).fields().option(0x80) if held else None
            self.authority = found.contents if found else None
        except Refused:
            pass

    def fits(self, other):
        return None in (self.own, other.authority) or self.own == other.authority


@dataclass(frozen=True)
class Found:
    anchor: int
    path: tuple
    policies: frozenset


def links_of(certificates):
    """The certificates that can be read, each once."""
    found = {}
    for octets in certificates:
        try:
            found.setdefault(octets, Link(octets))
        except Refused:
            continue
    return list(found.values())


def chains(links, chain, depth):
    """The chains that end with this one."""
    yield chain
    if len(chain) < depth:
        held = {it.octets for it in chain}
        longer = [it for it in links if it.octets not in held and it.subject.matches(chain[0].issuer)]
        for link in sorted(reversed(longer), key=lambda it: not it.fits(chain[0])):
            yield from chains(links, [link, *chain], depth)


def find(anchors, certificates, settings, depth, limit):
    """What is found, in its order: each path, then the reason of the end: `limit`, `none`, or `refused` with the first chain behind the last
    path, and its answer."""
    end, links, names = Link(certificates[0]), links_of(certificates[1:]), [Certificate(it) for it in anchors]
    refused = None
    for number, chain in enumerate(chains(links, [end], depth)):
        if number == limit:
            yield "limit"
            return
        path = [it.octets for it in chain]
        for at, anchor in enumerate(names):
            if anchor.subject.matches(chain[0].issuer):
                told = answer(anchors[at], path, settings)
                if told[0] == "valid":
                    yield Found(at, tuple(path), told[1])
                    refused = None
                elif refused is None:
                    refused = at, path, told
    yield refused or "none"
