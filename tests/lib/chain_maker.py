"""Random chains of certificates, of up to six, from one seed: basic constraints and lengths of paths, usages of keys, dates, names that
chain or do not, self-issued certificates, name constraints of all kinds beside names that are inside and outside of them, policies with
their mappings and constraints, and unknown extensions; with random inputs of path validation. Most parts of a chain fit, so that many
chains are valid."""

import calendar
import random
from dataclasses import dataclass, replace

from . import chain_parts as parts
from .chain_parts import IA5, PRINTABLE, UTF8, NoSigner, Plan, made, name
from .path_oracle import ANY_POLICY, Settings

START, END, NEVER = (calendar.timegm(it) for it in ((2020, 1, 1, 0, 0, 0), (2045, 1, 1, 0, 0, 0), (9999, 12, 31, 23, 59, 59)))
NOW, DAY = calendar.timegm((2026, 6, 1, 12, 0, 0)), 86400
POLICIES = [bytes.fromhex(f"2a0304{last:02x}") for last in range(1, 6)]
UNKNOWN = bytes.fromhex("2a0305")
ANCHOR = name(("O", "Mill"), ("CN", "the anchor"))
# So many chains have each step fail first in one of them.
ENOUGH = 1000
THEMES = ("lengths", "usages", "dates", "names", "constraints", "policies", "unknown", "versions")
KINDS = ["host", "mail", "uri", "address", "directory"]
HOSTS = ["example.com", "a.example.com", "b.a.example.com", "A.Example.COM", "xexample.com", "mill.example", "example.org", "com", "*.example.com"]
OF_HOSTS = ["example.com", "a.example.com", "EXAMPLE.com", "mill.example", "com", "", "org"]
MAILS = ["a@example.com", "A@example.com", "a@EXAMPLE.com", "b@a.example.com", "b@mill.example", "a@example.org"]
OF_MAILS = ["a@example.com", "example.com", ".example.com", "mill.example", ".com", "a@Example.com", "a.example.com"]
URIS = ["http://example.com/", "https://u@a.example.com:8080/x?y#z", "ldap://mill.example", "http://EXAMPLE.com:80", "urn:a:b", "http://192.0.2.1/",
        "http://b.a.example.com?x", "ftp://example.org/"]
OF_URIS = ["example.com", ".example.com", "a.example.com", "mill.example", ".com", ".org"]
ADDRESSES = ["c0000201", "c0000281", "0a010203", "0a020304", "20010db8" + "00" * 11 + "01", "20010db9" + "00" * 12]
OF_ADDRESSES = ["c0000200ffffff00", "c0000200ffffff80", "0a000000ff000000", "0a010000ffff0000", "0000000000000000", "20010db8" + "00" * 12 + "ffffffff" + "00" * 12]
# Constraints and names that the RFC leaves undefined, and rejects if they meet.
ODD = {"host": [".example.com", "a..com"], "mail": ["@example.com", "."], "uri": ["", "."], "address": ["c0000200ff00ff00", "c00002ffff00"]}


@dataclass
class Chain:
    """A chain with what it is about: the octets of the anchor and of the certificates, and the inputs."""

    about: str
    anchor: bytes
    path: list
    settings: Settings


class Maker:
    def __init__(self, seed, signer=None, is_constrained=False):
        self.random, self.signer, self.is_constrained = random.Random(seed), signer or NoSigner(), is_constrained
        self.anchor = made(Plan(ANCHOR, ANCHOR, 0, 0, 0, NEVER, [parts.basic_constraints(), parts.key_usage(5, 6)]), self.signer)

    def hits(self, chance):
        return self.random.random() < chance

    def pick(self, items):
        return self.random.choice(items)

    def some(self, items, least, most):
        return self.random.sample(items, min(len(items), self.random.randint(least, most)))

    def chain(self):
        themes = set(self.some(list(THEMES), 1, 3)) | ({"policies"} if self.hits(0.3) else set())
        count = self.pick([1, 2, 3, 3, 4, 4, 5, 6])
        plans = self.plans(count, themes)
        for theme in sorted(themes):
            getattr(self, theme)(plans)
        at = self.moment(plans) if "dates" in themes else NOW
        settings = self.inputs(at, "policies" in themes)
        if self.is_constrained and self.hits(0.9 if "constraints" in themes else 0.1):
            settings = replace(settings, constraints=parts.constraints(*self.subtrees(self.some(KINDS, 1, 2))))
        for plan in plans:
            self.random.shuffle(plan.extensions)
        return Chain(f"{' '.join(sorted(themes))}, {count}", self.anchor, [made(it, self.signer) for it in plans], settings)

    def inputs(self, at, is_strict):
        given = [ANY_POLICY] if self.hits(0.5) else self.some(POLICIES, 1, 3)
        given += [ANY_POLICY] if self.hits(0.05) else []
        chance = 0.4 if is_strict else 0.05
        return Settings(at, frozenset(given), self.hits(chance), self.hits(chance / 3), self.hits(chance / 3))

    def plans(self, count, themes):
        """Certificates that chain, with nothing else than basicConstraints."""
        plans, issuer = [], ANCHOR
        for number in range(1, count + 1):
            # (certificates of version 1 have no key identifiers, which tell those of one subject apart)
            is_self_issued = "versions" not in themes and self.hits(0.35 if themes & {"policies", "lengths", "constraints"} else 0.1)
            subject = issuer if is_self_issued else self.subject(number)
            extensions = [parts.basic_constraints()] if number < count or self.hits(0.2) else []
            plans.append(Plan(subject, issuer, number, number - 1, START, END, extensions, serial=number))
            issuer = subject
        return plans

    def subject(self, number):
        organisation = self.pick(["Mill", "Barley", "Mill  Two"])
        units = [("OU", self.pick(["North", "South"]))] if self.hits(0.5) else []
        return name(("C", "SE", PRINTABLE), ("O", organisation, self.pick([UTF8, PRINTABLE])), *units, ("CN", f"certificate number {number}"))

    def replace(self, plan, kind, new):
        """An extension in place of that of its kind."""
        marker = parts.tlv(6, kind)
        plan.extensions = [it for it in plan.extensions if marker not in it[:16]] + new

    def lengths(self, plans):
        for number, plan in enumerate(plans[:-1]):
            if self.hits(0.5):
                length = len(plans) - 2 - number + self.pick([-1, 0, 0, 0, 1, 5])
                self.replace(plan, parts.BASIC_CONSTRAINTS, [parts.basic_constraints(length=max(length, 0), critical=self.hits(0.8))])
            elif self.hits(0.06):
                self.replace(plan, parts.BASIC_CONSTRAINTS, self.pick([[], [parts.basic_constraints(False)]]))

    def usages(self, plans):
        for plan in plans:
            if self.hits(0.7):
                bits = [5] if self.hits(0.93) or plan is plans[-1] else []
                plan.extensions.append(parts.key_usage(*bits, *self.some([0, 1, 2, 6, 8], 1, 3), critical=self.hits(0.7)))

    def dates(self, plans):
        for plan in plans:
            plan.first = NOW - DAY * self.random.randint(1, 900)
            plan.last = NOW + DAY * self.pick([self.random.randint(1, 900), 30000])

    def moment(self, plans):
        """A moment around the first or the last one of a certificate, or any within all."""
        first, last = max(it.first for it in plans), min(it.last for it in plans)
        if self.hits(0.2):
            return self.pick(plans).first - self.pick([0, 1])
        if self.hits(0.2):
            return self.pick(plans).last + self.pick([-1, 0, 1])
        return self.pick([first, last - 1, NOW, NOW])

    def names(self, plans):
        """The issuer of a certificate in another case, with other spaces, as another kind of text, or another name."""
        for plan in plans[1:]:
            if self.hits(0.4):
                changed = self.changed(plan.issuer)
                if plan.subject == plan.issuer and self.hits(0.5):
                    plan.subject = changed
                plan.issuer = changed

    def changed(self, octets):
        """A Name of as many octets, which matches unless it says so."""
        for before, after in ((b"Mill", b"mILL"), (b"Barley", b"BARLEY"), (b"certificate number", b"CERTIFICATE Number"), (b"Mill  Two", b" Mill Two")):
            octets = octets.replace(before, after) if self.hits(0.5) else octets
        if self.hits(0.4):
            octets = octets.replace(b"\x0c\x04", b"\x13\x04")
        return octets.replace(b"number", b"NUMB3R") if self.hits(0.1) else octets

    def versions(self, plans):
        plan = self.pick(plans)
        if self.hits(0.4):
            plan.version = self.pick([1, 2])
            if self.hits(0.7):
                plan.extensions, plan.has_identifiers = [], False

    def unknown(self, plans):
        for plan in plans:
            if self.hits(0.3):
                plan.extensions.append(parts.extension(UNKNOWN, b"\x05\x00", self.hits(0.25)))

    def policies(self, plans):
        """Policies of which each certificate keeps most of those that are expected of it."""
        expected = self.some(POLICIES, 1, 4)
        for plan in plans:
            own = [it for it in expected if self.hits(0.85)] + self.some(POLICIES, 0, 1)
            own = list(dict.fromkeys(own))
            own += [ANY_POLICY] if self.hits(0.35) else []
            if own and self.hits(0.93):
                self.random.shuffle(own)
                plan.extensions.append(parts.policies(*own, critical=self.hits(0.3)))
            expected = own or expected
            if self.hits(0.35 if plan is not plans[-1] else 0.04):
                pairs = self.mapped([it for it in expected if it != ANY_POLICY])
                plan.extensions.append(parts.mappings(*pairs, critical=self.hits(0.8)))
                expected = [it for it in expected if it not in dict(pairs)] + [it for _, it in pairs]
            expected = [it for it in dict.fromkeys(expected) if it != ANY_POLICY] or self.some(POLICIES, 1, 2)
            if self.hits(0.25):
                values = [self.pick([None, 0, 1, 2]) for _ in range(2)]
                plan.extensions += [parts.policy_constraints(*values)] if any(it is not None for it in values) else []
            if self.hits(0.2):
                plan.extensions.append(parts.inhibit_any_policy(self.pick([0, 0, 1, 2])))

    def mapped(self, own):
        """Pairs of a mapping, from policies of the certificate or, rarely, from others; seldom of anyPolicy."""
        pairs = []
        for _ in range(self.random.randint(1, 3)):
            issuer = self.pick(own) if own and self.hits(0.8) else self.pick(POLICIES)
            subject = self.pick(POLICIES)
            if self.hits(0.015):
                issuer, subject = self.pick([(ANY_POLICY, subject), (issuer, ANY_POLICY)])
            pairs.append((issuer, subject))
        return list(dict.fromkeys(pairs))

    def constraints(self, plans):
        """Constraints of some kinds, and names of these kinds."""
        kinds = self.some(KINDS, 1, 2)
        for plan in plans[:-1]:
            if self.hits(0.6):
                permitted, excluded = self.subtrees(kinds)
                if permitted or excluded:
                    plan.extensions.append(parts.name_constraints(permitted, excluded, critical=self.hits(0.8)))
            if self.hits(0.1):
                plan.extensions.append(parts.alternative_names(self.named(self.pick(kinds))))
        last = plans[-1]
        if self.hits(0.8):
            last.extensions.append(parts.alternative_names(*(self.named(self.pick(kinds)) for _ in range(self.pick([1, 1, 2, 3]))), critical=self.hits(0.2)))
        if self.hits(0.15):
            last.subject = self.pick([name(), name(("O", "Mill"), ("emailAddress", self.pick(MAILS), IA5))])

    def subtrees(self, kinds):
        """Permitted and excluded subtrees."""
        permitted = [self.base(self.pick(kinds)) for _ in range(self.pick([0, 1, 1, 2, 3]))]
        return permitted, [self.base(self.pick(kinds)) for _ in range(self.pick([0, 0, 0, 1]))]

    def base(self, kind):
        """A base of a subtree; seldom with a minimum or a maximum, or one that is left undefined."""
        if kind == "directory":
            base = parts.general_name(kind, self.directory())
        else:
            listed = ODD[kind] if self.hits(0.08) else {"host": OF_HOSTS, "mail": OF_MAILS, "uri": OF_URIS, "address": OF_ADDRESSES}[kind]
            base = self.of_octets(kind, self.pick(listed))
        return parts.subtree(base, *self.pick([(1, None), (None, 2)])) if self.hits(0.04) else base

    def of_octets(self, kind, text):
        return parts.general_name(kind, bytes.fromhex(text) if kind == "address" else text.encode())

    def directory(self):
        front = [("C", "SE", PRINTABLE), ("O", self.pick(["Mill", "Barley", "MILL two"])), ("OU", "North")]
        return name(*front[: self.pick([0, 1, 1, 2, 2, 3])])

    def named(self, kind):
        if kind == "directory":
            return parts.general_name(kind, self.subject(9))
        return self.of_octets(kind, self.pick({"host": HOSTS, "mail": MAILS, "uri": URIS, "address": ADDRESSES}[kind]))


def chains(seed, count, signer=None, is_constrained=False):
    """Random chains; some have initial constraints of names, if they are asked for."""
    maker = Maker(seed, signer, is_constrained)
    return [maker.chain() for _ in range(count)]
