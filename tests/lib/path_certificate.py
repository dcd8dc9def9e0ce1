"""What certification path validation (RFC 5280 section 6.1) takes from a certificate, read from its octets by reader/octets.py; and
names beside names (section 7.1). Nothing is taken from the crates or from another library. An identifier is its contents octets."""

import calendar
import contextlib
import re
import stringprep
import unicodedata
from functools import cached_property, lru_cache

from .reader.octets import message_of, read_inside, refuse_unless

CE = b"\x55\x1d"
(KEY_USAGE, SUBJECT_ALT_NAME, BASIC_CONSTRAINTS, NAME_CONSTRAINTS, CERTIFICATE_POLICIES, POLICY_MAPPINGS, POLICY_CONSTRAINTS,
 EXTENDED_KEY_USAGE, INHIBIT_ANY_POLICY) = (CE + bytes([last]) for last in (15, 17, 19, 30, 32, 33, 36, 37, 54))
SUBJECT_KEY, AUTHORITY_KEY = CE + b"\x0e", CE + b"\x23"
EMAIL_ADDRESS = bytes.fromhex("2a864886f70d010901")
DOMAIN_COMPONENT = bytes.fromhex("0992268993f22c640119")
UTC_TIME = re.compile(rb"\d{12}Z\Z")
GENERALIZED_TIME = re.compile(rb"\d{14}Z\Z")


def seconds(encoding):
    """A Time in seconds from 1970 (4.1.2.5)."""
    digits = encoding.contents
    refuse_unless((UTC_TIME if encoding.tag == 0x17 else GENERALIZED_TIME).match(digits), "a time in another form")
    text = digits[:-1].decode()
    if encoding.tag == 0x17:
        text = ("19" if int(text[:2]) >= 50 else "20") + text
    year, parts = int(text[:4]), [int(text[at : at + 2]) for at in range(4, 14, 2)]
    month, day, hour, minute, second = parts
    is_date = 1 <= month <= 12 and 1 <= day <= calendar.monthrange(max(year, 1), month)[1]
    refuse_unless(is_date and hour < 24 and minute < 60 and second < 60, "a time that is none")
    return calendar.timegm((year, month, day, hour, minute, second))


@lru_cache(maxsize=None)
def prepared(text):
    """A text as RFC 4518 section 2 prepares it for a comparison without case."""
    if text.isascii() and text.isprintable():
        return " ".join(text.lower().split())
    mapped = []
    for character in text:
        if stringprep.in_table_b1(character) or (unicodedata.category(character) in ("Cc", "Cf") and character not in "\t\n\v\f\r\x85"):
            continue
        if character in "\t\n\v\f\r\x85" or unicodedata.category(character) in ("Zs", "Zl", "Zp"):
            character = " "
        mapped.append(stringprep.map_table_b2(character))
    words = unicodedata.normalize("NFKC", "".join(mapped)).split(" ")
    return " ".join(word for word in words if word)


def value_for_comparison(kind, encoding):
    """A value of an attribute such that two match if these are equal (7.1; 7.3 of domainComponent; 4.1.2.6 of emailAddress)."""
    if encoding.tag in (0x0C, 0x13):
        # (an AttributeValue is of any type: octets that are no text are compared as they are)
        with contextlib.suppress(UnicodeDecodeError):
            return "text", prepared(encoding.contents.decode())
    if encoding.tag == 0x16 and kind in (DOMAIN_COMPONENT, EMAIL_ADDRESS):
        return "letters", encoding.contents.lower()
    return encoding.tag, encoding.contents


class Name:
    """A Name: the attributes of each of its RDNs, for a comparison, and its octets."""

    def __init__(self, encoding):
        self.octets, self.parts, self.mail = encoding.whole, [], []
        for part in encoding.has(0x30).fields().rest(0x31):
            self.parts.append(frozenset(self.attribute(it) for it in part.fields().rest(0x30)))
            refuse_unless(self.parts[-1], "a RelativeDistinguishedName without an attribute")

    def attribute(self, encoding):
        fields = encoding.fields()
        kind, value = fields.take(6).contents, fields.next()
        fields.close()
        if kind == EMAIL_ADDRESS:
            self.mail.append(value.contents)
        return kind, *value_for_comparison(kind, value)

    def matches(self, other):
        return self.parts == other.parts

    def is_below(self, base):
        """Whether the name is in the subtree of the base (4.2.1.10)."""
        return self.parts[: len(base.parts)] == base.parts


class Extension:
    def __init__(self, encoding):
        fields = encoding.fields()
        self.kind, critical = fields.take(6).contents, fields.option(1)
        self.is_critical = critical is not None
        # (DEFAULT FALSE is not encoded, X.690 11.5, and TRUE is FF, 11.1)
        refuse_unless(critical is None or critical.contents == b"\xff", "a BOOLEAN in another form")
        self.value = fields.take(4)
        fields.close()

    @property
    def held(self):
        """The one encoding in the value."""
        return read_inside(self.value.octets, self.value.contents_begin, self.value.end)


def extensions_of(encoding):
    """The extensions of a list, by their identifiers (4.2: each stands once)."""
    found = {}
    listed = encoding.has(0x30).fields().rest(0x30)
    refuse_unless(listed, "no extension")
    for extension in map(Extension, listed):
        refuse_unless(extension.kind not in found, "an extension that stands twice")
        found[extension.kind] = extension
    return found


def small(encoding):
    """A number that is not negative."""
    octets = encoding.contents
    refuse_unless(octets and octets[0] < 0x80 and not (len(octets) > 1 and octets[0] == 0 and octets[1] < 0x80), "no such number")
    return int.from_bytes(octets, "big")


def bits_of(encoding):
    """The bits of a BIT STRING with named bits, those that are set (X.690 11.2.2)."""
    octets = encoding.contents
    refuse_unless(octets and octets[0] < 8 and (len(octets) > 1 or not octets[0]), "no BIT STRING")
    unused = octets[0]
    refuse_unless(len(octets) == 1 or octets[-1] >> unused & 1 and not octets[-1] & (1 << unused) - 1, "a BIT STRING in another form")
    return {8 * at + bit for at, octet in enumerate(octets[1:]) for bit in range(8) if octet >> 7 - bit & 1}


class Certificate:
    def __init__(self, octets):
        outer = message_of(octets).has(0x30).fields()
        self.octets, signed = octets, outer.take(0x30)
        self.signed, self.algorithm, self.signature = signed.whole, outer.take(0x30).whole, outer.take(3).contents
        outer.close()
        fields = signed.fields()
        version = fields.option(0xA0)
        self.version = 1 + (small(version.only(2)) if version else 0)
        refuse_unless(not (version and self.version == 1), "the version 1, encoded")
        self.serial = fields.take(2).contents
        fields.take(0x30)
        self.issuer = Name(fields.take(0x30))
        dates = fields.take(0x30).fields()
        self.first, self.last = seconds(dates.take(0x17, 0x18)), seconds(dates.take(0x17, 0x18))
        dates.close()
        self.subject, self.key = Name(fields.take(0x30)), fields.take(0x30)
        fields.option(0x81)
        fields.option(0x82)
        held = fields.option(0xA3)
        self.extensions = extensions_of(held.only(0x30)) if held else {}
        fields.close()
        self.is_self_issued = self.issuer.matches(self.subject)

    def value(self, kind):
        """The encoding that an extension holds, or nothing."""
        return self.extensions[kind].held if kind in self.extensions else None

    @cached_property
    def basic_constraints(self):
        """Whether the certificate is a CA's, and its pathLenConstraint (4.2.1.9); nothing without the extension."""
        held = self.value(BASIC_CONSTRAINTS)
        if held is None:
            return None
        fields = held.has(0x30).fields()
        is_ca, length = fields.option(1), fields.option(2)
        fields.close()
        refuse_unless(is_ca is None or is_ca.contents == b"\xff", "a BOOLEAN in another form")
        return is_ca is not None, None if length is None else small(length)

    @cached_property
    def key_usage(self):
        """The bits of the extension (4.2.1.3); nothing without it."""
        held = self.value(KEY_USAGE)
        return None if held is None else bits_of(held.has(3))

    @cached_property
    def policies(self):
        """The policies of certificatePolicies (4.2.1.4); nothing without the extension."""
        held = self.value(CERTIFICATE_POLICIES)
        if held is None:
            return None
        found = []
        for information in held.has(0x30).fields().rest(0x30):
            fields = information.fields()
            found.append(fields.take(6).contents)
            fields.option(0x30)
            fields.close()
        refuse_unless(found, "no policy")
        return found

    @cached_property
    def mappings(self):
        """The pairs of policyMappings: issuerDomainPolicy, subjectDomainPolicy (4.2.1.5); nothing without the extension."""
        held = self.value(POLICY_MAPPINGS)
        if held is None:
            return None
        found = []
        for mapping in held.has(0x30).fields().rest(0x30):
            fields = mapping.fields()
            found.append((fields.take(6).contents, fields.take(6).contents))
            fields.close()
        refuse_unless(found, "no mapping")
        return found

    @cached_property
    def policy_constraints(self):
        """requireExplicitPolicy and inhibitPolicyMapping, or nothing in place of each (4.2.1.11)."""
        held = self.value(POLICY_CONSTRAINTS)
        if held is None:
            return None, None
        fields = held.has(0x30).fields()
        found = tuple(None if it is None else small(it) for it in (fields.option(0x80), fields.option(0x81)))
        fields.close()
        return found

    @cached_property
    def inhibit_any_policy(self):
        """SkipCerts (4.2.1.14), or nothing."""
        held = self.value(INHIBIT_ANY_POLICY)
        return None if held is None else small(held.has(2))

    @cached_property
    def alternative_names(self):
        """The names of subjectAltName (4.2.1.6); nothing without the extension."""
        held = self.value(SUBJECT_ALT_NAME)
        if held is None:
            return None
        found = held.has(0x30).fields().rest()
        refuse_unless(found, "no name")
        return found

    @cached_property
    def name_constraints(self):
        """The permitted and the excluded subtrees: a base, its minimum and its maximum (4.2.1.10); nothing in place of each."""
        held = self.value(NAME_CONSTRAINTS)
        return (None, None) if held is None else constraints_of(held)


def constraints_of(encoding):
    """The permitted and the excluded subtrees of a NameConstraints."""
    fields = encoding.has(0x30).fields()
    found = tuple(None if it is None else [subtree_of(one) for one in it.fields().rest(0x30)] for it in (fields.option(0xA0), fields.option(0xA1)))
    fields.close()
    refuse_unless(all(it is None or it for it in found), "no subtree")
    return found


def subtree_of(encoding):
    fields = encoding.fields()
    base, minimum, maximum = fields.next(), fields.option(0x80), fields.option(0x81)
    fields.close()
    return base, 0 if minimum is None else small(minimum), None if maximum is None else small(maximum)
