"""The rules of RFC 5280 sections 4.1 to 5.3 and of appendix A.1, by their text: those that a certificate or a list breaks. Octets
are read by reader/octets.py; nothing is taken from the crates. A value that cannot be read breaks no rule about its parts."""

import re

from .path_certificate import (AUTHORITY_KEY, BASIC_CONSTRAINTS, CE, CERTIFICATE_POLICIES, EMAIL_ADDRESS, DOMAIN_COMPONENT, INHIBIT_ANY_POLICY, KEY_USAGE,
                               NAME_CONSTRAINTS, POLICY_CONSTRAINTS, POLICY_MAPPINGS, SUBJECT_ALT_NAME, SUBJECT_KEY)
from .reader.octets import Refused, message_of, read_inside

ISSUER_ALT_NAME, DIRECTORY_ATTRIBUTES, FRESHEST, POINTS, NUMBER, DELTA, ISSUING_POINT, REASON, INVALIDITY, ISSUER = (
    CE + bytes([last]) for last in (18, 9, 46, 31, 20, 27, 28, 21, 24, 29))
AUTHORITY_ACCESS, SUBJECT_ACCESS = bytes.fromhex("2b06010505070101"), bytes.fromhex("2b0601050507010b")
ANY_POLICY = bytes.fromhex("551d2000")
CURVES = {bytes.fromhex("2b65") + bytes([last]) for last in (110, 111, 112, 113)}
BIT, KEY_CERT_SIGN, REMOVE_FROM_CRL = 1, 5, 8

# A.1: the most characters of the text of each type of attribute, by the last octet below 2.5.4.
MOST = {3: 64, 4: 32768, 5: 64, 7: 128, 8: 128, 10: 64, 11: 64, 12: 64, 41: 32768, 42: 32768, 43: 32768, 44: 32768, 65: 128}
DIRECTORY_STRING = {0x0C, 0x13, 0x14, 0x1C, 0x1E}
PRINTABLE = re.compile(rb"[A-Za-z0-9 '()+,\-./:=?]*\Z")
LABEL = rb"[A-Za-z0-9](?:[A-Za-z0-9-]{0,61}[A-Za-z0-9])?"
HOST = re.compile(rb"(?:\*\.)?%s(?:\.%s)*\Z" % (LABEL, LABEL))
MAILBOX = re.compile(rb"[^@]+@[^@]+\Z|.+@[^@]+\Z", re.S)
URI = re.compile(rb"[A-Za-z][A-Za-z0-9+.-]*:.", re.S)


class Extension:
    def __init__(self, encoding):
        fields = encoding.fields()
        self.kind, critical, self.value = fields.take(6).contents, fields.option(1), fields.take(4)
        self.is_critical = critical is not None and critical.contents != b"\0"

    @property
    def held(self):
        return read_inside(self.value.octets, self.value.contents_begin, self.value.end)


def listed(encoding):
    return [Extension(it) for it in encoding.fields().rest(0x30)]


def number(encoding):
    return int.from_bytes(encoding.contents, "big", signed=True)


def unless_refused(read, otherwise):
    try:
        return read()
    except Refused:
        return otherwise


class Rules:
    """The names of the rules that are broken."""

    def __init__(self):
        self.broken = set()

    def tell(self, name, is_broken):
        """Notes a rule. What is broken is a value, or a call that reads one."""
        if callable(is_broken):
            is_broken = unless_refused(is_broken, False)
        if is_broken:
            self.broken.add(name)


class Held:
    """The extensions of a certificate or a list."""

    def __init__(self, extensions):
        self.all = extensions

    def first(self, kind):
        """The value of the first extension with an identifier; nothing without it, or where octets are left over."""
        found = [it for it in self.all if it.kind == kind]
        return found[0].held if found else None

    def has(self, kind):
        return any(it.kind == kind for it in self.all)

    def is_critical(self, kind):
        return any(it.kind == kind and it.is_critical for it in self.all)

    def is_not_critical(self, kind):
        return any(it.kind == kind and not it.is_critical for it in self.all)

    def stands_twice(self):
        return len({it.kind for it in self.all}) < len(self.all)

    def each(self, kind):
        """The value of each extension with an identifier that can be read."""
        found = (unless_refused(lambda it=it: it.held, None) for it in self.all if it.kind == kind)
        return [it for it in found if it is not None]


def texts(name):
    for part in name.fields().rest():
        for attribute in part.fields().rest():
            fields = attribute.fields()
            yield fields.take(6).contents, fields.next()


def characters(value):
    """How many characters a text has; nothing where the string is none of A.1, or one of four octets a character."""
    if value.tag == 0x0C:
        return sum(octet & 0xC0 != 0x80 for octet in value.contents)
    if value.tag == 0x1E:
        return len(value.contents) // 2
    return len(value.contents) if value.tag in (0x13, 0x14, 0x16) else None


def has_wrong_size(kind, value):
    count = characters(value)
    if count is None:
        return False
    if kind == b"\x55\x04\x06":
        return count != 2
    if kind == EMAIL_ADDRESS:
        return not 1 <= count <= 255
    return kind[:2] == b"\x55\x04" and len(kind) == 3 and kind[2] in MOST and not 1 <= count <= MOST[kind[2]]


def has_wrong_type(kind, value):
    if kind in (DOMAIN_COMPONENT, EMAIL_ADDRESS):
        return value.tag != 0x16
    if kind[:2] != b"\x55\x04" or len(kind) != 3:
        return False
    if kind[2] in (5, 6, 46):
        return value.tag != 0x13
    return kind[2] in MOST and value.tag not in DIRECTORY_STRING


def has_wrong_characters(kind, value):
    return value.tag == 0x13 and not PRINTABLE.match(value.contents)


def tell_texts(rules, *names):
    for rule, breaks in (("TextsHaveSizes", has_wrong_size), ("TextsHaveStringTypes", has_wrong_type), ("PrintableStringsHaveTheirCharacters", has_wrong_characters)):
        rules.tell(rule, any(breaks(*it) for name in names for it in texts(name)))


def is_late(encoding):
    """Whether a date through 2049 is a GeneralizedTime."""
    return encoding.tag == 0x18 and encoding.contents[:4] < b"2050"


def moment(encoding):
    digits = encoding.contents
    return digits if encoding.tag == 0x18 else (b"19" if digits[:2] >= b"50" else b"20") + digits


def has_parameters(algorithm):
    fields = algorithm.fields()
    return fields.take(6).contents in CURVES and not fields.is_empty()


def is_ca(held):
    value = unless_refused(lambda: held.first(BASIC_CONSTRAINTS), None)
    if value is None or value.tag != 0x30 or value.contents == b"":
        return False
    first = unless_refused(lambda: value.fields().next(), None)
    return first is not None and first.tag == BIT and first.contents == b"\xff"


def bits_in(value):
    """The bits of a BIT STRING that are set, also of one that DER forbids for its last zeros. Another value has none."""
    octets = value.contents if value.tag == 3 else b""
    return {8 * at + bit for at, octet in enumerate(octets[1:]) for bit in range(8) if octet >> 7 - bit & 1}


def usage_bits(held):
    value = unless_refused(lambda: held.first(KEY_USAGE), None)
    return set() if value is None else unless_refused(lambda: bits_in(value), set())


def key_identifier_is_there(held):
    return unless_refused(lambda: any(it.tag == 0x80 for it in held.first(AUTHORITY_KEY).has(0x30).fields().rest()) if held.has(AUTHORITY_KEY) else False, False)


def tell_authority(rules, held, is_own):
    rules.tell("AuthorityHasKeyIdentifier", not is_own and not key_identifier_is_there(held))

    def stands_alone():
        tags = {it.tag for value in held.each(AUTHORITY_KEY) for it in value.has(0x30).fields().rest()}
        return (0xA1 in tags) != (0x82 in tags)

    rules.tell("AuthorityIssuerHasSerialNumber", stands_alone)


def tell_ca(rules, held, subject_is_empty):
    ca, bits = is_ca(held), usage_bits(held)
    rules.tell("SubjectOfCaIsNotEmpty", ca and subject_is_empty)
    rules.tell("CaHasSubjectKeyIdentifier", ca and not held.has(SUBJECT_KEY))
    rules.tell("CaHasKeyUsage", ca and not held.has(KEY_USAGE))
    rules.tell("BasicConstraintsOfCaIsCritical", ca and held.is_not_critical(BASIC_CONSTRAINTS))
    rules.tell("KeyUsageHasABit", lambda: any(not bits_in(it) for it in held.each(KEY_USAGE)))
    rules.tell("KeyCertSignOnlyInCa", not ca and KEY_CERT_SIGN in bits)
    rules.tell("NameConstraintsOnlyInCa", not ca and held.has(NAME_CONSTRAINTS))

    def has_length():
        value = held.first(BASIC_CONSTRAINTS)
        return value is not None and any(it.tag == 2 for it in value.has(0x30).fields().rest())

    rules.tell("PathLengthOnlyInCa", lambda: has_length() and not (ca and KEY_CERT_SIGN in bits))


def tell_constraints(rules, held):
    def subtrees():
        return [it.fields().rest() for value in held.each(NAME_CONSTRAINTS) for side in value.has(0x30).fields().rest() for it in side.fields().rest()]

    rules.tell("NameConstraintsIsNotEmpty", lambda: any(it.contents == b"" for it in held.each(NAME_CONSTRAINTS)))
    # (DER has no minimum of 0, the default)
    rules.tell("NameConstraintsHasNoDistances", lambda: any(part.tag in (0x80, 0x81) for subtree in subtrees() for part in subtree[1:]))
    rules.tell("ConstrainedAddressesHave8Or32Octets", lambda: any(it[0].tag == 0x87 and len(it[0].contents) not in (8, 32) for it in subtrees()))


def tell_policies(rules, held):
    rules.tell("PolicyConstraintsIsNotEmpty", lambda: any(it.contents == b"" for it in held.each(POLICY_CONSTRAINTS)))

    def stand_twice():
        for value in held.each(CERTIFICATE_POLICIES):
            found = [it.fields().take(6).contents for it in value.has(0x30).fields().rest()]
            if len(set(found)) < len(found):
                return True
        return False

    rules.tell("PoliciesStandOnce", stand_twice)
    rules.tell("AnyPolicyIsNotMapped", lambda: any(
        part.contents == ANY_POLICY for value in held.each(POLICY_MAPPINGS) for it in value.has(0x30).fields().rest() for part in it.fields().rest()))


def tell_alternatives(rules, held):
    def names():
        return [it for kind in (SUBJECT_ALT_NAME, ISSUER_ALT_NAME) for value in held.each(kind) for it in value.has(0x30).fields().rest()]

    def breaks(tag, holds):
        return lambda: any(it.tag == tag and not holds(it.contents) for it in names())

    rules.tell("DnsNamesHaveSyntax", breaks(0x82, HOST.match))
    rules.tell("MailboxesHaveSyntax", breaks(0x81, lambda it: b"@" in it[1:-1]))
    rules.tell("UrisHaveSchemes", breaks(0x86, URI.match))
    rules.tell("AddressesHave4Or16Octets", breaks(0x87, lambda it: len(it) in (4, 16)))
    rules.tell("PointsHaveNames", lambda: any(
        not {0xA0, 0xA2} & {part.tag for part in point.fields().rest()} for value in held.each(POINTS) for point in value.has(0x30).fields().rest()))


CRITICAL = {"NameConstraintsIsCritical": NAME_CONSTRAINTS, "PolicyConstraintsIsCritical": POLICY_CONSTRAINTS, "InhibitAnyPolicyIsCritical": INHIBIT_ANY_POLICY}
NOT_CRITICAL = {
    "AuthorityKeyIdentifierIsNotCritical": AUTHORITY_KEY, "SubjectKeyIdentifierIsNotCritical": SUBJECT_KEY,
    "SubjectDirectoryAttributesIsNotCritical": DIRECTORY_ATTRIBUTES, "FreshestCrlIsNotCritical": FRESHEST,
    "AuthorityInfoAccessIsNotCritical": AUTHORITY_ACCESS, "SubjectInfoAccessIsNotCritical": SUBJECT_ACCESS,
}


def broken_by_certificate(octets):
    """The rules of sections 4.1 and 4.2 that a certificate breaks."""
    rules, outer = Rules(), message_of(octets).fields()
    signed, algorithm = outer.take(0x30), outer.take(0x30)
    fields = signed.fields()
    held = fields.option(0xA0)
    version = 1 + number(held.only(2)) if held else 1
    serial, inner, issuer, dates, subject, key = (fields.take(tag) for tag in (2, 0x30, 0x30, 0x30, 0x30, 0x30))
    has_identifier = any([fields.option(0x81) is not None, fields.option(0x82) is not None])
    last = fields.option(0xA3)
    held = Held(listed(last.only(0x30)) if last else [])
    rules.tell("AlgorithmsAgree", algorithm.whole != inner.whole)
    rules.tell("VersionIsKnown", version not in (1, 2, 3))
    rules.tell("ExtensionsInVersion3", last is not None and version != 3)
    rules.tell("UniqueIdentifiersInVersion2", has_identifier and version == 1)
    rules.tell("SerialNumberIsPositive", number(serial) <= 0)
    rules.tell("SerialNumberHasAtMost20Octets", len(serial.contents) > 20)
    rules.tell("IssuerIsNotEmpty", issuer.contents == b"")
    rules.tell("EmptySubjectHasCriticalAltName", subject.contents == b"" and not held.is_critical(SUBJECT_ALT_NAME))
    first, end = dates.fields().rest()
    rules.tell("ValidityIsNotEmpty", moment(end) < moment(first))
    rules.tell("DatesThrough2049AreUtcTimes", is_late(first) or is_late(end))
    rules.tell("CurvesHaveNoParameters", has_parameters(inner) or has_parameters(key.fields().take(0x30)))
    rules.tell("ExtensionsStandOnce", held.stands_twice())
    for name, kind in CRITICAL.items():
        rules.tell(name, held.is_not_critical(kind))
    for name, kind in NOT_CRITICAL.items():
        rules.tell(name, held.is_critical(kind))
    tell_texts(rules, issuer, subject)
    tell_authority(rules, held, issuer.whole == subject.whole)
    tell_ca(rules, held, subject.contents == b"")
    tell_constraints(rules, held)
    tell_policies(rules, held)
    tell_alternatives(rules, held)
    return rules.broken


def tell_entries(rules, entries, is_delta):
    """The rules of section 5.3."""
    for entry in entries:
        fields = entry.fields()
        fields.take(2)
        rules.tell("DatesThrough2049AreUtcTimes", is_late(fields.take(0x17, 0x18)))
        found = fields.option(0x30)
        held = Held(listed(found) if found else [])
        rules.tell("ReasonCodeIsNotCritical", held.is_critical(REASON))
        rules.tell("InvalidityDateIsNotCritical", held.is_critical(INVALIDITY))
        rules.tell("CertificateIssuerIsCritical", held.is_not_critical(ISSUER))
        rules.tell("EntryExtensionsStandOnce", held.stands_twice())
        rules.tell("RemoveFromCrlOnlyInDelta", lambda held=held: not is_delta and any(number(it) == REMOVE_FROM_CRL for it in held.each(REASON)))


LIST_NOT_CRITICAL = {"CrlNumberIsNotCritical": NUMBER, "FreshestCrlIsNotCritical": FRESHEST, "AuthorityInfoAccessIsNotCritical": AUTHORITY_ACCESS}
LIST_CRITICAL = {"DeltaCrlIndicatorIsCritical": DELTA, "IssuingDistributionPointIsCritical": ISSUING_POINT}


def broken_by_list(octets):
    """The rules of sections 5.1 to 5.3 that a list breaks."""
    rules, outer = Rules(), message_of(octets).fields()
    signed, algorithm = outer.take(0x30), outer.take(0x30)
    fields = signed.fields()
    version = fields.option(2)
    inner, issuer, this_update = fields.take(0x30), fields.take(0x30), fields.take(0x17, 0x18)
    next_update, entries, last = fields.option(0x17, 0x18), fields.option(0x30), fields.option(0xA0)
    rows = entries.fields().rest(0x30) if entries else []
    held = Held(listed(last.only(0x30)) if last else [])
    has_extensions = last is not None or any(len(it.fields().rest()) > 2 for it in rows)
    rules.tell("AlgorithmsAgree", algorithm.whole != inner.whole)
    rules.tell("VersionIs2", version is not None and number(version) != 1)
    rules.tell("ExtensionsInVersion2", has_extensions and (version is None or number(version) != 1))
    rules.tell("IssuerIsNotEmpty", issuer.contents == b"")
    rules.tell("NextUpdateIsThere", next_update is None)
    rules.tell("DatesThrough2049AreUtcTimes", is_late(this_update) or (next_update is not None and is_late(next_update)))
    rules.tell("EmptyListIsAbsent", entries is not None and not rows)
    rules.tell("ExtensionsStandOnce", held.stands_twice())
    rules.tell("AuthorityHasKeyIdentifier", not key_identifier_is_there(held))
    rules.tell("CrlNumberIsThere", not held.has(NUMBER))
    rules.tell("CrlNumberHasAtMost20Octets", lambda: any(number(it.has(2)) < 0 or len(it.contents) > 20 for it in held.each(NUMBER)))
    for name, kind in LIST_CRITICAL.items():
        rules.tell(name, held.is_not_critical(kind))
    for name, kind in LIST_NOT_CRITICAL.items():
        rules.tell(name, held.is_critical(kind))
    scopes = held.each(ISSUING_POINT)
    rules.tell("IssuingDistributionPointIsNotEmpty", any(it.contents == b"" for it in scopes))
    rules.tell("IssuingDistributionPointHasOneKind", lambda: any(
        len({part.tag for part in it.has(0x30).fields().rest() if part.contents != b"\0"} & {0x81, 0x82, 0x85}) > 1 for it in scopes))
    tell_entries(rules, rows, held.has(DELTA))
    return rules.broken
