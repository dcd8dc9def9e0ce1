"""Certificates and lists that each break one rule of RFC 5280 that looks into fields and values, and some that break none. Their
keys and signatures are not right."""

from .chain_parts import (IA5, PRINTABLE, UTF8, alternative_names, attribute, extension, general_name, key_usage, mappings, name, name_constraints,
                          policies, policy_constraints, subtree)
from .octets import integer, sequence, tlv
from .path_certificate import AUTHORITY_KEY, BASIC_CONSTRAINTS, KEY_USAGE, NAME_CONSTRAINTS, POLICY_CONSTRAINTS, SUBJECT_ALT_NAME, SUBJECT_KEY

CRL_NUMBER, POINTS, ISSUING_POINT, REASON, INVALIDITY = (bytes([0x55, 0x1D, last]) for last in (20, 31, 28, 21, 24))
ANY_POLICY, POLICY = bytes.fromhex("551d2000"), bytes.fromhex("2a0304")
ED25519 = tlv(6, bytes.fromhex("2b6570"))
KEY = bytes(range(32))
MILL, LOOM = name(("CN", "mill")), name(("CN", "loom"))
EARLY, LATE = tlv(0x17, b"491231235959Z"), tlv(0x18, b"20500101000000Z")
CA = extension(BASIC_CONSTRAINTS, sequence(tlv(1, b"\xff")), True)
SIGNS = key_usage(5, 6)
SUBJECT = extension(SUBJECT_KEY, tlv(4, b"mill"))
OWN = extension(AUTHORITY_KEY, sequence(tlv(0x80, b"mill")))
NUMBER = extension(CRL_NUMBER, integer(7))
HOST = general_name("host", b"mill.example")


def certificate(*more, without=(), version=2, dates=(EARLY, LATE), issuer=MILL, subject=MILL, key=sequence(ED25519), inner=sequence(ED25519)):
    """A self-issued certificate of a CA that breaks no rule, but for the changes."""
    extensions = [it for it in (CA, SIGNS, SUBJECT) if it not in without]
    last = [tlv(0xA3, sequence(*extensions, *more))] if extensions or more else []
    signed = sequence(tlv(0xA0, integer(version)), integer(1), inner, issuer, sequence(*dates), subject, sequence(key, tlv(3, b"\0", KEY)), *last)
    return sequence(signed, inner, tlv(3, bytes(65)))


def revocation(*more, without=(), version=1, dates=(EARLY, LATE), revoked=EARLY, entries=()):
    """A list that breaks no rule, but for the changes. An entry is its extensions."""
    extensions = [it for it in (OWN, NUMBER) if it not in without]
    rows = [sequence(integer(at + 1), revoked, sequence(*it)) for at, it in enumerate(entries)]
    signed = sequence(integer(version), sequence(ED25519), MILL, *dates, *([sequence(*rows)] if rows else []), tlv(0xA0, sequence(*extensions, *more)))
    return sequence(signed, sequence(ED25519), tlv(3, bytes(65)))


def of(kind, text, tag=UTF8):
    """Names of one attribute, given to a certificate as its issuer and its subject."""
    return {"issuer": name((kind, text, tag)), "subject": name((kind, text, tag))}


def constraints(*subtrees):
    return name_constraints(permitted=subtrees)


def alternative(kind, held):
    return certificate(alternative_names(general_name(kind, held)))


def points(*given):
    """cRLDistributionPoints: each point is its fields."""
    return extension(POINTS, sequence(*(sequence(*fields) for fields in given)))


def issuing_point(*fields):
    return extension(ISSUING_POINT, sequence(*fields), True)


LEAF = (CA, SIGNS)
REMOVED, AGAIN = (extension(REASON, tlv(10, bytes([number]))) for number in (8, 1))
CERTIFICATES = [
    ("VersionIsKnown", certificate(version=5, without=(CA, SIGNS, SUBJECT))),
    ("ValidityIsNotEmpty", certificate(dates=(LATE, EARLY))),
    ("DatesThrough2049AreUtcTimes", certificate(dates=(tlv(0x18, b"20491231235959Z"), LATE))),
    ("DatesThrough2049AreUtcTimes", certificate(dates=(EARLY, tlv(0x18, b"20491231235959Z")))),
    ("SubjectOfCaIsNotEmpty", certificate(OWN, extension(SUBJECT_ALT_NAME, sequence(HOST), True), subject=sequence())),
    ("TextsHaveSizes", certificate(**of("CN", "m" * 65))),
    ("TextsHaveSizes", certificate(**of("C", "SEE", PRINTABLE))),
    ("TextsHaveStringTypes", certificate(**of("C", "SE"))),
    ("TextsHaveStringTypes", certificate(**of("CN", "mill", IA5))),
    ("TextsHaveStringTypes", certificate(**of("DC", "mill", PRINTABLE))),
    ("PrintableStringsHaveTheirCharacters", certificate(**of("CN", "mill@example", PRINTABLE))),
    ("CurvesHaveNoParameters", certificate(inner=sequence(ED25519, tlv(5)))),
    ("CurvesHaveNoParameters", certificate(key=sequence(ED25519, tlv(5)))),
    ("CaHasSubjectKeyIdentifier", certificate(without=(SUBJECT,))),
    ("AuthorityHasKeyIdentifier", certificate(subject=LOOM)),
    ("AuthorityIssuerHasSerialNumber", certificate(extension(AUTHORITY_KEY, sequence(tlv(0xA1, HOST))))),
    ("AuthorityIssuerHasSerialNumber", certificate(extension(AUTHORITY_KEY, sequence(tlv(0x82, b"\1"))))),
    ("CaHasKeyUsage", certificate(without=(SIGNS,))),
    ("KeyUsageHasABit", certificate(extension(KEY_USAGE, tlv(3, b"\0"), True), without=(SIGNS, CA))),
    ("KeyCertSignOnlyInCa", certificate(without=(CA,))),
    ("PathLengthOnlyInCa", certificate(extension(BASIC_CONSTRAINTS, sequence(integer(0))), without=LEAF)),
    ("PathLengthOnlyInCa", certificate(extension(BASIC_CONSTRAINTS, sequence(tlv(1, b"\xff"), integer(0)), True), key_usage(6), without=LEAF)),
    ("NameConstraintsOnlyInCa", certificate(constraints(subtree(HOST)), without=LEAF)),
    ("NameConstraintsIsNotEmpty", certificate(extension(NAME_CONSTRAINTS, sequence(), True))),
    ("NameConstraintsHasNoDistances", certificate(constraints(subtree(HOST, minimum=1)))),
    ("NameConstraintsHasNoDistances", certificate(constraints(subtree(HOST), subtree(HOST, maximum=1)))),
    ("ConstrainedAddressesHave8Or32Octets", certificate(constraints(subtree(general_name("address", bytes(4)))))),
    ("PolicyConstraintsIsNotEmpty", certificate(policy_constraints())),
    ("PoliciesStandOnce", certificate(policies(POLICY, ANY_POLICY, POLICY))),
    ("AnyPolicyIsNotMapped", certificate(mappings((POLICY, ANY_POLICY)))),
    ("AnyPolicyIsNotMapped", certificate(mappings((POLICY, POLICY), (ANY_POLICY, POLICY)))),
    ("DnsNamesHaveSyntax", alternative("host", b" ")),
    ("DnsNamesHaveSyntax", alternative("host", b"")),
    ("DnsNamesHaveSyntax", alternative("host", b"mill-.example")),
    ("DnsNamesHaveSyntax", certificate(extension(bytes.fromhex("551d12"), sequence(HOST, general_name("host", b"m" * 64))))),
    ("MailboxesHaveSyntax", alternative("mail", b"mill.example")),
    ("MailboxesHaveSyntax", alternative("mail", b"@example")),
    ("UrisHaveSchemes", alternative("uri", b"//mill.example/a")),
    ("UrisHaveSchemes", alternative("uri", b"mailto:")),
    ("AddressesHave4Or16Octets", alternative("address", bytes(5))),
    ("PointsHaveNames", certificate(points([tlv(0x81, b"\1\2")]))),
]
LISTS = [
    ("DatesThrough2049AreUtcTimes", revocation(dates=(tlv(0x18, b"20491231235959Z"), LATE))),
    ("DatesThrough2049AreUtcTimes", revocation(dates=(EARLY, tlv(0x18, b"20491231235959Z")))),
    ("DatesThrough2049AreUtcTimes", revocation(revoked=tlv(0x18, b"20491231235959Z"), entries=([AGAIN],))),
    ("AuthorityHasKeyIdentifier", revocation(extension(AUTHORITY_KEY, sequence()), without=(OWN,))),
    ("CrlNumberIsThere", revocation(without=(NUMBER,))),
    ("CrlNumberHasAtMost20Octets", revocation(extension(CRL_NUMBER, integer(-1)), without=(NUMBER,))),
    ("CrlNumberHasAtMost20Octets", revocation(extension(CRL_NUMBER, integer(1 << 160)), without=(NUMBER,))),
    ("IssuingDistributionPointIsNotEmpty", revocation(issuing_point())),
    ("IssuingDistributionPointHasOneKind", revocation(issuing_point(tlv(0x81, b"\xff"), tlv(0x85, b"\xff")))),
    ("EntryExtensionsStandOnce", revocation(entries=([AGAIN], [AGAIN, AGAIN]))),
    ("RemoveFromCrlOnlyInDelta", revocation(entries=([REMOVED],))),
]
GOOD = [
    certificate(),
    certificate(OWN, constraints(subtree(HOST), subtree(general_name("address", bytes(8)))), policies(POLICY, ANY_POLICY), subject=LOOM),
    certificate(points([tlv(0xA0, tlv(0xA0, HOST)), tlv(0x81, b"\1\2")], [tlv(0xA2, HOST)])),
    certificate(OWN, alternative_names(general_name("host", b"*.mill.example"), general_name("mail", b"a@b"), general_name("uri", b"a:b"),
                                       general_name("address", bytes(16))), issuer=name(("C", "SE", PRINTABLE), ("CN", "'mill' (1+2), a-b./c:=?", PRINTABLE))),
]
GOOD_LISTS = [
    revocation(issuing_point(tlv(0x81, b"\xff"))),
    revocation(revoked=LATE, entries=([AGAIN],)),
    revocation(extension(bytes.fromhex("551d1b"), integer(6), True), entries=([REMOVED],)),
]
