"""Certificates and lists of revoked certificates that break one of the first rules of RFC 5280 each; `WORDS` has what is said
of the rules after these, whose messages `rule_rows` makes.

A row has the section, what certview --check says is wrong, the message, and the field of it that is named: nothing for one that
is absent.
"""

from . import hand_made
from .hand_made import FIRST, ISSUER, OUTER, OTHER, extension, name, of_ce
from .octets import tlv

ACCESS = b"\x2b\x06\x01\x05\x05\x07\x01"
POINTS = b"\x30\x0a\x30\x08\xa0\x06\xa0\x04\x86\x02a:"
WAYS = b"\x30\x11\x30\x0f\x06\x08\x2b\x06\x01\x05\x05\x07\x30\x01\x86\x03a:b"
KEY, OWN, NUMBER = of_ce(14, b"\x04\x01a"), of_ce(35, b"\x30\x03\x80\x01a"), of_ce(20, b"\x02\x01\x07")
CA, SIGNS = of_ce(19, b"\x30\x03\x01\x01\xff", True), of_ce(15, b"\x03\x02\x02\x04", True)


def certificate(subject=ISSUER, **given):
    """A self-issued certificate."""
    return hand_made.certificate(subject=subject, **given)


def revocation(more=(), **given):
    """A list with the extensions that each has."""
    others = [it for it in (OWN, NUMBER) if it[2:7] not in [one[2:7] for one in more]]
    return hand_made.revocation(more=[*more, *others], **given)


def entries(*extensions):
    """A list of one entry with these extensions."""
    return tlv(0x30, tlv(0x30, b"\x02\x01\x07", FIRST, tlv(0x30, *extensions)))


def with_one(make, section, words, given, *others):
    """The row of a message that has one extension which breaks a rule, and others."""
    message, _ = make(more=[given, *others])
    return section, words, message, given


def certificates():
    bad = [(35, b"\x30\x00", "4.2.1.1", "authorityKeyIdentifier"), (14, b"\x04\x01a", "4.2.1.2", "subjectKeyIdentifier")]
    bad += [(9, b"\x30\x0c\x30\x0a\x06\x03\x55\x04\x03\x31\x03\x0c\x01a", "4.2.1.8", "subjectDirectoryAttributes")]
    bad += [(46, POINTS, "4.2.1.15", "freshestCRL")]
    rows = [with_one(certificate, section, f"{field} is critical", of_ce(last, value, True)) for last, value, section, field in bad]
    for last, section, field in ((1, "4.2.2.1", "authorityInfoAccess"), (11, "4.2.2.2", "subjectInfoAccess")):
        rows.append(with_one(certificate, section, f"{field} is critical", extension(ACCESS + bytes([last]), WAYS, True)))
    of_ca = [CA, SIGNS, KEY]
    rows.append(with_one(certificate, "4.2.1.9", "basicConstraints is not critical", of_ce(19, b"\x30\x03\x01\x01\xff"), SIGNS, KEY))
    names = of_ce(30, b"\x30\x08\xa0\x06\x30\x04\x82\x02ab")
    rows.append(with_one(certificate, "4.2.1.10", "nameConstraints is not critical", names, *of_ca))
    bad = [(54, b"\x02\x01\x00", "4.2.1.14", "inhibitAnyPolicy"), (36, b"\x30\x03\x80\x01\x00", "4.2.1.11", "policyConstraints")]
    rows += [with_one(certificate, section, f"{field} is not critical", of_ce(last, value)) for last, value, section, field in bad]
    message, extensions = certificate(version=b"\xa0\x03\x02\x01\x01", more=[OTHER])
    rows.append(("4.1.2.1", "extensions stand in a version other than 3", message, extensions))
    message, extensions = certificate(more=[OTHER, OTHER])
    rows.append(("4.2", "extensions have one twice", message, extensions))
    long = b"\x02\x15\x01" + bytes(20)
    rows += [
        ("4.1.1.2", "signatureAlgorithm is not the algorithm of signature", certificate(outer=OUTER)[0], OUTER),
        ("4.1.2.2", "serialNumber is not positive", certificate(serial=b"\x02\x01\x85")[0], b"\x02\x01\x85"),
        ("4.1.2.2", "serialNumber has more than 20 octets", certificate(serial=long)[0], long),
        ("4.1.2.4", "issuer is empty", certificate(issuer=name(), more=[OWN])[0], name()),
        ("4.1.2.6", "subject is empty, and no subjectAltName is critical", certificate(subject=name(), more=[OTHER, OWN])[0], name()),
        ("4.1.2.8", "version is 1, and a unique identifier is there", certificate(version=b"", unique=b"\x81\x02\x00a")[0], b""),
    ]
    return rows


def lists():
    bad = [(20, b"\x02\x01\x07", "5.2.3", "cRLNumber"), (46, POINTS, "5.2.6", "freshestCRL")]
    rows = [with_one(revocation, section, f"{field} is critical", of_ce(last, value, True)) for last, value, section, field in bad]
    rows.append(with_one(revocation, "5.2.7", "authorityInfoAccess is critical", extension(ACCESS + b"\x01", WAYS, True)))
    bad = [(27, b"\x02\x01\x07", "5.2.4", "deltaCRLIndicator"), (28, b"\x30\x03\x81\x01\xff", "5.2.5", "issuingDistributionPoint")]
    rows += [with_one(revocation, section, f"{field} is not critical", of_ce(last, value)) for last, value, section, field in bad]
    message, extensions = revocation(more=[NUMBER, NUMBER])
    rows.append(("5.2", "crlExtensions have one twice", message, extensions))
    rows += [
        ("5.1.1.2", "signatureAlgorithm is not the algorithm of signature", revocation(outer=OUTER)[0], OUTER),
        ("5.1.2.1", "version is not 2, and there are extensions", revocation(version=b"")[0], b""),
        ("5.1.2.3", "issuer is empty", revocation(issuer=name())[0], name()),
        ("5.1.2.5", "nextUpdate is absent", revocation(then=b"")[0], b""),
        ("5.1.2.6", "revokedCertificates has no entry", revocation(entries=b"\x30\x00")[0], b"\x30\x00"),
    ]
    bad = [("5.3.1", "a critical reasonCode", of_ce(21, b"\x0a\x01\x01", True))]
    bad += [("5.3.2", "a critical invalidityDate", of_ce(24, b"\x18\x0f20260102030405Z", True))]
    bad += [("5.3.3", "a certificateIssuer that is not critical", of_ce(29, b"\x30\x04\x82\x02ab"))]
    for section, words, given in bad:
        inner = entries(given)
        rows.append((section, f"revokedCertificates has {words}", revocation(entries=inner)[0], inner))
    return rows


def line(section, words, message, field):
    """What certview says of a row."""
    place = f"{message.rindex(field):5} {len(field):5}  " if field else " " * 13
    return f"{place}breaks: RFC 5280 section {section}, {words}\n".encode()


WORDS = {
    "VersionIsKnown": "version is neither 1, 2 nor 3",
    "ValidityIsNotEmpty": "validity ends before it begins",
    "SubjectOfCaIsNotEmpty": "subject of a CA is empty",
    "TextsHaveSizes": "tbsCertificate has a name with a text that is too long or too short",
    "TextsHaveStringTypes": "tbsCertificate has a name with a text in another string type",
    "PrintableStringsHaveTheirCharacters": "tbsCertificate has a name with a PrintableString of other characters",
    "CurvesHaveNoParameters": "tbsCertificate has parameters of an algorithm of RFC 8410",
    "CaHasSubjectKeyIdentifier": "subjectKeyIdentifier of a CA is absent",
    "AuthorityHasKeyIdentifier": "authorityKeyIdentifier has no keyIdentifier",
    "AuthorityIssuerHasSerialNumber": "authorityKeyIdentifier has an issuer or a serial number alone",
    "CaHasKeyUsage": "keyUsage of a CA is absent",
    "KeyUsageHasABit": "keyUsage has no bit that is set",
    "KeyCertSignOnlyInCa": "keyUsage has keyCertSign, and cA is not TRUE",
    "PathLengthOnlyInCa": "basicConstraints has pathLenConstraint without cA and keyCertSign",
    "NameConstraintsOnlyInCa": "nameConstraints is there, and cA is not TRUE",
    "NameConstraintsIsNotEmpty": "nameConstraints is empty",
    "NameConstraintsHasNoDistances": "nameConstraints has a minimum or a maximum",
    "ConstrainedAddressesHave8Or32Octets": "nameConstraints has an iPAddress of neither 8 nor 32 octets",
    "PolicyConstraintsIsNotEmpty": "policyConstraints is empty",
    "PoliciesStandOnce": "certificatePolicies has a policy twice",
    "AnyPolicyIsNotMapped": "policyMappings maps anyPolicy",
    "DnsNamesHaveSyntax": "extensions have a dNSName that is no name of a host",
    "MailboxesHaveSyntax": "extensions have an rfc822Name that is no mailbox",
    "UrisHaveSchemes": "extensions have a URI with no scheme, or nothing after it",
    "AddressesHave4Or16Octets": "extensions have an iPAddress of neither 4 nor 16 octets",
    "PointsHaveNames": "cRLDistributionPoints has a point with no distributionPoint and no cRLIssuer",
    "CrlNumberIsThere": "cRLNumber is absent",
    "CrlNumberHasAtMost20Octets": "cRLNumber is negative or has more than 20 octets",
    "IssuingDistributionPointIsNotEmpty": "issuingDistributionPoint is empty",
    "IssuingDistributionPointHasOneKind": "issuingDistributionPoint has two kinds of certificates",
    "EntryExtensionsStandOnce": "revokedCertificates has an entry with an extension twice",
    "RemoveFromCrlOnlyInDelta": "revokedCertificates has removeFromCRL, and the list is no delta list",
    "DatesThrough2049AreUtcTimes": "has a date through 2049 as a GeneralizedTime",
}
