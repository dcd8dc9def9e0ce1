"""Extensions that are built by hand, each with the items that JSON has of its value."""

from .hand_made import extension, name, of_ce
from .octets import tlv

PKIX, MICROSOFT = bytes.fromhex("2b06010505070100"), bytes.fromhex("2b0601040182370000")
LOGS, NETSCAPE = bytes.fromhex("2b06010401d679020400"), bytes.fromhex("6086480186f8420100")
CPS, NOTICE = bytes.fromhex("2b06010505070201"), bytes.fromhex("2b06010505070202")
OCSP, SERVER, CLIENT = (bytes.fromhex(f"2b060105050{last}") for last in ("73001", "70301", "70302"))
COMMON_NAME = tlv(0x30, b"\x06\x03\x55\x04\x03", tlv(0x0C, b"A"))
POINT = {"kind": "uniformResourceIdentifier", "value": "http://a"}


def below(root, last):
    return root[:-1] + bytes([last])


def of_id(octets):
    return tlv(0x06, octets)


def names():
    """A name of each kind."""
    value = tlv(
        0x30, tlv(0xA0, of_id(b"\x2a\x03"), tlv(0xA0, tlv(0x0C, b"one and two"))), tlv(0x81, b"a@b"), tlv(0x82, b"x with y"),
        tlv(0xA3, tlv(0x30)), tlv(0xA4, name(b"A", b"B")), tlv(0xA5, tlv(0xA1, tlv(0x0C, b"p"))), tlv(0x86, b"http://a"),
        tlv(0x87, b"\x0a\x00\x00\x01"), tlv(0x88, b"\x2a\x03"), tlv(0x88, CPS),
    )
    found = (
        ("rfc822Name", "a@b"), ("dNSName", "x\\ with y"), ("x400Address", "a3023000"), ("directoryName", "CN=A, CN=B"),
        ("ediPartyName", "a505a1030c0170"), ("uniformResourceIdentifier", "http://a"), ("iPAddress", "10.0.0.1"),
        ("registeredID", "1.2.3"),
    )
    other = {"kind": "otherName", "typeId": {"id": "1.2.3"}, "value": "one\\ and two"}
    registered = {"kind": "registeredID", "value": "1.3.6.1.5.5.7.2.1", "name": "cps"}
    return of_ce(17, value), {"names": [other, *({"kind": kind, "value": text} for kind, text in found), registered]}


def keys():
    """Identifiers of keys, and what keys may be used for."""
    yield of_ce(14, tlv(0x04, b"\x01\xff")), {"keyIdentifier": "01:ff"}
    yield of_ce(35, tlv(0x30, tlv(0x80, b"\x02"), tlv(0xA1, tlv(0x82, b"i")), tlv(0x82, b"\x00\x80"))), {
        "keyIdentifier": "02", "authorityCertIssuer": [{"kind": "dNSName", "value": "i"}], "authorityCertSerialNumber": "80",
    }
    yield of_ce(35, tlv(0x30)), {}
    yield of_ce(15, bytes.fromhex("0303068040"), True), {"usages": ["digitalSignature", "bit 9"]}
    yield of_ce(37, tlv(0x30, of_id(SERVER), of_id(b"\x2a\x03"))), {
        "purposes": [{"id": "1.3.6.1.5.5.7.3.1", "name": "serverAuth"}, {"id": "1.2.3"}],
    }
    times = tlv(0x80, b"20260102030405Z"), tlv(0x81, b"20270102030405Z")
    yield of_ce(16, tlv(0x30, *times)), {"notBefore": "2026-01-02 03:04:05 UTC", "notAfter": "2027-01-02 03:04:05 UTC"}


def constraints():
    """What constrains the certificates below."""
    yield of_ce(19, bytes.fromhex("30060101ff020100"), True), {"cA": True, "pathLenConstraint": "0"}
    yield of_ce(19, b"\x30\x00"), {"cA": False}
    subtrees = tlv(0xA0, tlv(0x30, tlv(0x82, b"x to 9"), b"\x80\x01\x02\x81\x01\x63")), tlv(0xA1, tlv(0x30, tlv(0x81, b"y")))
    yield of_ce(30, tlv(0x30, *subtrees)), {
        "permittedSubtrees": [{"base": {"kind": "dNSName", "value": "x\\ to 9"}, "minimum": "2", "maximum": "99"}],
        "excludedSubtrees": [{"base": {"kind": "rfc822Name", "value": "y"}}],
    }
    yield of_ce(36, bytes.fromhex("3006800100810101")), {"requireExplicitPolicy": "0", "inhibitPolicyMapping": "1"}
    yield of_ce(54, b"\x02\x01\x03"), {"number": "3"}
    yield of_ce(20, b"\x02\x02\x01\x00"), {"number": "256"}


def policies():
    """One qualifier, or two whose text is as that of one."""
    ways = tlv(0x30, tlv(0x30, of_id(CPS), tlv(0x16, b"http://a")), tlv(0x30, of_id(CPS), tlv(0x16, b"b")))
    notice = tlv(0x30, tlv(0x30, of_id(NOTICE), tlv(0x30, tlv(0x30, tlv(0x0C, b"o"), tlv(0x30)), tlv(0x0C, b"read"))))
    cps, unotice = {"id": "1.3.6.1.5.5.7.2.1", "name": "cps"}, {"id": "1.3.6.1.5.5.7.2.2", "name": "unotice"}
    held = tlv(0x30, of_id(b"\x2a\x03"), ways), tlv(0x30, of_id(b"\x2a\x04"), notice), tlv(0x30, of_id(b"\x2a\x05"))
    yield of_ce(32, tlv(0x30, *held)), {"policies": [
        {"policyIdentifier": {"id": "1.2.3"}, "policyQualifiers": [
            {"policyQualifierId": cps, "qualifier": ["http://a"]}, {"policyQualifierId": cps, "qualifier": ["b"]},
        ]},
        {"policyIdentifier": {"id": "1.2.4"}, "policyQualifiers": [
            {"policyQualifierId": unotice, "qualifier": ["#30050c016f3000", "read"]},
        ]},
        {"policyIdentifier": {"id": "1.2.5"}},
    ]}
    yield of_ce(33, tlv(0x30, tlv(0x30, of_id(b"\x2a\x03"), of_id(b"\x2a\x04")))), {
        "mappings": [{"issuerDomainPolicy": {"id": "1.2.3"}, "subjectDomainPolicy": {"id": "1.2.4"}}],
    }


def places():
    """Where lists and other things are."""
    full, issuer = tlv(0xA0, tlv(0xA0, tlv(0x86, b"http://a"))), {"kind": "dNSName", "value": "i"}
    first = tlv(0x30, full, b"\x81\x02\x06\x40", tlv(0xA2, tlv(0x82, b"i")))
    yield of_ce(31, tlv(0x30, first, tlv(0x30, tlv(0xA0, tlv(0xA1, COMMON_NAME))), tlv(0x30))), {"points": [
        {"fullName": [POINT], "reasons": ["keyCompromise"], "cRLIssuer": [issuer]}, {"nameRelativeToCRLIssuer": "CN=A"}, {},
    ]}
    yield of_ce(28, tlv(0x30, full, b"\x81\x01\xff\x83\x02\x06\x40\x84\x01\xff"), True), {
        "fullName": [POINT], "onlyContainsUserCerts": True, "onlyContainsCACerts": False, "onlySomeReasons": ["keyCompromise"],
        "indirectCRL": True, "onlyContainsAttributeCerts": False,
    }
    held = tlv(0x30, of_id(OCSP), tlv(0x86, b"http://a")), tlv(0x30, of_id(b"\x2a\x03"), tlv(0x82, b"i"))
    yield extension(below(PKIX, 1), tlv(0x30, *held)), {"descriptions": [
        {"accessMethod": {"id": "1.3.6.1.5.5.7.48.1", "name": "ocsp"}, "accessLocation": POINT},
        {"accessMethod": {"id": "1.2.3"}, "accessLocation": issuer},
    ]}


def others():
    """Attributes, timestamps, values whose tags tell their types, and an extension that is not known."""
    country = tlv(0x30, of_id(b"\x55\x04\x06"), tlv(0x31, tlv(0x13, b"NO"), tlv(0x13, b"SE")))
    yield of_ce(9, tlv(0x30, country)), {"attributes": [{"type": "C", "values": ["NO", "SE"]}]}
    first = b"\x00" + bytes(32) + (1500).to_bytes(8, "big") + b"\x00\x01\xab" + b"\x04\x03\x00\x02hi"
    stamps = b"".join(len(it).to_bytes(2, "big") + it for it in (first, b"\x07\xcd"))
    value = tlv(0x04, len(stamps).to_bytes(2, "big") + stamps)
    log = ":".join(["00"] * 32)
    yield extension(below(LOGS, 2), value), {"timestamps": [
        {"version": "v1", "log": log, "time": "1970-01-01 00:00:01.500 UTC", "signatureAlgorithm": "sha256-ecdsa",
         "signature": "2 octets", "extensions": "ab"},
        {"version": "7", "octets": "cd"},
    ]}
    yield extension(below(PKIX, 24), b"\x30\x06\x02\x01\x05\x02\x01\x11"), {"values": ["5", "17"]}
    yield extension(below(NETSCAPE, 1), b"\x03\x02\x05\xa0"), {"types": ["sslClient", "smime"]}
    yield extension(below(NETSCAPE, 13), b"\x16\x02hi"), {"values": ["hi"]}
    yield extension(MICROSOFT[:-2] + b"\x15\x01", b"\x02\x03\x02\x00\x03"), {"version": "V3.2"}
    yield extension(b"\x2a\x03", b"\x05\x00", True), {"octets": "0500"}
    yield of_ce(19, b"\x31\x00", True), {}


def rows():
    """Extensions, and what their values hold."""
    yield names()
    for each in (keys, constraints, policies, places, others):
        yield from each()


def entry():
    """A revoked certificate with three extensions, and what JSON has of these."""
    held = of_ce(21, b"\x0a\x01\x01"), of_ce(24, tlv(0x18, b"20260102030405Z")), of_ce(23, of_id(bytes.fromhex("2a8648ce380202")))
    instruction = {"id": "1.2.840.10040.2.2", "name": "holdInstructionCallIssuer"}
    found = (
        (21, "cRLReasons", {"reason": "keyCompromise"}), (24, "invalidityDate", {"time": "2026-01-02 03:04:05 UTC"}),
        (23, "holdInstructionCode", {"instruction": instruction}),
    )
    wanted = [{"extnID": {"id": f"2.5.29.{last}", "name": name}, "critical": False, "extnValue": it} for last, name, it in found]
    octets = tlv(0x30, tlv(0x30, b"\x02\x01\x05", b"\x17\x0d260102030405Z", tlv(0x30, *held)))
    return octets, wanted
