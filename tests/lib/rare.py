"""Messages built by hand that have what is rare, or what cannot be read, in a message of CMS, a status answer, a PKCS #12 file or
an encrypted key. A row has the octets, or a block of PEM text, and the lines that are shown of such parts; the value of a line
that begins with `malformed (4` goes on with the words and the place of the fault."""

import base64

from .hand_made import KEY, algorithm
from .octets import tlv

DATA = bytes.fromhex("2a864886f70d0107")
PKCS12 = bytes.fromhex("2a864886f70d010c0a01")
NULL = b"\x05\x00"


def identifier(octets):
    return tlv(0x06, octets)


def content(kind, value):
    """A ContentInfo."""
    return tlv(0x30, identifier(kind), tlv(0xA0, value))


def row(octets, *lines):
    """The lines of a message, of which each part is given as the octets where it stands, its label and its value."""
    return octets, [f"{octets.index(part):5} {len(part):5}  {label}: {value}" for part, label, value in lines]


def contents():
    """The contents of RFC 5652 of which none can be read."""
    kinds = {2: "signed data", 3: "enveloped data", 5: "digested data", 6: "encrypted data"}
    rows = [(DATA + bytes([last]), label) for last, label in kinds.items()]
    rows.append((bytes.fromhex("2a864886f70d0109100102"), "authenticated data"))
    return [row(content(kind, NULL), (NULL, label, "malformed (4")) for kind, label in rows]


def signed(held=b"", certificates=b"", lists=b"", kind=DATA + b"\x01"):
    """Signed data with no signers."""
    inner = tlv(0x30, identifier(kind), tlv(0xA0, tlv(0x04, held)) if held else b"")
    return content(DATA + b"\x02", tlv(0x30, b"\x02\x01\x05", tlv(0x31), inner, certificates, lists, tlv(0x31)))


def carried():
    """What a signed message may carry besides certificates and lists of RFC 5280."""
    extended, first, second = (tlv(tag, b"\x02\x01" + bytes([tag])) for tag in (0xA0, 0xA1, 0xA2))
    other, revoked = tlv(0xA3, b"\x06\x01\x2b", NULL), tlv(0xA1, b"\x06\x01\x2a", NULL)
    set_of, lists = tlv(0xA0, extended, first, second, other), tlv(0xA1, revoked)
    shown = (
        (extended, "extended certificate", "3 octets"),
        (first, "attribute certificate of version 1", "3 octets"),
        (second, "attribute certificate", "3 octets"),
        (other, "certificate of another format", "1.3"),
        (revoked, "list of another format", "1.2"),
    )
    stamp = signed(NULL, kind=bytes.fromhex("2a864886f70d0109100104"))
    return [row(signed(b"text", set_of, lists), *shown), row(stamp, (NULL, "time stamp", "malformed (4"))]


def of_other_content():
    """Signed data of PKCS #7, whose content is a value of any type; one with a signer that cannot be read."""
    kind, value = identifier(bytes.fromhex("2b060104018237020104")), tlv(0x30, b"\x02\x01\x05")
    other = tlv(0xA3, b"\x06\x01\x2b", NULL)
    digest = tlv(0x30, identifier(bytes.fromhex("608648016503040201")))
    inner = tlv(0x30, kind, tlv(0xA0, value))
    whole = content(DATA + b"\x02", tlv(0x30, b"\x02\x01\x01", tlv(0x31, digest), inner, tlv(0xA0, other), tlv(0xA1), tlv(0x31)))
    shown = (
        (b"\x02\x01\x01", "version", "1"),
        (digest, "digest algorithm", "2.16.840.1.101.3.4.2.1 (sha256)"),
        (kind, "content type", "1.3.6.1.4.1.311.2.1.4"),
        (value, "content", "3 octets"),
        (other, "certificate of another format", "1.3"),
    )
    held = tlv(0x30, b"\x02\x01\x01", tlv(0x31), inner, tlv(0x31, NULL))
    absent = tlv(0x30, b"\x02\x01\x01", tlv(0x31), tlv(0x30, kind), tlv(0x31, NULL))
    wrong = [row(content(DATA + b"\x02", it), (it, "signed data", "malformed (4")) for it in (held, absent)]
    return [row(whole, *shown), *wrong]


def files():
    """PKCS #12 files: what cannot be read, and bags of other kinds."""

    def file(safe):
        return tlv(0x30, b"\x02\x01\x03", content(DATA + b"\x01", tlv(0x04, safe)))

    def bag(last, value):
        return tlv(0x30, identifier(PKCS12 + bytes([last])), tlv(0xA0, value))

    certificate = tlv(0x30, b"\x06\x01\x2b", tlv(0xA0, tlv(0x04, b"a")))
    revoked = tlv(0x30, b"\x06\x01\x2a", tlv(0xA0, tlv(0x04, b"b")))
    crl = identifier(bytes.fromhex("2a864886f70d01091701"))
    none = tlv(0x04, NULL + b"c")
    bags = tlv(0x30, bag(3, certificate), bag(4, revoked), bag(4, tlv(0x30, crl, tlv(0xA0, none))))
    no_safe, no_bags = tlv(0x04, NULL), tlv(0x04, NULL + NULL)
    shown = (
        (certificate, "certificate of another kind", "1.3"),
        (revoked, "list of another kind", "1.2"),
        (none, "list", "malformed (4"),
    )
    return [
        row(file(NULL), (no_safe, "contents", "malformed (4")),
        row(file(tlv(0x30, content(DATA + b"\x01", no_bags))), (no_bags, "bags", "malformed (4")),
        row(file(tlv(0x30, content(DATA + b"\x01", tlv(0x04, bags)))), *shown),
    ]


def keys():
    """Encrypted keys with parameters that cannot be read."""
    rows = ((bytes.fromhex("2a864886f70d01050d"), "scheme"), (bytes.fromhex("2a864886f70d010503"), "parameters"))
    return [row(tlv(0x30, tlv(0x30, identifier(kind), NULL), b"\x04\x01k"), (NULL, label, "malformed (4")) for kind, label in rows]


def statuses():
    """A status answer that cannot be read, one of another type, and one whose responder is named by a key."""

    def answer(kind, response):
        return tlv(0x30, b"\x0a\x01\x00", tlv(0xA0, tlv(0x30, kind, tlv(0x04, response))))

    basic = identifier(bytes.fromhex("2b0601050507300101"))
    responder = tlv(0xA2, tlv(0x04, b"\x07" * 20))
    signed_part = tlv(0x30, responder, b"\x18\x0f20260102030405Z", tlv(0x30))
    whole = tlv(0x30, signed_part, algorithm(0x70), b"\x03\x02\x00\x01")
    return [
        row(answer(basic, NULL), (tlv(0x04, NULL), "response", "malformed (4")),
        row(answer(b"\x06\x01\x2b", b"ab"), (tlv(0x04, b"ab"), "response", "2 octets, 6162")),
        row(answer(basic, whole), (responder, "hash of responder's key", f"20 octets, {'07' * 20}")),
    ]


def requests():
    """A request whose list of extensions cannot be read."""
    asked = tlv(0x30, identifier(bytes.fromhex("2a864886f70d01090e")), tlv(0x31, NULL))
    part = tlv(0x30, b"\x02\x01\x00", tlv(0x30), KEY, tlv(0xA0, asked))
    return [row(tlv(0x30, part, algorithm(0x70), b"\x03\x02\x00\x01"), (NULL, "extensions", "malformed (4"))]


def groups():
    """Parameters of Diffie-Hellman, which the label alone tells."""
    octets = tlv(0x30, b"\x02\x01\x17", b"\x02\x01\x05", b"\x02\x01\x0a")
    text = b"-----BEGIN DH PARAMETERS-----\n" + base64.b64encode(octets) + b"\n-----END DH PARAMETERS-----\n"
    return [(text, ["    2     3  prime: 23", "    5     3  base: 5", "    8     3  length of a private value: 10"])]


def rows():
    return contents() + carried() + of_other_content() + files() + keys() + statuses() + requests() + groups()
