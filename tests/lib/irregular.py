"""Messages built by hand of which a part is no DER, or no value of what it stands for. A row says the kind of the message and what it
is about, and has the octets, the line that is shown of the part, and the faults that a document has of it: the number, the words and
the position of each."""

from .hand_made import FIRST, INNER, KEY, certificate, extension, of_ce
from .octets import tlv

NULL = "contents of a length that NULL does not have"
BITS = b"\x03\x02\x00\x01"
# The contents octets of identifiers.
CN, EC, P256 = b"\x55\x04\x03", bytes.fromhex("2a8648ce3d0201"), bytes.fromhex("2a8648ce3d030107")
LOGS, NO_CHECK = bytes.fromhex("2b06010401d679020402"), bytes.fromhex("2b0601050507300105")
POISON = LOGS[:-1] + b"\x03"


def identifier(octets):
    return tlv(0x06, octets)


def told(number, words, position=None):
    return {"number": number, "words": words, "position": position, "field": None}


def key(kind, octets, unused=0):
    """A SubjectPublicKeyInfo, where `kind` has the contents octets of the AlgorithmIdentifier."""
    return tlv(0x30, tlv(0x30, kind), tlv(0x03, bytes([unused]), octets))


CERTIFICATE, PUBLIC, REQUEST = "certificate", "public key", "certification request"


def row(kind, about, octets, part, label, value, *faults):
    """The row of one part: its octets, which stand nowhere before, its label and its value."""
    return kind, about, octets, f"{octets.index(part):5} {len(part):5}  {label}: {value}", list(faults)


def nulls():
    """NULL has no contents octets (X.690 8.8.2)."""
    full = b"\x05\x02\xde\xad"
    algorithm = tlv(0x30, identifier(b"\x2b\x65\x70"), full)
    long = tlv(0x30, identifier(b"\x2b\x65\x71"), tlv(0x05, bytes(300)))
    attribute = tlv(0x30, identifier(b"\x2a\x03"), tlv(0x31, full))
    request = tlv(0x30, b"\x02\x01\x00", tlv(0x30), KEY, tlv(0xA0, attribute))
    scheme = tlv(0x30, identifier(b"\x2a\x04"), full)
    cases = [
        (PUBLIC, tlv(0x30, algorithm, b"\x03\x21" + bytes(33)), algorithm, "key algorithm: 1.3.101.112 (Ed25519), parameters "),
        (CERTIFICATE, certificate(outer=long)[0], long, "signature algorithm: 1.3.101.113 (Ed448), parameters "),
        (REQUEST, tlv(0x30, request, INNER, BITS), attribute, "attribute: 1.2.3, "),
        ("encrypted private key", tlv(0x30, scheme, b"\x04\x01k"), scheme, "encryption algorithm: 1.2.4, "),
    ]
    for kind, text in ((POISON, "1.3.6.1.4.1.11129.2.4.3 (precertificatePoison)"), (NO_CHECK, "1.3.6.1.5.5.7.48.1.5 (ocspNoCheck)")):
        part = extension(kind, full)
        cases.append((CERTIFICATE, certificate(more=[part])[0], part, f"extension: {text}, 4 octets, "))
    for kind, octets, part, front in cases:
        label, _, value = front.partition(": ")
        count = 300 if part == long else 2
        position = octets.index(part) + len(part) - count
        shown = f"{value}malformed (7: {NULL}) at position {position}"
        yield row(kind, "a NULL with contents", octets, part, label, shown, told(7, NULL, position))
    several = tlv(0x30, identifier(b"\x2a\x03"), tlv(0x31, full, b"\x05\x03abc"))
    request = tlv(0x30, b"\x02\x01\x00", tlv(0x30), KEY, tlv(0xA0, several))
    shown = f"1.2.3, malformed (7: {NULL}), malformed (7: {NULL})"
    yield row(REQUEST, "two of them", tlv(0x30, request, INNER, BITS), several, "attribute", shown, told(7, NULL), told(7, NULL))


def sizes():
    """Keys that have no size of a key (SEC 1 section 2.3.3, RFC 8410)."""
    curve = identifier(EC) + identifier(P256)
    cases = [
        (curve, b"\x04" + b"\x07" * 10, 0, "point of the curve"), (curve, b"\x04" + bytes(63), 0, "point of the curve"),
        (curve, b"\x05" + bytes(64), 0, "point of the curve"), (curve, b"\x02" + bytes(64), 0, "point of the curve"),
        (curve, b"\x00", 0, "point of the curve"), (curve, b"", 0, "point of the curve"),
        (curve, b"\x04" + bytes(64), 3, "point of the curve"),
    ]
    for last, size in ((110, 32), (111, 56), (112, 32), (113, 57)):
        kind = identifier(bytes([0x2B, 0x65, last]))
        cases += [(kind, b"\x09" * count, 0, "key of the algorithm") for count in (0, 5, size - 1, size + 1)]
        cases.append((kind, bytes(size), 1, "key of the algorithm"))
    for kind, octets, unused, words in cases:
        message = key(kind, octets, unused)
        words = f"{len(octets)} octets, which are no {words}"
        shown = f"malformed (13: {words}) at position {len(message)}, {octets.hex()}"
        part = tlv(0x03, bytes([unused]), octets)
        yield row(PUBLIC, "a key of another size", message, part, "key", shown, told(13, words, len(message)))


def stamps():
    """A list of timestamps has at least one (RFC 6962 section 3.3)."""
    words = "contents of a length that OCTET STRING does not have"
    for held in (b"\x00\x00", b"\x00\x02\x00\x00", b"\x00", b""):
        part = extension(LOGS, tlv(0x04, held))
        octets = certificate(more=[part])[0]
        shown = f"1.3.6.1.4.1.11129.2.4.2 (signedCertificateTimestamps), {len(held) + 2} octets, malformed (7: {words})"
        yield row(CERTIFICATE, "a list with no timestamp", octets, part, "extension", shown, told(7, words))


def strings():
    """Values that are shown, whose octets are none of their type (X.680 41, X.690 8)."""
    none = "contents that are no value of "
    cases = [
        (0x0C, b"\xff", "#0c01ff", 12, "octets that are no UTF-8"), (0x0C, b"a\xed\xa0\x80", "#0c0461eda080", 12, "octets that are no UTF-8"),
        (0x13, b"a@b", "a@b", 13, f"{none}PrintableString"), (0x13, b"*.b", "*.b", 13, f"{none}PrintableString"),
        (0x12, b"12a", "12a", 13, f"{none}NumericString"), (0x1A, b"a\x7f", "a\\7f", 13, f"{none}VisibleString"),
        (0x16, b"\xc3\xa9", "\u00e9", 13, f"{none}IA5String"), (0x1E, b"\x00a\x00", "#1e03006100", 7, "contents of a length that BMPString does not have"),
        (0x1E, b"\xd8\x3c", "#1e02d83c", 13, f"{none}BMPString"), (0x05, b"a", "#050161", 7, NULL),
        (0x01, b"\x01", "#010101", 8, "BOOLEAN in a form that DER forbids"), (0x01, b"", "#0100", 7, "contents of a length that BOOLEAN does not have"),
        (0x02, b"\x00\x01", "#02020001", 8, "INTEGER in a form that DER forbids"), (0x03, b"\x09\x00", "#03020900", 13, f"{none}BIT STRING"),
        (0x03, b"\x01\x01", "#03020101", 8, "BIT STRING in a form that DER forbids"), (0x03, b"", "#0300", 9, "a number of octets that is out of range"),
        (0x06, b"\x2a\x80", "#06022a80", 15, "no object identifier"), (0x06, b"", "#0600", 15, "no object identifier"),
    ]
    for tag, contents, shown, number, words in cases:
        name = tlv(0x30, tlv(0x31, tlv(0x30, identifier(CN), tlv(tag, contents))))
        octets = certificate(subject=name)[0]
        yield row(CERTIFICATE, "a value that is none of its type", octets, name, "subject", f"CN={shown}", told(number, words))


def identifiers():
    """Identifiers that are none (X.690 8.19.2): in an algorithm, its parameters, an attribute, an extension and a purpose."""
    none = told(15, "no object identifier")
    for bad in (b"\x2b\x80", b"\x80\x2b", b"\x2b\x80\x01", b"\x81"):
        shown = f"#{bad.hex()}"
        algorithm = tlv(0x30, identifier(bad))
        yield row(CERTIFICATE, "an algorithm", certificate(outer=algorithm)[0], algorithm, "signature algorithm", shown, none)
        algorithm = tlv(0x30, identifier(EC), identifier(bad))
        message = tlv(0x30, algorithm, BITS)
        yield row(PUBLIC, "a curve", message, algorithm, "key algorithm", f"1.2.840.10045.2.1 (id-ecPublicKey), {shown}", none)
        name = tlv(0x30, tlv(0x31, tlv(0x30, identifier(bad), b"\x0c\x01a")))
        yield row(CERTIFICATE, "an attribute", certificate(subject=name)[0], name, "subject", f"{shown}=a", none)
        part = extension(bad, b"a")
        yield row(CERTIFICATE, "an extension", certificate(more=[part])[0], part, "extension", f"{shown}, 1 octets, #61", none)
        part = of_ce(37, tlv(0x30, identifier(bad)))
        text = f"2.5.29.37 (extKeyUsage), {len(bad) + 4} octets, {shown}"
        yield row(CERTIFICATE, "a purpose", certificate(more=[part])[0], part, "extension", text, none)


def regular():
    """Values that are what they are to be, some of which have no form as text."""
    for tag, contents, shown in (
        (0x0C, "\u00e9".encode(), "\u00e9"), (0x13, b"Az9 '()+,-./:=?", "Az9 '()\\+\\,-./:=?"), (0x12, b"1 2", "1 2"), (0x1A, b"a~", "a~"),
        (0x16, b"\x7f", "\\7f"), (0x1E, b"\xd7\xff", "\\ed\\9f\\bf"), (0x14, b"\xe9", "#1401e9"), (0x05, b"", "#0500"), (0x01, b"\xff", "#0101ff"),
        (0x02, b"\x00\x80", "#02020080"), (0x03, b"\x01\x02", "#03020102"), (0x03, b"\x00", "#030100"), (0x30, b"\x05\x00", "#30020500"),
        (0x06, b"\xff" * 11 + b"\x7f", "#060cffffffffffffffffffffff7f"), (0x17, FIRST[2:], "#170d3236303130323033303430355a"), (0x1B, b"\xff", "#1b01ff"),
    ):
        name = tlv(0x30, tlv(0x31, tlv(0x30, identifier(CN), tlv(tag, contents))))
        octets = certificate(subject=name)[0]
        yield row(CERTIFICATE, "a value", octets, name, "subject", f"CN={shown}")
    long = b"\xff" * 11 + b"\x7f"
    algorithm = tlv(0x30, identifier(long))
    yield row(CERTIFICATE, "an arc of more than 64 bits", certificate(outer=algorithm)[0], algorithm, "signature algorithm", f"#{long.hex()}")
    curve = identifier(EC) + identifier(P256)
    for form, count in ((2, 32), (3, 32), (4, 64), (6, 64), (7, 64)):
        octets = bytes([form]) + b"\x11" * count
        yield row(PUBLIC, "a point", key(curve, octets), tlv(0x03, b"\x00", octets), "key", f"256 bits, {octets.hex()}")


def rows():
    for part in (nulls, sizes, stamps, strings, identifiers, regular):
        yield from part()


def qualifier(last, value):
    return tlv(0x30, identifier(bytes.fromhex("2b06010505070201")[:-1] + bytes([last])), value)


def policies(*qualifiers):
    return of_ce(32, tlv(0x30, tlv(0x30, identifier(b"\x2a\x03"), tlv(0x30, *qualifiers))))


def constraint(base, ends=b""):
    return of_ce(30, tlv(0x30, tlv(0xA0, tlv(0x30, base, ends))))


def directory(text):
    return tlv(0xA4, tlv(0x30, tlv(0x31, tlv(0x30, identifier(CN), tlv(0x0C, text)))))


def texts(*parts):
    return tlv(0x30, *(tlv(0x0C, part) for part in parts))


def like_ones():
    """Two extensions that differ, and what is shown of each: their texts differ in a `\\` at least."""
    cps, notice = "1.3.6.1.5.5.7.2.1 (cps)", "1.3.6.1.5.5.7.2.2 (unotice)"
    one = f"http://a with {cps} http://b"
    return [
        (
            policies(qualifier(1, tlv(0x16, one.encode()))), f"1.2.3 with {cps} http://a\\ with {cps} http://b",
            policies(*(qualifier(1, tlv(0x16, it)) for it in (b"http://a", b"http://b"))), f"1.2.3 with {cps} {one}",
        ),
        (
            policies(qualifier(2, texts(b"a and b"))), f"1.2.3 with {notice} a\\ and b",
            policies(qualifier(2, texts(b"a", b"b"))), f"1.2.3 with {notice} a and b",
        ),
        (
            constraint(directory(b"X to 99")), "permitted directory CN=X\\ to 99",
            constraint(directory(b"X"), b"\x81\x01\x63"), "permitted directory CN=X to 99",
        ),
        (
            constraint(b"\x82\x0bx from 1 to"), "permitted host x\\ from 1\\ to",
            constraint(b"\x82\x01x", b"\x80\x01\x01"), "permitted host x from 1",
        ),
        (
            constraint(tlv(0xA0, identifier(b"\x2a\x03"), tlv(0xA0, b"\x0c\x06a to 5"))), "permitted other 1.2.3 a\\ to 5",
            constraint(tlv(0xA0, identifier(b"\x2a\x03"), tlv(0xA0, b"\x0c\x01a")), b"\x81\x01\x05"), "permitted other 1.2.3 a to 5",
        ),
        (
            constraint(b"\x81\x09a  to 5 z"), "permitted mail a \\ to 5 z",
            constraint(b"\x81\x0ba toad with"), "permitted mail a toad\\ with",
        ),
    ]
