"""Files of which openssl has no command for the whole: their parts are named one by one, and `asn1parse -genconf` writes them."""

from .. import irregular as by_hand

from .workshop import Made

CERTIFICATE, LIST, RESPONSE = "certificate", "list of revoked certificates", "OCSP response"
ED25519 = ("SEQUENCE", ["OID:1.3.101.112"])
SHA256 = ("SEQUENCE", ["OID:2.16.840.1.101.3.4.2.1"])
BITS = "FORMAT:HEX,BITSTRING:" + "5a" * 64
KEY = ("SEQUENCE", [ED25519, "FORMAT:HEX,BITSTRING:" + "c3" * 32])
BEGIN, END = "UTC:260102030405Z", "UTC:360102030405Z"


def configuration(tree):
    """The sections of a tree: a text is a value, a pair has the type and the parts."""
    sections = []

    def visit(node):
        if isinstance(node, str):
            return node
        kind, parts = node
        lines = [f"f{at}={visit(part)}\n" for at, part in enumerate(parts)]
        sections.append("".join([f"[s{len(sections)}]\n", *lines]))
        return f"{kind}:s{len(sections) - 1}"

    whole = visit(tree)
    return f"asn1={whole}\n{''.join(sections)}"


def name(*values):
    return ("SEQUENCE", [("SET", [("SEQUENCE", ["OID:2.5.4.3", value])]) for value in values])


def extension(identifier, value, critical=None):
    flag = [] if critical is None else [f"BOOLEAN:{critical}"]
    return ("SEQUENCE", [f"OID:{identifier}", *flag, value])


def certificate(version, more=(), subject="UTF8:subject", unique=(), serial="5"):
    extensions = [("EXPLICIT:3,SEQUENCE", list(more))] if more else []
    validity = ("SEQUENCE", [BEGIN, END])
    fields = [*version, f"INTEGER:{serial}", ED25519, name("UTF8:issuer"), validity, name(subject), KEY, *unique, *extensions]
    return ("SEQUENCE", [("SEQUENCE", fields), ED25519, BITS])


SECOND = ["EXPLICIT:0,INTEGER:1"]
THIRD = ["EXPLICIT:0,INTEGER:2"]
UNIQUE = ["IMPLICIT:1,FORMAT:HEX,BITSTRING:0102", "IMPLICIT:2,FORMAT:HEX,BITSTRING:fe"]
LONG = "2.25." + ".".join(["4294967295"] * 8)
HUGE = "2.25.340282366920938463463374607431768211455"
NULL = "OCTWRAP,NULL"


def certificates():
    yield CERTIFICATE, "version 2 with unique identifiers", certificate(SECOND, unique=UNIQUE), ""
    yield CERTIFICATE, "version 1", certificate([]), ""
    yield CERTIFICATE, "an identifier of 128 bits", certificate(THIRD, [extension(HUGE, NULL)]), ""
    yield CERTIFICATE, "several values", certificate(THIRD, [extension("1.2.3", NULL, "TRUE")], serial="-70000"), ""
    refused = (
        ("a UniversalString", certificate(THIRD, subject="UNIV:subject"), "a tag that the layer has not (docs/FORMAT.md, Identifier octets)"),
        ("a GraphicString", certificate(THIRD, subject="IMPLICIT:25U,IA5:x"), "the same"),
        ("an identifier of 41 octets", certificate(THIRD, [extension(LONG, NULL)]), "39 octets at most (docs/FORMAT.md)"),
        ("critical FALSE", certificate(THIRD, [extension("1.2.3", NULL, "FALSE")]), "DER leaves out a default (X.690 11.5)"),
        ("version 1 in octets", certificate(["EXPLICIT:0,INTEGER:0"]), "DER leaves out a default (X.690 11.5)"),
        ("no extension in the list", certificate([*THIRD], ["NULL"]), "a NULL that is no extension"),
    )
    for about, tree, reason in refused:
        yield CERTIFICATE, about, tree, reason


def texts(kind, *values):
    return (kind, [f"UTF8:{it}" for it in values])


def of_authority(number):
    """A certificate whose issuer's certificate has this serial number."""
    issuer = ("IMPLICIT:1,SEQUENCE", ["IMPLICIT:2,IA5:i.example"])
    authority = ("OCTWRAP,SEQUENCE", ["IMPLICIT:0,FORMAT:HEX,OCT:0102", issuer, f"IMPLICIT:2,INTEGER:{number}"])
    return CERTIFICATE, f"an authority with the number {number}", certificate(THIRD, [extension("2.5.29.35", authority)])


def authorities():
    """Serial numbers from 80 on have an octet for the sign."""
    for number in ("0x80", "0xff01", "0x7f"):
        yield *of_authority(number), ""


def unasked():
    """What openssl prints otherwise, or not at all, and why it is not asked."""
    yield *of_authority("-128"), "openssl prints no sign"
    address, party = ("IMPLICIT:3,SEQUENCE", [("SEQUENCE", [])]), ("IMPLICIT:5,SEQUENCE", ["EXPLICIT:1,UTF8:party"])
    names = ("OCTWRAP,SEQUENCE", [address, party, "IMPLICIT:7,FORMAT:HEX,OCT:0102030405", "IMPLICIT:2,IA5:a.example"])
    about = "names of X.400 and EDI, and an address of five octets"
    yield CERTIFICATE, about, certificate(THIRD, [extension("2.5.29.17", names)]), "openssl prints none of these names"
    yield CERTIFICATE, "words of certview's in values", words_in_values(), "openssl prints no minimum, and parts in lines of their own"


def words_in_values():
    """A certificate with values that have the words which stand between values."""
    ways = ("SEQUENCE", [("SEQUENCE", [f"OID:1.3.6.1.5.5.7.2.{last}", value]) for last, value in (
        (1, "IA5:http://a with 1.2.3 to b"), (1, "IA5:with"), (2, texts("SEQUENCE", "one and two", "and", "sand")), (1, "IA5:ends with"))])
    policy = ("OCTWRAP,SEQUENCE", [("SEQUENCE", ["OID:1.2.3", ways])])
    directory = ("EXPLICIT:4,SEQUENCE", [("SET", [("SEQUENCE", ["OID:2.5.4.3", "UTF8:X to 99"])])])
    bases = [[directory], [directory, "IMPLICIT:1,INTEGER:99"], ["IMPLICIT:2,IA5:x from 1  to"], ["IMPLICIT:1,IA5:a to", "IMPLICIT:0,INTEGER:2"]]
    subtrees = ("OCTWRAP,SEQUENCE", [("IMPLICIT:0,SEQUENCE", [("SEQUENCE", it) for it in bases])])
    more = [extension("2.5.29.32", policy), extension("2.5.29.30", subtrees, "TRUE")]
    return certificate(THIRD, more)


FULL_NULL = "IMPLICIT:5U,FORMAT:HEX,OCT:dead"
POINT_ON = ("SEQUENCE", ["OID:1.2.840.10045.2.1", "OID:1.2.840.10045.3.1.7"])


def irregular():
    """Files with a part that is no DER, or none of what it stands for, and why."""
    for identifier in ("1.3.6.1.4.1.11129.2.4.3", "1.3.6.1.5.5.7.48.1.5"):
        poison = certificate(THIRD, [extension(identifier, f"OCTWRAP,{FULL_NULL}")])
        yield CERTIFICATE, f"the extension {identifier} with a NULL with contents", poison, "X.690 8.8.2"
    for about, octets in (("11 octets", "04" + "07" * 10), ("another form", "05" + "07" * 64), ("infinity", "00"), ("64 octets", "02" + "07" * 63)):
        yield "public key", f"P-256, {about}", ("SEQUENCE", [POINT_ON, f"FORMAT:HEX,BITSTRING:{octets}"]), "no point: SEC 1 section 2.3.3"
    for last, sizes in ((110, (5, 31, 33)), (111, (55, 57)), (112, (5, 57)), (113, (32, 56))):
        for size in sizes:
            key = ("SEQUENCE", [("SEQUENCE", [f"OID:1.3.101.{last}"]), "FORMAT:HEX,BITSTRING:" + "09" * size])
            yield "public key", f"1.3.101.{last}, {size} octets", key, "RFC 8410 section 4"
    for about, held in (("none", "0000"), ("one of no octets", "00020000")):
        more = [extension("1.3.6.1.4.1.11129.2.4.2", f"OCTWRAP,FORMAT:HEX,OCT:{held}")]
        yield CERTIFICATE, f"a list of timestamps, {about}", certificate(THIRD, more), "RFC 6962 section 3.3"
    for value in ("IMPLICIT:12U,FORMAT:HEX,OCT:ff", "IMPLICIT:19U,IA5:a@b", "IMPLICIT:18U,IA5:1a", "IMPLICIT:22U,FORMAT:HEX,OCT:c3a9",
                  "IMPLICIT:30U,FORMAT:HEX,OCT:d83c", "IMPLICIT:26U,FORMAT:HEX,OCT:7f"):
        yield CERTIFICATE, f"a subject {value}", certificate(THIRD, subject=value), "X.680 41, X.690 8"


def entry(number, *extensions):
    return ("SEQUENCE", [f"INTEGER:{number}", BEGIN, *([("SEQUENCE", list(extensions))] if extensions else [])])


def lists():
    issuer = ("OCTWRAP,SEQUENCE", ["IMPLICIT:2,IA5:i.example"])
    entries = [entry(at + 1, extension("2.5.29.21", f"OCTWRAP,ENUM:{at}")) for at in (0, 1, 2, 3, 4, 5, 6, 8, 9, 10)]
    entries.append(entry(200, extension("2.5.29.29", issuer, "TRUE"), extension("2.5.29.24", "OCTWRAP,GENTIME:20250102030405Z")))
    entries.append(entry(-5))
    signed = ("SEQUENCE", ["INTEGER:1", ED25519, name("UTF8:issuer"), BEGIN, END, ("SEQUENCE", entries)])
    yield LIST, "all reasons, and another issuer", ("SEQUENCE", [signed, ED25519, BITS]), ""
    plain = ("SEQUENCE", [ED25519, name("IA5:a", "NUMERIC:1 2"), BEGIN, ("SEQUENCE", [])])
    yield LIST, "version 1 with no next one and an empty list", ("SEQUENCE", [plain, ED25519, BITS]), ""


def keys():
    attribute = ("SEQUENCE", ["OID:1.2.840.113549.1.9.20", ("SET", ["BMP:a name"])])
    octets = "FORMAT:HEX,OCT:0420" + "11" * 32
    key = ["INTEGER:1", ED25519, octets, ("IMPLICIT:0,SET", [attribute]), "IMPLICIT:1,FORMAT:HEX,BITSTRING:" + "22" * 32]
    yield "private key", "version 2 with an attribute and the public key", ("SEQUENCE", key), ""
    curve = ["INTEGER:1", "FORMAT:HEX,OCT:" + "33" * 32, "EXPLICIT:0,NULL"]
    yield "private key of an elliptic curve", "an implicit curve", ("SEQUENCE", curve), ""
    yield "parameters of an elliptic curve", "an implicit curve", "NULL", ""
    numbers = [f"INTEGER:0x{it * 33}" for it in ("7f", "05", "6d")]
    validation = ("SEQUENCE", ["FORMAT:HEX,BITSTRING:aabb", "INTEGER:77"])
    x942 = "parameters of Diffie-Hellman (X9.42)"
    yield x942, "with a factor and a seed", ("SEQUENCE", [*numbers, "INTEGER:8", validation]), ""
    yield x942, "with a seed", ("SEQUENCE", [*numbers, validation]), ""


def answers():
    other = ("EXPLICIT:0,SEQUENCE", ["OID:1.2.3.4", "OCT:anything"])
    yield RESPONSE, "another type of response", ("SEQUENCE", ["ENUM:0", other]), ""
    for status, bits in ((1, None), (2, "0,2"), (3, "25"), (4, "14,15,16"), (5, "17,26")):
        texts = ("SEQUENCE", [f"UTF8:status {status}", "UTF8:a, b"])
        fields = [f"INTEGER:{status}", texts, *([f"FORMAT:BITLIST,BITSTRING:{bits}"] if bits else [])]
        yield "time stamp reply", f"the status {status}", ("SEQUENCE", [("SEQUENCE", fields)]), ""


def messages():
    issued = ("SEQUENCE", [name("UTF8:issuer"), "INTEGER:77"])
    wrap = ("SEQUENCE", ["OID:2.16.840.1.101.3.4.1.5"])
    transport = ("SEQUENCE", ["INTEGER:0", issued, ("SEQUENCE", ["OID:1.2.840.113549.1.1.1", "NULL"]), "OCT:a key"])
    known = ("SEQUENCE", ["OCT:which", "GENTIME:20260102030405Z"])
    keyed = ("IMPLICIT:2,SEQUENCE", ["INTEGER:4", known, wrap, "OCT:another key"])
    another = ("IMPLICIT:4,SEQUENCE", ["OID:1.2.3.4", "NULL"])
    people = ("SET", [transport, keyed, another])
    content = ("SEQUENCE", ["OID:1.2.840.113549.1.7.1", "EXPLICIT:0,OCT:content"])
    attribute = ("SEQUENCE", ["OID:1.2.840.113549.1.9.4", ("SET", ["OCT:digest"])])
    other = ("SEQUENCE", ["OID:1.2.3.5", ("SET", ["UTF8:a, b", "INTEGER:-300", "UTC:260102030405Z"])])
    digest = ("IMPLICIT:1,SEQUENCE", SHA256[1])
    data = ["INTEGER:0", people, ("SEQUENCE", ["OID:1.2.840.113549.2.9"]), digest, content, ("IMPLICIT:2,SET", [attribute]), "OCT:mac"]
    data.append(("IMPLICIT:3,SET", [other]))
    kind = "OID:1.2.840.113549.1.9.16.1.2"
    yield "CMS message", "authenticated, for recipients of three kinds", ("SEQUENCE", [kind, ("EXPLICIT:0,SEQUENCE", data)]), ""
    yield "CMS message", "another type of content", ("SEQUENCE", ["OID:1.2.3.4", "EXPLICIT:0,UTF8:x"]), ""


def bags():
    secret = ("EXPLICIT:0,SEQUENCE", ["OID:1.2.3", "EXPLICIT:0,UTF8:secret"])
    one = next(lists())[2]
    inner = [("SEQUENCE", ["OID:1.2.840.113549.1.12.10.1.5", secret])]
    inner.append(("SEQUENCE", ["OID:1.2.840.113549.1.12.10.1.6", ("EXPLICIT:0,SEQUENCE", [])]))
    held = ("EXPLICIT:0,SEQUENCE", ["OID:1.2.840.113549.1.9.23.1", ("EXPLICIT:0,OCTWRAP,SEQUENCE", one[1])])
    inner.append(("SEQUENCE", ["OID:1.2.840.113549.1.12.10.1.4", held]))
    content = ("SEQUENCE", ["OID:1.2.840.113549.1.7.1", ("EXPLICIT:0,OCTWRAP,SEQUENCE", inner)])
    safe = ("SEQUENCE", ["OID:1.2.840.113549.1.7.1", ("EXPLICIT:0,OCTWRAP,SEQUENCE", [content])])
    mac = ("SEQUENCE", [("SEQUENCE", [SHA256, "FORMAT:HEX,OCT:0102"]), "OCT:salt"])
    yield "PKCS #12 file", "a list, a secret and bags in a bag; a MAC of one iteration", ("SEQUENCE", ["INTEGER:3", safe, mac]), ""


def written_files(shop):
    for part in (certificates, authorities, lists, keys, answers, messages, bags):
        for kind, about, tree, reason in part():
            write(shop, kind, about, tree).refused = reason
    for kind, about, tree, reason in unasked():
        write(shop, kind, about, tree).unasked = reason
    for kind, about, tree, reason in irregular():
        made = write(shop, kind, about, tree)
        made.malformed = made.unasked = reason
    for kind, about, octets, line, faults in by_hand.rows():
        path = shop.path(shop.write(shop.name("by-hand", "der"), octets))
        reason = str(faults) if faults else ""
        shop.made.append(Made(path, kind, f"{about}: {line}", malformed=reason, unasked="it is built by hand, and not signed"))


def write(shop, kind, about, tree):
    """A file of these parts, which is answered."""
    name_of = shop.name("written", "der")
    config = shop.write(f"{name_of}.cnf", configuration(tree))
    made = Made(shop.path(name_of), kind, about)
    shop.later([["asn1parse", "-genconf", config, "-noout", "-out", name_of]], made)
    return made
