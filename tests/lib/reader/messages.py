"""Rows of a message: what certview is to show of it, with the places. Here are certificates, lists and requests."""

from . import texts, values
from .extensions import extension
from .identifiers import arcs, named
from .names import CURVES
from .octets import Refused, read_inside, refuse_unless

RSA = {"1.2.840.113549.1.1.1", "1.2.840.113549.1.1.10"}
EC, DSA = "1.2.840.10045.2.1", "1.2.840.10040.4.1"
# How many octets a key has: X25519, X448, Ed25519 and Ed448 (RFC 8410 section 4, RFC 7748, RFC 8032).
SIZES = {"1.3.101.110": 32, "1.3.101.111": 56, "1.3.101.112": 32, "1.3.101.113": 57}


class Rows:
    """The fields of a message, in their order: the place of each, its name and its value."""

    def __init__(self):
        self.found = []

    def add(self, place, name, value):
        """`place` is an encoding, a pair of where it begins and ends, or nothing for what is absent."""
        if place is None:
            self.found.append((None, None, name, value))
        else:
            begin, end = (place.begin, place.end) if hasattr(place, "begin") else place
            self.found.append((begin, end - begin, name, value))


def algorithm_of(encoding):
    """The identifier and the parameters, if there are any, of an AlgorithmIdentifier."""
    fields = encoding.fields()
    kind = values.identifier(fields.take(0x06))
    parameters = None if fields.is_empty() else fields.next()
    fields.close()
    return kind, parameters


def algorithm_text(encoding):
    kind, parameters = algorithm_of(encoding)
    if parameters is not None and parameters.tag == 0x05 and parameters.contents:
        return f"{named(kind)}, parameters <malformed>"
    if parameters is None or parameters.tag == 0x05:
        return named(kind)
    if parameters.tag == 0x06:
        return f"{named(kind)}, {named(parameters.contents)}"
    return f"{named(kind)}, parameters #{parameters.whole.hex()}{texts.mark(parameters)}"


def add_algorithm(rows, label, encoding):
    rows.add(encoding, label, algorithm_text(encoding))


def rsa_key(encoding):
    """RSAPublicKey (RFC 8017 appendix A.1.1) in a BIT STRING."""
    try:
        fields = read_inside(encoding.octets, encoding.contents_begin + 1, encoding.end).has(0x30).fields()
        modulus, exponent = (values.natural(fields.take(0x02)) for _ in range(2))
        fields.close()
    except Refused:
        return "<malformed>"
    return f"{texts.bits_of(modulus)} bits, exponent {texts.decimal(exponent)}, modulus {modulus.hex()}"


def is_point(octets, bits):
    """Whether octets have the form of a point of a curve (SEC 1 section 2.3.3, X9.62 section 4.3.6), but that at infinity."""
    size = (bits + 7) // 8
    lengths = {2: 1 + size, 3: 1 + size, 4: 1 + 2 * size, 6: 1 + 2 * size, 7: 1 + 2 * size}
    return bool(octets) and lengths.get(octets[0]) == len(octets)


def key_text(algorithm, encoding):
    """The bits of a public key as people count them, and its octets."""
    kind, parameters = algorithm_of(algorithm)
    count, octets = values.bit_string(encoding)
    kind = arcs(kind)
    if kind in RSA:
        return rsa_key(encoding)
    if kind == EC:
        curve = CURVES.get(arcs(parameters.contents)) if parameters is not None and parameters.tag == 0x06 else None
        if curve and (count % 8 or not is_point(octets, curve[1])):
            return f"<malformed>, {octets.hex()}"
        return f"{curve[1]} bits, {octets.hex()}" if curve else f"point {octets.hex()}"
    if kind == DSA:
        try:
            prime = values.natural(parameters.has(0x30).fields().take(0x02)) if parameters else None
        except Refused:
            prime = None
        return f"{texts.bits_of(prime)} bits, {octets.hex()}" if prime else f"key of DSA {octets.hex()}"
    if SIZES.get(kind, count / 8) != count / 8:
        return f"<malformed>, {octets.hex()}"
    return f"{count} bits, {octets.hex()}"


def add_key(rows, encoding):
    """A SubjectPublicKeyInfo."""
    fields = encoding.fields()
    algorithm, key = fields.take(0x30), fields.take(0x03)
    fields.close()
    rows.add(algorithm, "key algorithm", algorithm_text(algorithm))
    rows.add(key, "key", key_text(algorithm, key))


def octets_row(rows, encoding, label):
    rows.add(encoding, label, texts.count_and_digits(encoding.contents))


def length_row(rows, encoding, label, octets):
    rows.add(encoding, label, f"{len(octets)} octets")


def add_name(rows, label, encoding):
    rows.add(encoding, label, texts.name(encoding))


def add_extensions(rows, encoding, label="extension"):
    """Extensions: a SEQUENCE of one or more."""
    items = encoding.fields().rest(0x30)
    refuse_unless(items, "a list with no extension")
    for item in items:
        rows.add(item, label, extension(item))


def add_version(rows, encoding, held):
    """A version that is one more than its number; 1 where it is absent."""
    rows.add(encoding, "version", str(values.number(held, 0, values.MOST_OF_VERSION) + 1 if held else 1))


def add_signature(rows, fields):
    """The last two fields of what is signed."""
    algorithm, signature = fields.take(0x30), fields.take(0x03)
    add_algorithm(rows, "signature algorithm", algorithm)
    rows.add(signature, "signature", texts.bits_and_digits(signature))


def ended(rows, fields, extensions, outer):
    """All rows, with the extensions of what is signed, behind their tag, and the signature of the whole."""
    if extensions:
        add_extensions(rows, extensions.only(0x30))
    fields.close()
    add_signature(rows, outer)
    outer.close()
    return rows.found


def certificate(message):
    """RFC 5280 section 4.1."""
    rows, outer = Rows(), message.fields()
    fields = outer.take(0x30).fields()
    version = fields.option(0xA0)
    held = version.only(0x02) if version else None
    refuse_unless(held is None or values.number(held, 0, values.MOST_OF_VERSION), "a default that is encoded")
    add_version(rows, version, held)
    number = fields.take(0x02)
    rows.add(number, "serial number", texts.serial(values.integer(number)))
    add_algorithm(rows, "signature algorithm", fields.take(0x30))
    add_name(rows, "issuer", fields.take(0x30))
    validity = fields.take(0x30).fields()
    for label in ("not before", "not after"):
        moment = validity.next()
        rows.add(moment, label, values.time(moment))
    validity.close()
    add_name(rows, "subject", fields.take(0x30))
    add_key(rows, fields.take(0x30))
    for label, tag in (("issuer's number", 0x81), ("subject's number", 0x82)):
        unique = fields.option(tag)
        if unique:
            rows.add(unique, label, texts.bits_and_digits(unique))
    return ended(rows, fields, fields.option(0xA3), outer)


def entry(encoding):
    """A revoked certificate: its serial number, the date and its extensions (RFC 5280 section 5.1.2.6)."""
    fields = encoding.fields()
    number, moment = values.integer(fields.take(0x02)), values.time(fields.next())
    more = fields.option(0x30)
    fields.close()
    parts = [texts.serial(number), moment]
    if more:
        items = more.fields().rest(0x30)
        refuse_unless(items, "a list with no extension")
        parts += [f"extension {extension(it)}" for it in items]
    return ", ".join(parts)


def revocation_list(message):
    """RFC 5280 section 5.1."""
    rows, outer = Rows(), message.fields()
    fields = outer.take(0x30).fields()
    version = fields.option(0x02)
    add_version(rows, version, version)
    add_algorithm(rows, "signature algorithm", fields.take(0x30))
    add_name(rows, "issuer", fields.take(0x30))
    moment = fields.next()
    rows.add(moment, "this update", values.time(moment))
    moment = fields.option(0x17, 0x18)
    if moment:
        rows.add(moment, "next update", values.time(moment))
    revoked = fields.option(0x30)
    for item in revoked.fields().rest(0x30) if revoked else []:
        rows.add(item, "revoked", entry(item))
    return ended(rows, fields, fields.option(0xA0), outer)


EXTENSION_REQUEST = "1.2.840.113549.1.9.14"


def add_attributes(rows, label, encoding):
    """Attributes of a SET, or behind an implicit tag: each with its values, or the extensions that it asks for."""
    for item in encoding.fields().rest(0x30):
        add_attribute(rows, label, item)


def add_attribute(rows, label, item):
    fields = item.has(0x30).fields()
    kind, held = values.identifier(fields.take(0x06)), fields.take(0x31)
    fields.close()
    found = sorted(held.fields().rest(), key=lambda it: it.whole)
    if arcs(kind) != EXTENSION_REQUEST:
        rows.add(item, label, ", ".join([named(kind), *map(texts.any_value, found)]))
        return
    rows.add(item, label, named(kind))
    for one in held.fields().rest():
        try:
            requested = Rows()
            add_extensions(requested, one.has(0x30))
            rows.found += requested.found
        except Refused:
            rows.add(one, "extensions", "<malformed>")


def request(message):
    """RFC 2986 section 4."""
    rows, outer = Rows(), message.fields()
    fields = outer.take(0x30).fields()
    version = fields.take(0x02)
    rows.add(version, "version", str(values.number(version, 0, values.MOST_OF_VERSION) + 1))
    add_name(rows, "subject", fields.take(0x30))
    add_key(rows, fields.take(0x30))
    attributes = fields.take(0xA0)
    fields.close()
    add_attributes(rows, "attribute", attributes)
    add_signature(rows, outer)
    outer.close()
    return rows.found


def certificate_row(rows, encoding):
    """A certificate within another message: its serial number and its subject."""
    found = certificate(encoding)
    number, subject = (next(value for _, _, name, value in found if name == label) for label in ("serial number", "subject"))
    rows.add(encoding, "certificate", f"{number}, {subject}")


def list_row(rows, encoding):
    """A list within another message: its date and its issuer."""
    found = revocation_list(encoding)
    now, issuer = (next(value for _, _, name, value in found if name == label) for label in ("this update", "issuer"))
    rows.add(encoding, "list of revoked certificates", f"{now}, {issuer}")
