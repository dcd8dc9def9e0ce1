"""Values of extensions: of RFC 5280, RFC 3280 (privateKeyUsagePeriod), RFC 6960 and RFC 6962, and of Netscape and Microsoft.

Each function takes the encoding that the OCTET STRING holds, and answers what is shown of it, in parts."""

import datetime

from . import texts, values
from .identifiers import arcs, named, short
from .octets import Refused, read_inside, refuse_unless

USAGES = ("digitalSignature nonRepudiation keyEncipherment dataEncipherment keyAgreement keyCertSign cRLSign encipherOnly "
          "decipherOnly").split()
REASON_FLAGS = ("unused keyCompromise cACompromise affiliationChanged superseded cessationOfOperation certificateHold "
                "privilegeWithdrawn aACompromise").split()
REASONS = ("unspecified keyCompromise cACompromise affiliationChanged superseded cessationOfOperation certificateHold - "
           "removeFromCRL privilegeWithdrawn aACompromise").split()
NETSCAPE_TYPES = "sslClient sslServer smime objectSigning reserved sslCA smimeCA objectSigningCA".split()
HASHES = "none md5 sha1 sha224 sha256 sha384 sha512".split()
SIGNATURES = "anonymous rsa dsa ecdsa".split()


def items_of(encoding, *tags):
    """The items of a SEQUENCE OF that has one or more."""
    items = encoding.has(0x30).fields().rest(*tags)
    refuse_unless(items, "a list with no item")
    return items


def bits(encoding, names):
    return [names[at] if at < len(names) else f"bit {at}" for at in values.named_bits(encoding)]


def directory_attributes(encoding):
    found = []
    for item in items_of(encoding, 0x30):
        fields = item.fields()
        kind, held = values.identifier(fields.take(0x06)), fields.take(0x31)
        fields.close()
        shown = [texts.value(it) for it in sorted(held.fields().rest(), key=lambda it: it.whole)]
        found.append(short(kind) + ("=" if shown else "") + "+".join(shown))
    return found


def octets(encoding):
    return [texts.colons(encoding.has(0x04).contents)]


def key_usage(encoding):
    return bits(encoding.has(0x03), USAGES)


def period(encoding):
    fields = encoding.has(0x30).fields()
    ends = [("not before", fields.option(0x80)), ("not after", fields.option(0x81))]
    fields.close()
    return [f"{label} {values.generalized_time(it)}" for label, it in ends if it]


def alternative_names(encoding):
    return texts.general_names(encoding.has(0x30))


def basic_constraints(encoding):
    fields = encoding.has(0x30).fields()
    authority, path = fields.option(0x01), fields.option(0x02)
    fields.close()
    # DER leaves a DEFAULT out (X.690 11.5).
    refuse_unless(not authority or values.boolean(authority), "a default that is encoded")
    return ["CA" if authority else "no CA"] + ([f"path length {texts.decimal(values.natural(path))}"] if path else [])


def natural(encoding):
    return [texts.decimal(values.natural(encoding.has(0x02)))]


def reason_name(encoding):
    at = values.number(encoding, 0, 10)
    refuse_unless(at != 7, "no reason")
    return REASONS[at]


def reason(encoding):
    return [reason_name(encoding.has(0x0A))]


def instruction(encoding):
    return [named(values.identifier(encoding.has(0x06)))]


def invalidity(encoding):
    return [values.generalized_time(encoding.has(0x18))]


def point_name(encoding):
    """A DistributionPointName behind its tag."""
    fields = encoding.fields()
    held = fields.take(0xA0, 0xA1)
    fields.close()
    return texts.general_names(held) if held.tag == 0xA0 else [f"relative {texts.relative_name(held.fields())}"]


def flags(label, encoding):
    """Reasons after what they are reasons of, where they are said."""
    return [label, *bits(encoding, REASON_FLAGS)] if encoding else []


def points(encoding):
    found = []
    for item in items_of(encoding, 0x30):
        fields = item.fields()
        where, reasons, issuer = fields.option(0xA0), fields.option(0x81), fields.option(0xA2)
        fields.close()
        found += point_name(where) if where else []
        found += flags("reasons", reasons)
        found += [f"issuer {it}" for it in texts.general_names(issuer)] if issuer else []
    return found


def issuing_point(encoding):
    fields = encoding.has(0x30).fields()
    where = fields.option(0xA0)
    user, authority, reasons, indirect, attribute = (fields.option(tag) for tag in (0x81, 0x82, 0x83, 0x84, 0x85))
    fields.close()
    for flag in (user, authority, indirect, attribute):
        refuse_unless(not flag or values.boolean(flag), "a default that is encoded")
    found = point_name(where) if where else []
    found += ["only user certificates"] if user else []
    found += ["only CA certificates"] if authority else []
    found += flags("only some reasons", reasons)
    return found + (["indirect"] if indirect else []) + (["only attribute certificates"] if attribute else [])


def subtrees(label, encoding):
    found = []
    for item in encoding.fields().rest(0x30):
        fields = item.fields()
        base, least, most = texts.general_name(fields.next()), fields.option(0x80), fields.option(0x81)
        fields.close()
        least = values.number(least, 1, 255) if least else 0
        reach = (f" from {least}" if least else "") + (f" to {values.number(most, 0, 255)}" if most else "")
        found.append(f"{label} {base}{reach}")
    refuse_unless(found, "a list with no item")
    return found


def name_constraints(encoding):
    fields = encoding.has(0x30).fields()
    permitted, excluded = fields.option(0xA0), fields.option(0xA1)
    fields.close()
    return (subtrees("permitted", permitted) if permitted else []) + (subtrees("excluded", excluded) if excluded else [])


def qualifier(encoding):
    fields = encoding.has(0x30).fields()
    kind, held = named(values.identifier(fields.take(0x06))), fields.next()
    fields.close()
    if held.tag != 0x30:
        return f"{kind} {texts.value(held, True)}"
    try:
        return f"{kind} {' and '.join(texts.value(it, True) for it in held.fields().rest())}"
    except Refused:
        return f"{kind} {texts.value(held, True)}"


def policies(encoding):
    found = []
    for item in items_of(encoding, 0x30):
        fields = item.fields()
        kind, qualifiers = named(values.identifier(fields.take(0x06))), fields.option(0x30)
        fields.close()
        found.append(kind + "".join(f" with {qualifier(it)}" for it in (items_of(qualifiers) if qualifiers else [])))
    return found


def mappings(encoding):
    found = []
    for item in items_of(encoding, 0x30):
        fields = item.fields()
        issuer, subject = (named(values.identifier(fields.take(0x06))) for _ in range(2))
        fields.close()
        found.append(f"issuer's {issuer} is subject's {subject}")
    return found


def authority_key(encoding):
    fields = encoding.has(0x30).fields()
    key, names, number = fields.option(0x80), fields.option(0xA1), fields.option(0x82)
    fields.close()
    found = [texts.colons(key.contents)] if key else []
    found += [f"issuer {it}" for it in texts.general_names(names)] if names else []
    return found + ([f"serial number {texts.serial(values.integer(number))}"] if number else [])


def policy_constraints(encoding):
    fields = encoding.has(0x30).fields()
    counts = [("explicit policy after", fields.option(0x80)), ("no mapping after", fields.option(0x81))]
    fields.close()
    return [f"{label} {texts.decimal(values.natural(it))}" for label, it in counts if it]


def purposes(encoding):
    return [named(values.identifier(it)) for it in items_of(encoding, 0x06)]


def access(encoding):
    found = []
    for item in items_of(encoding, 0x30):
        fields = item.fields()
        method, place = named(values.identifier(fields.take(0x06))), texts.general_name(fields.next())
        fields.close()
        found.append(f"{method} {place}")
    return found


def one(encoding):
    return [texts.any_value(encoding)]


def each(encoding):
    return [texts.any_value(it) for it in encoding.fields().rest()] if encoding.tag == 0x30 else one(encoding)


def netscape_types(encoding):
    _, held = values.bit_string(encoding.has(0x03))
    return [name for at, name in enumerate(NETSCAPE_TYPES) if held and held[0] & 0x80 >> at]


def version_of_authority(encoding):
    number = values.number(encoding.has(0x02), 0, 0xFFFFFFFF)
    return [f"V{number & 0xFFFF}.{number >> 16}"]


def counted(coded):
    """The octets whose number stands before them in two, and those after them (RFC 5246 section 4.3)."""
    count = int.from_bytes(coded[:2], "big")
    refuse_unless(len(coded) >= 2 + count, "a vector that ends too soon")
    return coded[2 : 2 + count], coded[2 + count :]


def stamp(coded):
    """A SignedCertificateTimestamp (RFC 6962 section 3.2)."""
    refuse_unless(coded, "no version")
    if coded[0]:
        return f"version {coded[0]} #{coded[1:].hex()}"
    refuse_unless(len(coded) >= 41, "a timestamp that ends too soon")
    log, millis = coded[1:33], int.from_bytes(coded[33:41], "big")
    more, rest = counted(coded[41:])
    refuse_unless(len(rest) >= 2, "a timestamp that ends too soon")
    signature, left = counted(rest[2:])
    refuse_unless(not left, "octets are left over")
    algorithm = "-".join(names[at] if at < len(names) else str(at) for names, at in ((HASHES, rest[0]), (SIGNATURES, rest[1])))
    try:
        moment = datetime.datetime(1970, 1, 1) + datetime.timedelta(milliseconds=millis)
        when = f"{moment:%Y-%m-%d %H:%M:%S}.{millis % 1000:03} UTC"
    except OverflowError:
        when = f"{millis} ms"
    return f"v1 of log {texts.colons(log)} {when} {algorithm} {len(signature)} octets" + (f" extensions #{more.hex()}" if more else "")


def stamps(encoding):
    coded, left = counted(encoding.has(0x04).contents)
    refuse_unless(coded and not left, "a list with no timestamp, or octets are left over")
    found = []
    while coded:
        one_of, coded = counted(coded)
        found.append(stamp(one_of))
    return found


OF_CE = {
    9: directory_attributes, 14: octets, 15: key_usage, 16: period, 17: alternative_names, 18: alternative_names,
    19: basic_constraints, 20: natural, 21: reason, 23: instruction, 24: invalidity, 27: natural, 28: issuing_point,
    29: alternative_names, 30: name_constraints, 31: points, 32: policies, 33: mappings, 35: authority_key,
    36: policy_constraints, 37: purposes, 46: points, 54: natural,
}
NETSCAPE, MICROSOFT, LOGS, OCSP = "2.16.840.1.113730.1", "1.3.6.1.4.1.311", "1.3.6.1.4.1.11129.2.4", "1.3.6.1.5.5.7.48.1"
READERS = {
    **{f"2.5.29.{last}": reader for last, reader in OF_CE.items()},
    "1.3.6.1.5.5.7.1.1": access, "1.3.6.1.5.5.7.1.11": access, "1.3.6.1.5.5.7.1.24": each,
    f"{LOGS}.2": stamps, f"{LOGS}.5": stamps, f"{LOGS}.3": one,
    f"{NETSCAPE}.1": netscape_types, **{f"{NETSCAPE}.{last}": one for last in range(2, 20)},
    f"{MICROSOFT}.20.2": one, f"{MICROSOFT}.21.1": version_of_authority, f"{MICROSOFT}.21.2": one, f"{MICROSOFT}.21.4": one,
    f"{MICROSOFT}.21.7": each, f"{MICROSOFT}.21.10": policies,
    f"{OCSP}.2": one, f"{OCSP}.5": one, f"{OCSP}.6": one, f"{OCSP}.4": each,
}


def extension(encoding):
    """What is shown of an Extension (RFC 5280 section 4.1); its value is `malformed` where it cannot be read."""
    fields = encoding.has(0x30).fields()
    kind, critical, held = values.identifier(fields.take(0x06)), fields.option(0x01), fields.take(0x04)
    fields.close()
    refuse_unless(not critical or values.boolean(critical), "a default that is encoded")
    front = [named(kind)] + (["critical"] if critical else []) + [f"{held.length - (held.contents_begin - held.begin)} octets"]
    reader = READERS.get(arcs(kind))
    if not reader:
        return ", ".join([*front, f"#{held.contents.hex()}"])
    try:
        return ", ".join([*front, *reader(read_inside(held.octets, held.contents_begin, held.end))])
    except Refused:
        return ", ".join([*front, "<malformed>"])
