"""Rows of OCSP: requests and responses (RFC 6960 section 4)."""

from . import texts, values
from .extensions import reason_name
from .identifiers import arcs, named
from .messages import Rows, add_algorithm, add_extensions, add_name, add_signature, certificate_row
from .octets import Refused, read_inside, refuse_unless

BASIC = "1.3.6.1.5.5.7.48.1.1"
STATUSES = {0: "successful", 1: "malformedRequest", 2: "internalError", 3: "tryLater", 5: "sigRequired", 6: "unauthorized"}


def add_version(rows, fields):
    """[0] EXPLICIT Version DEFAULT v1: of the one version there is, DER writes none."""
    refuse_unless(not fields.option(0xA0), "a default that is encoded")
    rows.add(None, "version", "1")


def add_certificate_id(rows, encoding):
    fields = encoding.has(0x30).fields()
    algorithm, name, key, number = fields.take(0x30), fields.take(0x04), fields.take(0x04), fields.take(0x02)
    fields.close()
    rows.add(number, "serial number", texts.serial(values.integer(number)))
    add_algorithm(rows, "hash algorithm", algorithm)
    rows.add(name, "hash of issuer's name", texts.count_and_digits(name.contents))
    rows.add(key, "hash of issuer's key", texts.count_and_digits(key.contents))


def add_explicit_extensions(rows, encoding, label):
    if encoding:
        add_extensions(rows, encoding.only(0x30), label)


def add_certificates(rows, encoding):
    for item in encoding.only(0x30).fields().rest(0x30) if encoding else []:
        certificate_row(rows, item)


def request(message):
    rows, outer = Rows(), message.fields()
    fields = outer.take(0x30).fields()
    add_version(rows, fields)
    requestor = fields.option(0xA1)
    if requestor:
        inner = requestor.fields()
        rows.add(requestor, "requestor", texts.general_name(inner.next()))
        inner.close()
    for item in fields.take(0x30).fields().rest(0x30):
        one = item.fields()
        add_certificate_id(rows, one.next())
        add_explicit_extensions(rows, one.option(0xA0), "extension of this certificate")
        one.close()
    add_explicit_extensions(rows, fields.option(0xA2), "extension")
    fields.close()
    signature = outer.option(0xA0)
    outer.close()
    if signature:
        inner = signature.only(0x30).fields()
        add_signature(rows, inner)
        add_certificates(rows, inner.option(0xA0))
        inner.close()
    return rows.found


def status_text(encoding):
    if encoding.tag in (0x80, 0x82):
        values.null(encoding)
        return "good" if encoding.tag == 0x80 else "unknown"
    fields = encoding.has(0xA1).fields()
    when, why = values.generalized_time(fields.take(0x18)), fields.option(0xA0)
    fields.close()
    return f"revoked, {when}" + (f", {reason_name(why.only(0x0A))}" if why else "")


def add_time(rows, place, label, encoding):
    rows.add(place, label, values.generalized_time(encoding.has(0x18)))


def add_single(rows, encoding):
    fields = encoding.fields()
    add_certificate_id(rows, fields.next())
    status = fields.next()
    rows.add(status, "status", status_text(status))
    now = fields.next()
    add_time(rows, now, "this update", now)
    then = fields.option(0xA0)
    if then:
        add_time(rows, then, "next update", then.only(0x18))
    add_explicit_extensions(rows, fields.option(0xA1), "extension of this certificate")
    fields.close()


def basic_rows(encoding):
    rows, outer = Rows(), encoding.has(0x30).fields()
    fields = outer.take(0x30).fields()
    add_version(rows, fields)
    responder = fields.take(0xA1, 0xA2)
    if responder.tag == 0xA1:
        add_name(rows, "responder", responder.only(0x30))
    else:
        rows.add(responder, "hash of responder's key", texts.count_and_digits(responder.only(0x04).contents))
    produced = fields.next()
    add_time(rows, produced, "produced at", produced)
    for item in fields.take(0x30).fields().rest(0x30):
        add_single(rows, item)
    add_explicit_extensions(rows, fields.option(0xA1), "extension")
    fields.close()
    add_signature(rows, outer)
    add_certificates(rows, outer.option(0xA0))
    outer.close()
    return rows.found


def response(message):
    rows, fields = Rows(), message.fields()
    status, held = fields.take(0x0A), fields.option(0xA0)
    fields.close()
    number = values.number(status, 0, 6)
    refuse_unless(number in STATUSES, "no status")
    rows.add(status, "status", STATUSES[number])
    if not held:
        return rows.found
    fields = held.only(0x30).fields()
    kind, octets = fields.take(0x06), fields.take(0x04)
    fields.close()
    rows.add(kind, "response type", named(values.identifier(kind)))
    if arcs(kind.contents) != BASIC:
        rows.add(octets, "response", texts.count_and_digits(octets.contents))
        return rows.found
    try:
        rows.found += basic_rows(read_inside(octets.octets, octets.contents_begin, octets.end))
    except Refused:
        rows.add(octets, "response", "<malformed>")
    return rows.found
