"""Rows of what a time stamp says (RFC 3161 section 2.4.2), and of what stands in a query, too."""

from . import texts, values
from .identifiers import named
from .keys import add_plain_version
from .messages import Rows, add_algorithm, add_extensions, octets_row
from .octets import Refused, encoding_at, read_inside, refuse_unless


def add_imprint(rows, encoding):
    fields = encoding.fields()
    add_algorithm(rows, "digest algorithm", fields.take(0x30))
    octets_row(rows, fields.take(0x04), "digest")
    fields.close()


def add_policy(rows, encoding):
    rows.add(encoding, "policy", named(values.identifier(encoding)))


def add_flag(rows, fields, label):
    """A BOOLEAN that is not written where it is false."""
    flag = fields.option(0x01)
    refuse_unless(not flag or values.boolean(flag), "a default that is encoded")
    rows.add(flag, label, "yes" if flag else "no")


def add_nonce(rows, encoding):
    if encoding:
        rows.add(encoding, "nonce", texts.serial(values.integer(encoding)))


def accuracy_text(encoding):
    fields = encoding.fields()
    parts = [fields.option(tag) for tag in (0x02, 0x80, 0x81)]
    fields.close()
    limits = ((0, 0xFFFFFFFF), (1, 999), (1, 999))
    seconds, millis, micros = (values.number(it, *limit) if it else 0 for it, limit in zip(parts, limits))
    return f"{seconds} s, {millis} ms, {micros} us"


def stamp_rows(encoding):
    """TSTInfo (section 2.4.2)."""
    rows, fields = Rows(), encoding.has(0x30).fields()
    add_plain_version(rows, fields.take(0x02))
    add_policy(rows, fields.take(0x06))
    add_imprint(rows, fields.take(0x30))
    number, moment = fields.take(0x02), fields.take(0x18)
    rows.add(number, "serial number", texts.serial(values.integer(number)))
    rows.add(moment, "time", values.fractional_time(moment))
    accuracy = fields.option(0x30)
    if accuracy:
        rows.add(accuracy, "accuracy", accuracy_text(accuracy))
    add_flag(rows, fields, "in order")
    add_nonce(rows, fields.option(0x02))
    authority = fields.option(0xA0)
    if authority:
        inner = authority.fields()
        rows.add(authority, "authority", texts.general_name(inner.next()))
        inner.close()
    more = fields.option(0xA1)
    if more:
        add_extensions(rows, more)
    fields.close()
    return rows.found


def add_stamped(rows, string):
    """What a time stamp says, in an OCTET STRING."""
    held = encoding_at(string.octets, string.contents_begin, string.end)
    try:
        rows.found += stamp_rows(read_inside(string.octets, string.contents_begin, string.end))
    except Refused:
        rows.add(held, "time stamp", "<malformed>")
