"""Rows of files of PKCS #12 (RFC 7292): what stands in them, as far as it is not encrypted."""

from . import values
from .cms import PKCS_7, add_content, add_content_info, each_or_malformed
from .identifiers import arcs, named
from .keys import add_encrypted, add_plain_version, private_key
from .messages import Rows, add_algorithm, add_attributes, certificate_row, length_row, list_row, octets_row
from .octets import Refused, read_inside

BAGS = "1.2.840.113549.1.12.10.1"
X509_CERTIFICATE, X509_LIST = "1.2.840.113549.1.9.22.1", "1.2.840.113549.1.9.23.1"
MOST = 0xFFFFFFFF


def in_string(string):
    """The one encoding that an OCTET STRING holds."""
    return read_inside(string.octets, string.contents_begin, string.end)


def key_bag(rows, encoding):
    """The algorithm of a key and how long it is; the whole is a PrivateKeyInfo."""
    rows.found += [row for row in private_key(encoding.has(0x30)) if row[2] in ("key algorithm", "privateKey")]


def shrouded_bag(rows, encoding):
    add_encrypted(rows, encoding.has(0x30).fields())


def held_bag(rows, encoding, kind, word, add):
    """A certificate or a list in an OCTET STRING behind its kind."""
    fields = encoding.has(0x30).fields()
    found, held = values.identifier(fields.take(0x06)), fields.take(0xA0)
    fields.close()
    if arcs(found) != kind:
        rows.add(encoding, f"{word} of another kind", named(found))
        return
    string = held.only(0x04)
    inner = Rows()
    try:
        add(inner, in_string(string).has(0x30))
    except Refused:
        inner.found = []
        inner.add(string, word, "<malformed>")
    rows.found += inner.found


READERS = {
    f"{BAGS}.1": ("key", key_bag),
    f"{BAGS}.2": ("encrypted key", shrouded_bag),
    f"{BAGS}.3": ("certificate", lambda rows, it: held_bag(rows, it, X509_CERTIFICATE, "certificate", certificate_row)),
    f"{BAGS}.4": ("list", lambda rows, it: held_bag(rows, it, X509_LIST, "list", list_row)),
}


def add_bag(rows, bag):
    fields = bag.fields()
    kind, held, attributes = values.identifier(fields.take(0x06)), fields.take(0xA0), fields.option(0x31)
    fields.close()
    rows.add(bag, "bag", named(kind))
    inside = held.fields()
    value = inside.next()
    inside.close()
    if arcs(kind) not in READERS:
        length_row(rows, value, "value", value.whole)
    else:
        each_or_malformed(rows, [value], *READERS[arcs(kind)])
    if attributes:
        add_attributes(rows, "attribute", attributes)


def add_one_content(rows, encoding):
    """A ContentInfo of an AuthenticatedSafe: bags, or what is encrypted."""
    kind, content = add_content_info(rows, encoding, True)
    if content is None:
        return
    if kind != f"{PKCS_7}.1":
        add_content(rows, kind, content)
        return
    found = Rows()
    try:
        for bag in in_string(content.has(0x04)).has(0x30).fields().rest(0x30):
            add_bag(found, bag)
    except Refused:
        found.found = []
        found.add(content, "bags", "<malformed>")
    rows.found += found.found


def add_mac(rows, encoding):
    fields = encoding.fields()
    digest, salt, count = fields.take(0x30).fields(), fields.take(0x04), fields.option(0x02)
    fields.close()
    add_algorithm(rows, "MAC algorithm", digest.take(0x30))
    octets_row(rows, digest.take(0x04), "MAC")
    digest.close()
    octets_row(rows, salt, "salt")
    rows.add(count, "iterations", str(values.number(count, 0, MOST) if count else 1))


def file(message):
    rows, fields = Rows(), message.fields()
    add_plain_version(rows, fields.take(0x02))
    kind, content = add_content_info(rows, fields.take(0x30), True)
    mac = fields.option(0x30)
    fields.close()
    if content is not None and kind != f"{PKCS_7}.1":
        add_content(rows, kind, content)
    elif content is not None:
        found = Rows()
        try:
            for item in in_string(content.has(0x04)).has(0x30).fields().rest(0x30):
                add_one_content(found, item)
        except Refused:
            found.found = []
            found.add(content, "contents", "<malformed>")
        rows.found += found.found
    if mac:
        add_mac(rows, mac)
    return rows.found
