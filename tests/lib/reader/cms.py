"""Rows of messages of CMS (RFC 5652): signed, for recipients, digested, encrypted and authenticated."""

from . import texts, values
from .identifiers import arcs, named
from .keys import add_derivation, add_encryption, add_plain_version
from .messages import (
    Rows, add_algorithm, add_attributes, add_key, algorithm_of, certificate_row, length_row, list_row, octets_row,
)
from .octets import Refused, refuse_unless
from .stamped import add_stamped

PKCS_7 = "1.2.840.113549.1.7"
STAMP = "1.2.840.113549.1.9.16.1.4"
OTHER_CERTIFICATES = {
    0xA0: "extended certificate", 0xA1: "attribute certificate of version 1", 0xA2: "attribute certificate",
}


def add_version(rows, fields):
    add_plain_version(rows, fields.take(0x02))


def add_type(rows, encoding):
    rows.add(encoding, "content type", named(values.identifier(encoding)))
    return arcs(encoding.contents)


def each_or_malformed(rows, items, label, add):
    """Each item of a set by its reader; one that cannot be read is malformed."""
    for item in items:
        found = Rows()
        try:
            add(found, item)
        except Refused:
            found.found = []
            found.add(item, label, "<malformed>")
        rows.found += found.found


def add_encapsulated(rows, encoding):
    fields = encoding.fields()
    kind, held = add_type(rows, fields.take(0x06)), fields.option(0xA0)
    fields.close()
    if not held:
        return
    string = held.only(0x04)
    if kind == STAMP:
        add_stamped(rows, string)
    else:
        length_row(rows, string, "content", string.contents)


def add_signed_content(rows, encoding):
    """The content of signed data: an OCTET STRING, or in PKCS #7 a value of any type (RFC 5652 section 5.2.1)."""
    fields = encoding.fields()
    fields.take(0x06)
    held = fields.option(0xA0)
    fields.close()
    inner = held.fields() if held else None
    value = inner.next() if held else None
    if value is None or value.tag == 0x04:
        return add_encapsulated(rows, encoding)
    inner.close()
    add_type(rows, encoding.fields().next())
    length_row(rows, value, "content", value.contents)


def typed(encoding):
    """The identifier of a type and a value of any type, as another format has them."""
    fields = encoding.fields()
    kind = values.identifier(fields.take(0x06))
    fields.next()
    fields.close()
    return named(kind)


def add_certificate_choice(rows, item):
    if item.tag == 0x30:
        certificate_row(rows, item)
    elif item.tag in OTHER_CERTIFICATES:
        length_row(rows, item, OTHER_CERTIFICATES[item.tag], item.contents)
    else:
        rows.add(item.has(0xA3), "certificate of another format", typed(item))


def add_list_choice(rows, item):
    if item.tag == 0x30:
        list_row(rows, item)
    else:
        rows.add(item.has(0xA1), "list of another format", typed(item))


def add_certificates(rows, certificates, lists):
    if certificates:
        each_or_malformed(rows, certificates.fields().rest(), "certificate", add_certificate_choice)
    if lists:
        each_or_malformed(rows, lists.fields().rest(), "list of revoked certificates", add_list_choice)


def issued_text(encoding):
    """IssuerAndSerialNumber."""
    fields = encoding.has(0x30).fields()
    issuer, number = texts.name(fields.take(0x30)), texts.serial(values.integer(fields.take(0x02)))
    fields.close()
    return f"{number}, {issuer}"


def signer_text(encoding):
    """The certificate of a signer, or of a recipient: by its issuer, or by its key."""
    refuse_unless(encoding.tag in (0x30, 0x80), "no identifier of a certificate")
    return issued_text(encoding) if encoding.tag == 0x30 else f"key {texts.colons(encoding.contents)}"


def add_signer(rows, item):
    fields = item.has(0x30).fields()
    version, who = fields.take(0x02), fields.next()
    rows.add(who, "signer", signer_text(who))
    add_plain_version(rows, version)
    add_algorithm(rows, "digest algorithm", fields.take(0x30))
    signed = fields.option(0xA0)
    if signed:
        add_attributes(rows, "signed attribute", signed)
    add_algorithm(rows, "signature algorithm", fields.take(0x30))
    octets_row(rows, fields.take(0x04), "signature")
    unsigned = fields.option(0xA1)
    if unsigned:
        add_attributes(rows, "unsigned attribute", unsigned)
    fields.close()


def signed_data(rows, fields):
    add_version(rows, fields)
    digests = fields.take(0x31).fields().rest()
    each_or_malformed(rows, digests, "digest algorithm", lambda found, it: add_algorithm(found, "digest algorithm", it.has(0x30)))
    add_signed_content(rows, fields.take(0x30))
    add_certificates(rows, fields.option(0xA0), fields.option(0xA1))
    each_or_malformed(rows, fields.take(0x31).fields().rest(), "signer", add_signer)


def digested_data(rows, fields):
    add_version(rows, fields)
    add_algorithm(rows, "digest algorithm", fields.take(0x30))
    add_encapsulated(rows, fields.take(0x30))
    octets_row(rows, fields.take(0x04), "digest")


def add_encrypted_content(rows, encoding):
    fields = encoding.fields()
    add_type(rows, fields.take(0x06))
    add_encryption(rows, fields.take(0x30))
    content = fields.option(0x80)
    fields.close()
    if content:
        length_row(rows, content, "encrypted content", content.contents)


def add_unprotected(rows, fields):
    attributes = fields.option(0xA1)
    if attributes:
        add_attributes(rows, "unprotected attribute", attributes)


def encrypted_data(rows, fields):
    add_version(rows, fields)
    add_encrypted_content(rows, fields.take(0x30))
    add_unprotected(rows, fields)


def add_key_encryption(rows, fields):
    """The last two fields of a recipient."""
    add_algorithm(rows, "key encryption", fields.take(0x30))
    key = fields.take(0x04)
    length_row(rows, key, "encrypted key", key.contents)
    fields.close()


def by_transport(rows, item):
    fields = item.fields()
    version, who = fields.take(0x02), fields.next()
    rows.add(who, "recipient", signer_text(who))
    add_plain_version(rows, version)
    add_key_encryption(rows, fields)


def recipient_text(encoding):
    if encoding.tag == 0x30:
        return issued_text(encoding)
    key, _ = known_key(encoding.has(0xA0).fields())
    return f"key {texts.colons(key.contents)}"


def known_key(fields):
    """The identifier of a key and its date, of a RecipientKeyIdentifier or a KEKIdentifier."""
    key, date, other = fields.take(0x04), fields.option(0x18), fields.option(0x30)
    fields.close()
    if date:
        values.generalized_time(date)
    if other:
        algorithm_of(other)
    return key, date


def by_agreement(rows, item):
    fields = item.fields()
    rows.add(item, "recipients", "by key agreement")
    add_version(rows, fields)
    held = fields.take(0xA0).fields()
    originator = held.next()
    held.close()
    if originator.tag == 0xA1:
        add_key(rows, originator)
    else:
        rows.add(originator, "originator", signer_text(originator))
    material = fields.option(0xA1)
    if material:
        rows.add(material, "keying material", texts.count_and_digits(material.only(0x04).contents))
    add_algorithm(rows, "key encryption", fields.take(0x30))
    for one in fields.take(0x30).fields().rest(0x30):
        inner = one.fields()
        who, key = inner.next(), inner.take(0x04)
        inner.close()
        rows.add(who, "recipient", recipient_text(who))
        length_row(rows, key, "encrypted key", key.contents)
    fields.close()


def by_key(rows, item):
    fields = item.fields()
    version, (key, date) = fields.take(0x02), known_key(fields.take(0x30).fields())
    octets_row(rows, key, "recipient with the key")
    if date:
        rows.add(date, "date of the key", values.generalized_time(date))
    add_plain_version(rows, version)
    add_key_encryption(rows, fields)


def by_password(rows, item):
    fields = item.fields()
    rows.add(item, "recipient", "with a password")
    add_version(rows, fields)
    derivation = fields.option(0xA0)
    if derivation:
        add_derivation(rows, derivation)
    add_key_encryption(rows, fields)


def by_another(rows, item):
    rows.add(item, "recipient of another kind", typed(item))


RECIPIENTS = {0x30: by_transport, 0xA1: by_agreement, 0xA2: by_key, 0xA3: by_password, 0xA4: by_another}


def add_recipient(rows, item):
    refuse_unless(item.tag in RECIPIENTS, "no recipient")
    RECIPIENTS[item.tag](rows, item)


def add_originator(rows, encoding):
    if encoding:
        inner = encoding.fields()
        add_certificates(rows, inner.option(0xA0), inner.option(0xA1))
        inner.close()


def add_recipients(rows, encoding):
    recipients = encoding.fields().rest()
    refuse_unless(recipients, "no recipient")
    each_or_malformed(rows, recipients, "recipient", add_recipient)


def enveloped_data(rows, fields):
    add_version(rows, fields)
    add_originator(rows, fields.option(0xA0))
    add_recipients(rows, fields.take(0x31))
    add_encrypted_content(rows, fields.take(0x30))
    add_unprotected(rows, fields)


def authenticated_data(rows, fields):
    """RFC 5652 section 9.1."""
    add_version(rows, fields)
    add_originator(rows, fields.option(0xA0))
    add_recipients(rows, fields.take(0x31))
    add_algorithm(rows, "MAC algorithm", fields.take(0x30))
    digest = fields.option(0xA1)
    if digest:
        add_algorithm(rows, "digest algorithm", digest)
    add_encapsulated(rows, fields.take(0x30))
    attributes = fields.option(0xA2)
    if attributes:
        add_attributes(rows, "authenticated attribute", attributes)
    octets_row(rows, fields.take(0x04), "MAC")
    attributes = fields.option(0xA3)
    if attributes:
        add_attributes(rows, "unauthenticated attribute", attributes)


CONTENTS = {
    "1.2.840.113549.1.9.16.1.2": ("authenticated data", authenticated_data),
    f"{PKCS_7}.2": ("signed data", signed_data), f"{PKCS_7}.3": ("enveloped data", enveloped_data),
    f"{PKCS_7}.5": ("digested data", digested_data), f"{PKCS_7}.6": ("encrypted data", encrypted_data),
}


def add_content(rows, kind, encoding):
    """What stands in a ContentInfo, by its type."""
    if kind == f"{PKCS_7}.1":
        return length_row(rows, encoding, "content", encoding.contents)
    if kind not in CONTENTS:
        return length_row(rows, encoding, "content", encoding.whole)
    label, reader = CONTENTS[kind]
    found = Rows()
    try:
        fields = encoding.has(0x30).fields()
        reader(found, fields)
        fields.close()
    except Refused:
        found.found = []
        found.add(encoding, label, "<malformed>")
    rows.found += found.found


def add_content_info(rows, encoding, is_optional=False):
    """Its type and its content; answers the type and what is held, where the content is data alone."""
    fields = encoding.has(0x30).fields()
    kind = add_type(rows, fields.take(0x06))
    held = fields.option(0xA0) if is_optional else fields.take(0xA0)
    fields.close()
    if not held:
        return kind, None
    inner = held.fields()
    content = inner.next()
    inner.close()
    return kind, content


def message(encoding):
    """RFC 5652 section 3."""
    rows = Rows()
    kind, content = add_content_info(rows, encoding)
    add_content(rows, kind, content)
    return rows.found
