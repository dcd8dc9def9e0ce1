"""What stands against octets, as others see it: by X.690 the independent reader of tests/lib/reader, by the ASN.1 asn1crypto."""

import re

from asn1crypto import core

from ..reader import texts, values
from ..reader.octets import Refused, message_of, refuse_unless


def characters(pattern):
    return lambda it: refuse_unless(re.fullmatch(pattern, it.contents), "characters that the string type does not have")


CHECKS = {
    **{tag: characters(pattern) for tag, pattern in texts.CHARACTERS.items()},
    **texts.CHECKS,
    0x06: values.identifier,
    0x17: values.utc_time,
    0x18: values.fractional_time,
}


def check(encoding):
    """Refuses an encoding with a fault that its tags show: of a type that an implicit tag hides nothing is known."""
    if encoding.tag & 0x20:
        for it in encoding.fields().rest():
            check(it)
    elif encoding.tag in CHECKS:
        CHECKS[encoding.tag](encoding)


def first_fault(octets):
    """The words of the first fault by X.690, or None."""
    try:
        check(message_of(octets))
    except Refused as error:
        return str(error)
    return None


def every(octets):
    """All encodings in octets, outer ones first; of octets that are none, those before the fault."""
    found = []

    def visit(encoding):
        found.append(encoding)
        if encoding.tag & 0x20:
            for it in encoding.fields().rest():
                visit(it)

    try:
        visit(message_of(octets))
    except Refused:
        pass
    return found


def dates(octets):
    """The years of the dates in octets."""
    for it in every(octets):
        if it.tag in (0x17, 0x18) and it.contents[:4].isdigit():
            year = int(it.contents[: 2 if it.tag == 0x17 else 4])
            yield year if it.tag == 0x18 else 1900 + year if year >= 50 else 2000 + year


def fault_of_key(octets):
    """The words of the first fault in a key, which stands in a BIT STRING; or None."""
    held = (it.contents[1:] for it in every(octets) if it.tag == 0x03 and it.contents[1:2] == b"\x30")
    return next(filter(None, map(first_fault, held)), None)


def has_fraction(octets):
    """Whether a GeneralizedTime has a fraction of a second."""
    return any(it.tag == 0x18 and b"." in it.contents for it in every(octets))


def unsorted_set(octets):
    """Whether the items of a SET are not in the order of their octets (X.690 11.6)."""
    for it in every(octets):
        held = [one.whole for one in it.fields().rest()] if it.tag == 0x31 else []
        if held != sorted(held):
            return True
    return False


def has_other_letters(octets):
    """Whether a GeneralName that is an IA5String has other octets."""
    return any(it.tag in (0x81, 0x82, 0x86) and not it.contents.isascii() for it in every(octets))


def has_long_identifier(octets):
    """Whether an OBJECT IDENTIFIER, also the registeredID of a GeneralName, has more than 39 octets."""
    return any(it.tag in (0x06, 0x88) and it.length > 41 for it in every(octets))


def signs_another_type(octets):
    """Whether the content of a SignedData is no OCTET STRING: the first field that is a SEQUENCE, and what stands in it."""
    signed = message_of(octets).fields().rest(0x06, 0xA0)[1].only(0x30)
    content = next(it for it in signed.fields().rest() if it.tag == 0x30)
    return content.fields().rest()[1].fields().next().tag != 0x04


def is_default(value, at):
    """Whether a field that has a default is encoded, and has it."""
    name, spec, params = (*value._fields[at], {})[:3]
    return isinstance(value.children[at], tuple) and "default" in params and value[name].native == spec(params["default"]).native


def held_in(value):
    """The values within one of asn1crypto."""
    if isinstance(value, core.Choice):
        return [value.chosen]
    if isinstance(value, core.Sequence):
        return [value[name] for name, *_ in value._fields]
    return list(value) if isinstance(value, core.SequenceOf) else []


def encoded_default(value):
    """The name of the first field, in a value of asn1crypto, that is encoded though it has its default; or None."""
    if isinstance(value, core.Sequence):
        value._parse_children()
        for at, (name, *_) in enumerate(value._fields):
            if is_default(value, at):
                return name
    return next(filter(None, map(encoded_default, held_in(value))), None)
