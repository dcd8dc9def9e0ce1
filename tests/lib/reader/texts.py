"""Values as people read them: numbers, octets, characters, names."""

import ipaddress
import re
import unicodedata

from . import values
from .identifiers import IRREGULAR, is_identifier, named, short
from .octets import Refused, refuse_unless

HIDDEN = {"Cc", "Cf", "Cs", "Co", "Cn", "Zl", "Zp"}
# Default_Ignorable_Code_Point of Unicode's DerivedCoreProperties, first and last.
IGNORED = [
    (0xAD, 0xAD), (0x34F, 0x34F), (0x61C, 0x61C), (0x115F, 0x1160), (0x17B4, 0x17B5), (0x180B, 0x180F), (0x200B, 0x200F),
    (0x202A, 0x202E), (0x2060, 0x206F), (0x3164, 0x3164), (0xFE00, 0xFE0F), (0xFEFF, 0xFEFF), (0xFFA0, 0xFFA0),
    (0xFFF0, 0xFFF8), (0x1BCA0, 0x1BCA3), (0x1D173, 0x1D17A), (0xE0000, 0xE0FFF),
]
TEXTS = {0x0C, 0x12, 0x13, 0x16, 0x1A}
# The characters of NumericString, PrintableString and VisibleString (X.680 41).
CHARACTERS = {0x12: rb"[0-9 ]*", 0x13: rb"[A-Za-z0-9 '()+,\-./:=?]*", 0x1A: rb"[ -~]*"}
CHECKS = {
    0x01: values.boolean, 0x02: values.integer, 0x03: values.bit_string, 0x05: values.null, 0x0C: values.utf8, 0x16: values.ia5,
}
WORDS = re.compile(r" (?=(?:and|from|to|with)(?: |\Z))")


def colons(octets):
    return octets.hex(":")


def count_and_digits(octets):
    return f"{len(octets)} octets, {octets.hex()}"


def serial(octets):
    """An INTEGER as OpenSSL shows a serial number."""
    value = int.from_bytes(octets, "big", signed=True)
    size = max(1, (abs(value).bit_length() + 7) // 8)
    return ("-" if value < 0 else "") + colons(abs(value).to_bytes(size, "big"))


def decimal(octets):
    """A number that is not negative: in decimal where it has up to 16 octets."""
    return f"0x{octets.hex()}" if len(octets) > 16 else str(int.from_bytes(octets, "big"))


def bits_of(octets):
    return int.from_bytes(octets, "big").bit_length()


def bits_and_digits(encoding):
    """A BIT STRING: how many octets it has, or bits where the last octet is not whole, and the octets."""
    count, octets = values.bit_string(encoding)
    return f"{count} bits, {octets.hex()}" if count % 8 else count_and_digits(octets)


def is_plain(character):
    point = ord(character)
    return unicodedata.category(character) not in HIDDEN and not any(first <= point <= last for first, last in IGNORED)


def plain(characters):
    """Characters that a terminal does not show, or that act on it, by their octets."""
    return "".join(it if is_plain(it) else "".join(f"\\{octet:02x}" for octet in it.encode()) for it in characters)


def escaped(characters, among_words=False):
    """RFC 4514 section 2.4. Where a word of certview's may stand behind them, a space before such a word is escaped too."""
    ends_in_space = characters.endswith(" ")
    front = characters[:-1] if ends_in_space else characters
    marked = {it.start() for it in WORDS.finditer(front)} if among_words else ()
    text = "".join(
        "\\" + it if it in '"+,;<>\\' or at == 0 and it in "# " or at in marked else plain(it) for at, it in enumerate(front)
    )
    return text + "\\ " if ends_in_space else text


def characters_of(encoding):
    """The characters of a string type; none of another value."""
    octets = encoding.contents
    try:
        if encoding.tag in TEXTS or encoding.tag in (0x14, 0x1B) and octets.isascii():
            return octets.decode("utf-8")
        if encoding.tag == 0x1E and len(octets) % 2 == 0:
            units = [chr(int.from_bytes(octets[at : at + 2], "big")) for at in range(0, len(octets), 2)]
            return None if any(0xD800 <= ord(it) <= 0xDFFF for it in units) else "".join(units)
    except UnicodeDecodeError:
        pass
    return None


def is_irregular(encoding):
    """Whether contents octets are none of their type, of the types of which that is asked."""
    octets = encoding.contents
    if encoding.tag in CHARACTERS:
        return not re.fullmatch(CHARACTERS[encoding.tag], octets)
    if encoding.tag == 0x06:
        return not is_identifier(octets)
    if encoding.tag == 0x1E:
        return len(octets) % 2 != 0 or any(it & 0xF8 == 0xD8 for it in octets[::2])
    try:
        CHECKS.get(encoding.tag, lambda it: it)(encoding)
    except Refused:
        return True
    return False


def mark(encoding):
    return IRREGULAR if is_irregular(encoding) else ""


def value(encoding, among_words=False):
    """A value of a name."""
    characters = characters_of(encoding)
    return (f"#{encoding.whole.hex()}" if characters is None else escaped(characters, among_words)) + mark(encoding)


def any_value(encoding):
    """A value whose type only its tag tells."""
    octets = encoding.contents
    if encoding.tag == 0x06:
        return named(octets)
    if encoding.tag == 0x04:
        return octets.hex()
    if encoding.tag == 0x05:
        return "<malformed>" if octets else "NULL"
    if encoding.tag == 0x02:
        negative = octets[:1] >= b"\x80"
        shown = serial(octets) if negative else decimal(octets[1:] if len(octets) > 1 and octets[0] == 0 else octets)
        return shown + mark(encoding)
    if encoding.tag in (0x17, 0x18):
        try:
            return values.time(encoding)
        except Refused:
            pass
    return value(encoding)


def attribute(encoding, among_words):
    fields = encoding.has(0x30).fields()
    kind, found = values.identifier(fields.take(0x06)), fields.next()
    fields.close()
    return f"{short(kind)}={value(found, among_words)}"


def relative_name(fields, among_words=False):
    """The attributes of a SET, in the order of their encodings (X.690 11.6)."""
    attributes = [(it.whole, attribute(it, among_words)) for it in fields.rest(0x30)]
    refuse_unless(attributes, "a SET with no attribute")
    return "+".join(text for _, text in sorted(attributes, key=lambda pair: pair[0]))


def name(encoding, among_words=False):
    """A Name of RFC 5280, in the order in which its attributes stand."""
    return ", ".join(relative_name(it.fields(), among_words) for it in encoding.has(0x30).fields().rest(0x31))


def address(octets):
    if len(octets) in (4, 16):
        found = ipaddress.ip_address(octets)
        mapped = found.ipv4_mapped if found.version == 6 else None
        return f"::ffff:{mapped}" if mapped else str(found)
    return f"#{octets.hex()}"


def addresses(octets):
    """One address, or that of a range and its mask (RFC 5280 section 4.2.1.10)."""
    half = len(octets) // 2
    if len(octets) in (8, 32):
        return f"{address(octets[:half])}/{address(octets[half:])}"
    return address(octets)


def other_name(encoding):
    fields = encoding.fields()
    kind, held = values.identifier(fields.take(0x06)), fields.take(0xA0)
    fields.close()
    inner = held.fields()
    found = inner.next()
    inner.close()
    return f"other {named(kind)} {value(found, True)}"


def directory_name(encoding):
    return f"directory {name(encoding.only(0x30), True)}"


GENERAL_NAMES = {
    0xA0: other_name,
    0x81: lambda it: f"mail {escaped(values.ia5(it), True)}",
    0x82: lambda it: f"host {escaped(values.ia5(it), True)}",
    0xA3: lambda it: f"address of X.400 #{it.whole.hex()}",
    0xA4: directory_name,
    0xA5: lambda it: f"party of EDI #{it.whole.hex()}",
    0x86: lambda it: f"resource {escaped(values.ia5(it), True)}",
    0x87: lambda it: f"address {addresses(it.contents)}",
    0x88: lambda it: f"identifier {named(values.identifier(it))}",
}


def general_name(encoding):
    """RFC 5280 section 4.2.1.6."""
    refuse_unless(encoding.tag in GENERAL_NAMES, "no GeneralName")
    return GENERAL_NAMES[encoding.tag](encoding)


def general_names(encoding):
    """Some, one or more."""
    names = [general_name(it) for it in encoding.fields().rest()]
    refuse_unless(names, "no name")
    return names
