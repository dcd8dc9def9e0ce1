"""Values of types of ASN.1 from their encodings, each with the rules of X.690 for its contents octets."""

import calendar
import re

from .octets import refuse_unless

# The most contents octets of an identifier that the messages take (docs/FORMAT.md).
MOST_OF_IDENTIFIER = 39
# Named numbers do not say which others there are (X.680 19.5): a version is any number that one octet has.
MOST_OF_VERSION = 255


def boolean(encoding):
    refuse_unless(encoding.contents in (b"\x00", b"\xff"), "a BOOLEAN of another octet")
    return encoding.contents == b"\xff"


def integer(encoding):
    """The contents octets of an INTEGER, in the fewest octets (X.690 8.3)."""
    octets = encoding.contents
    refuse_unless(octets, "an INTEGER with no octets")
    wasteful = len(octets) > 1 and (octets[0] == 0 and octets[1] < 0x80 or octets[0] == 0xFF and octets[1] >= 0x80)
    refuse_unless(not wasteful, "an INTEGER in more octets than it needs")
    return octets


def natural(encoding):
    """The octets of an INTEGER that is not negative, without the one that is there for the sign."""
    octets = integer(encoding)
    refuse_unless(octets[0] < 0x80, "an INTEGER below zero")
    return octets[1:] if len(octets) > 1 and octets[0] == 0 else octets


def number(encoding, least, most):
    """A number of these alone."""
    found = int.from_bytes(integer(encoding), "big", signed=True)
    refuse_unless(least <= found <= most, f"{found} is none of {least} to {most}")
    return found


def bit_string(encoding):
    """How many bits there are, and the octets of them (X.690 8.6, 11.2.1)."""
    octets = encoding.contents
    refuse_unless(octets and octets[0] < 8 and (len(octets) > 1 or octets[0] == 0), "a BIT STRING that says no bits")
    unused = octets[0]
    refuse_unless(len(octets) == 1 or octets[-1] & (1 << unused) - 1 == 0, "unused bits that are not zero")
    return 8 * (len(octets) - 1) - unused, octets[1:]


def named_bits(encoding):
    """The numbers of the bits that are set (X.690 11.2.2: the last is)."""
    count, octets = bit_string(encoding)
    bits = [at for at in range(count) if octets[at // 8] & 0x80 >> at % 8]
    refuse_unless(count == (bits[-1] + 1 if bits else 0), "a last bit that is zero")
    return bits


def identifier(encoding):
    octets = encoding.contents
    refuse_unless(1 <= len(octets) <= MOST_OF_IDENTIFIER, "an OBJECT IDENTIFIER of another length")
    return octets


def null(encoding):
    refuse_unless(not encoding.contents, "a NULL with octets")


def ia5(encoding):
    refuse_unless(encoding.contents.isascii(), "an IA5String with other octets")
    return encoding.contents.decode("ascii")


def utf8(encoding):
    try:
        return encoding.contents.decode("utf-8")
    except UnicodeDecodeError:
        refuse_unless(False, "octets that are no UTF-8")


def moment(encoding, year, rest):
    """A time as it is shown, of a year and ten digits."""
    month, day, hour, minute, second = (int(rest[at : at + 2]) for at in range(0, 10, 2))
    refuse_unless(1970 <= year <= 9999 and 1 <= month <= 12, "a year or a month that there is not")
    refuse_unless(1 <= day <= calendar.monthrange(year, month)[1], "a day that there is not")
    refuse_unless(hour < 24 and minute < 60 and second < 60, "a time of day that there is not")
    return f"{year:04}-{month:02}-{day:02} {hour:02}:{minute:02}:{second:02} UTC"


def generalized_time(encoding):
    """RFC 5280 section 4.1.2.5.2."""
    found = re.fullmatch(rb"(\d{4})(\d{10})Z", encoding.contents)
    refuse_unless(found, "another form of a GeneralizedTime")
    return moment(encoding, int(found[1]), found[2])


def fractional_time(encoding):
    """X.690 11.7: a GeneralizedTime that may have a fraction of a second."""
    found = re.fullmatch(rb"(\d{4})(\d{10})(\.\d*[1-9])?Z", encoding.contents)
    refuse_unless(found, "another form of a GeneralizedTime")
    return moment(encoding, int(found[1]), found[2]).replace(" UTC", (found[3] or b"").decode() + " UTC")


def utc_time(encoding):
    """RFC 5280 section 4.1.2.5.1."""
    found = re.fullmatch(rb"(\d{2})(\d{10})Z", encoding.contents)
    refuse_unless(found, "another form of a UTCTime")
    year = int(found[1])
    return moment(encoding, year + (1900 if year >= 50 else 2000), found[2])


def time(encoding):
    """The CHOICE Time of RFC 5280."""
    refuse_unless(encoding.tag in (0x17, 0x18), "no time")
    return utc_time(encoding) if encoding.tag == 0x17 else generalized_time(encoding)
