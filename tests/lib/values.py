"""Values of each type name of derview, written by a plain encoder of their own: right encodings and their canonical ones.

Nothing here is taken from the crates: the octets follow X.690 as docs/FORMAT.md words it.
"""

import calendar
import random
import re

from . import ROOT
from .octets import base_128, identifier, integer, tlv


def some_number(r, low, high):
    """A number with any count of bits, and often one at a bound of some."""
    bits = r.randrange(0, max(abs(low), high).bit_length() + 1)
    value = r.choice([0, 1, -1, 1 << bits, -(1 << bits), (1 << bits) - 1, r.getrandbits(bits + 1), -r.getrandbits(bits + 1)])
    return value if low <= value <= high else r.choice([low, high, low + (value % (high - low + 1))])


def some_octets(r, most=12):
    count = r.choice([0, 1, 2, 3, r.randrange(most + 1)])
    return r.randbytes(count)


def long_octets(r):
    """Octets, seldom enough of them for long length octets."""
    return r.randbytes(r.choice([127, 128, 129, 255, 256, 300])) if r.random() < 0.02 else some_octets(r)


KNOWN = [1, 2, 3, 4, 5, 6, 9, 10, 12, 13, 0x12, 0x13, 0x14, 0x15, 0x16, 0x17, 0x18, 0x1A, 0x1B, 0x1E, 0x30, 0x31]


def some_tag(r):
    if r.random() < 0.5:
        return bytes([r.choice(KNOWN)])
    number = r.choice([0, 1, 30, 31, 127, 128, 16383, 16384, 4294967295, r.randrange(31), r.getrandbits(32)])
    return identifier(r.choice([0x40, 0x60, 0x80, 0xA0, 0xC0, 0xE0]), number)


def some_any(r):
    return tlv(some_tag(r), long_octets(r))


def text(characters):
    return lambda r: "".join(r.choice(characters) for _ in range(r.choice([0, 1, 5, 20]))).encode()


PRINTABLE = "ABCZabcz0189 '()+,-./:=?"
ASCII = [chr(it) for it in range(128)]
NUMERIC = "0123456789 "
VISIBLE = [chr(it) for it in range(0x20, 0x7F)]
UNICODE = ["a", "\0", "\x7f", "é", "߿", "ࠀ", "퟿", "", "￿", "\U00010000", "\U0010ffff"]
UNITS = [0x0000, 0x0041, 0x00E9, 0x2028, 0xD7FF, 0xE000, 0xFFFE, 0xFFFF]


def units(r):
    return b"".join(r.choice(UNITS).to_bytes(2, "big") for _ in range(r.choice([0, 1, 2, 10])))


def bits(r):
    octets = some_octets(r)
    unused = r.randrange(8) if octets else 0
    if octets:
        octets = octets[:-1] + bytes([octets[-1] >> unused << unused])
    return tlv(3, bytes([unused]) + octets)


def some_day(r, first, last):
    year, month = r.choice([first, last, r.randint(first, last)]), r.randint(1, 12)
    day = r.choice([1, 28, calendar.monthrange(year, month)[1]])
    return year, month, day, r.choice([0, 23, 12]), r.choice([0, 59, 30]), r.choice([0, 59, 7])


def general_time(r):
    return tlv(0x18, b"%04d%02d%02d%02d%02d%02dZ" % some_day(r, 1970, 9999))


def utc_time(r):
    year, *rest = some_day(r, 1970, 2049)
    return tlv(0x17, b"%02d%02d%02d%02d%02d%02dZ" % (year % 100, *rest))


def fractional_time(r):
    """A GeneralizedTime whose Z may stand after a fraction, the last digit of which is not 0 (X.690 11.7)."""
    whole = general_time(r)[2:-1]
    digits = "".join(r.choice("0123456789") for _ in range(r.choice([0, 1, 2, 5, 120]))) + r.choice("123456789")
    return tlv(0x18, whole + r.choice([b"", b"." + digits.encode()]) + b"Z")


def relative_identifier(r):
    """One arc or more, each in base 128 with the fewest octets (X.690 8.20)."""
    arcs = (r.choice([0, 1, 127, 128, 16383, 16384, r.randrange(1 << 70)]) for _ in range(r.choice([1, 2, 3, 20])))
    return tlv(0x0D, *map(base_128, arcs))


def tagged(bits, inner):
    number = lambda r: r.choice([0, 1, 30, 31, 128, r.randrange(1000)])
    return lambda r: tlv(identifier(bits, number(r)), inner(r))


def ints(low, high):
    return lambda r: integer(some_number(r, low, high))


def object_identifier(r):
    return tlv(6, r.randbytes(r.choice([1, 2, 9, 38, 39])))


def algorithm(r):
    return tlv(0x30, object_identifier(r) + r.choice([b"", b"\x05\x00", some_any(r)]))


def list_of(tag, item, counts):
    return lambda r: tlv(tag, b"".join(item(r) for _ in range(r.choice(counts))))


def items_of(r, item, counts):
    items = [item(r) for _ in range(r.choice(counts))]
    return items + [r.choice(items)] if items and r.random() < 0.3 and len(items) < max(counts) else items


def set_of(item, counts, wrap=lambda octets: octets):
    """A set in any order, and its canonical encoding, in the order of the octets."""

    def pair(r):
        items = items_of(r, item, counts)
        return wrap(tlv(0x31, b"".join(items))), wrap(tlv(0x31, b"".join(sorted(items))))

    return pair


def sorted_set(item, counts):
    return lambda r: tlv(0x31, b"".join(sorted(items_of(r, item, counts))))


u8, u16 = ints(0, 255), ints(0, 65535)
any_octets = lambda r: tlv(4, long_octets(r))


def set_of_sets(r):
    """Sets in any order within a set, in the order of their canonical encodings."""
    pairs = sorted((set_of(u16, [0, 1, 2, 3])(r) for _ in range(r.choice([0, 1, 2, 3]))), key=lambda it: it[1])
    return tlv(0x31, b"".join(it[0] for it in pairs)), tlv(0x31, b"".join(it[1] for it in pairs))


def big(first):
    def value(r):
        octets = r.randbytes(r.choice([1, 2, 3, 17, 40]))
        number = int.from_bytes(octets, "big", signed=first < 0)
        return integer(r.choice([number, some_number(r, first, 1 << 64)]))

    return value


# For each type name what makes the octets of a value, and its canonical ones where these may be others.
VALUES = {
    "bool": lambda r: r.choice([b"\x01\x01\xff", b"\x01\x01\x00"]),
    "unit": lambda r: b"\x05\x00",
    "null": lambda r: b"\x05\x00",
    **{f"i{it}": ints(-(1 << (it - 1)), (1 << (it - 1)) - 1) for it in (8, 16, 32, 64, 128)},
    **{f"u{it}": ints(0, (1 << it) - 1) for it in (8, 16, 32, 64, 128)},
    "int": big(-(1 << 64)),
    "intref": big(-(1 << 64)),
    "uint": big(0),
    "uintref": big(0),
    "any": some_any,
    "anyref": some_any,
    "octets": any_octets,
    "octetsref": any_octets,
    "oid": object_identifier,
    "oidref": object_identifier,
    "vec-i64": list_of(0x30, ints(-(1 << 63), (1 << 63) - 1), [0, 1, 2, 5, 40]),
    "vec-anyref": list_of(0x30, some_any, [0, 1, 2, 5]),
    "array2-u8": list_of(0x30, u8, [2]),
    "opt-u8": lambda r: r.choice([b"", u8(r)]),
    "ctx-u8": tagged(0xA0, u8),
    "app-u8": tagged(0x60, u8),
    "prv-u8": tagged(0xE0, u8),
    "vec-ctx-u8": list_of(0x30, tagged(0xA0, u8), [0, 1, 2, 5]),
    "printable": lambda r: tlv(0x13, text(PRINTABLE)(r)),
    "printableref": lambda r: tlv(0x13, text(PRINTABLE)(r)),
    "teletex": lambda r: tlv(0x14, text(ASCII)(r)),
    "teletexref": lambda r: tlv(0x14, text(ASCII)(r)),
    "videotexref": lambda r: tlv(0x15, text(ASCII)(r)),
    "ia5": lambda r: tlv(0x16, text(ASCII)(r)),
    "ia5ref": lambda r: tlv(0x16, text(ASCII)(r)),
    "string": lambda r: tlv(0x0C, text(UNICODE)(r)),
    "utf8ref": lambda r: tlv(0x0C, text(UNICODE)(r)),
    "generalref": lambda r: tlv(0x1B, long_octets(r)),
    "numericref": lambda r: tlv(0x12, text(NUMERIC)(r)),
    "visibleref": lambda r: tlv(0x1A, text(VISIBLE)(r)),
    "relativeoidref": relative_identifier,
    "fractionaltimeref": fractional_time,
    "bmp": lambda r: tlv(0x1E, units(r)),
    "bits": bits,
    "bitsref": bits,
    "ctx-bitsref": tagged(0xA0, bits),
    "sequenceref": lambda r: tlv(0x30, long_octets(r)),
    "seqof5-u16": list_of(0x30, u16, [0, 1, 2, 5]),
    "seqref-u16": list_of(0x30, u16, [0, 1, 2, 5, 20]),
    "algid": algorithm,
    "setvec-anyref": set_of(some_any, [0, 1, 2, 5, 20]),
    "setvec-u16": set_of(u16, [0, 1, 2, 5, 40]),
    "setof2-u16": set_of(u16, [0, 1, 2]),
    "ctx-setof2-u16": set_of(u16, [0, 1, 2], lambda octets: tlv(0xA2, octets)),
    "setvec-algid": set_of(algorithm, [0, 1, 2, 5]),
    "setref-u16": sorted_set(u16, [0, 1, 2, 5, 20]),
    "setref-octetsref": sorted_set(any_octets, [0, 1, 2, 5]),
    "setref-setvec-u16": set_of_sets,
    "datetime": general_time,
    "gentime": general_time,
    "utctime": utc_time,
}

# Names whose answers to any octets are the same.
TWINS = [
    ("any", "anyref"),
    ("octets", "octetsref"),
    ("oid", "oidref"),
    ("int", "intref"),
    ("uint", "uintref"),
    ("printable", "printableref"),
    ("teletex", "teletexref"),
    ("ia5", "ia5ref"),
    ("string", "utf8ref"),
    ("bits", "bitsref"),
    ("unit", "null"),
    ("datetime", "gentime"),
]

# What the first name accepts, the second accepts with the same answer.
WIDER = [
    *zip(["i8", "i16", "i32", "i64", "i128"], ["i16", "i32", "i64", "i128", "int"]),
    *zip(["u8", "u16", "u32", "u64", "u128"], ["u16", "u32", "u64", "u128", "uint"]),
    ("u8", "i16"),
    ("u64", "i128"),
    ("uint", "int"),
    ("int", "any"),
    ("printable", "any"),
    ("setof2-u16", "setvec-u16"),
    ("setref-u16", "setvec-u16"),
    ("setvec-u16", "setvec-anyref"),
    ("setvec-algid", "setvec-anyref"),
    ("array2-u8", "seqof5-u16"),
    ("seqof5-u16", "seqref-u16"),
    ("seqref-u16", "vec-i64"),
    ("vec-i64", "vec-anyref"),
    ("vec-ctx-u8", "vec-anyref"),
    ("vec-anyref", "sequenceref"),
    ("algid", "sequenceref"),
    ("ctx-bitsref", "any"),
    ("bmp", "any"),
    ("gentime", "any"),
    ("gentime", "fractionaltimeref"),
    ("relativeoidref", "any"),
    ("utctime", "any"),
]


def digits(octets):
    return octets.hex().encode() if octets else b"-"


class Row:
    """A line, and the answer that it must have."""

    def __init__(self, name, octets, canonical=None):
        self.name, self.octets = name, octets
        self.canonical = octets if canonical is None else canonical
        self.line = b"%s %s\n" % (name.encode(), digits(octets))
        self.answer = b"ok %s\n" % digits(self.canonical)


def row(r, name):
    made = VALUES[name](r)
    return Row(name, *made) if isinstance(made, tuple) else Row(name, made)


def one_of_each():
    """A line of each type name, of some length."""
    r = random.Random(1)
    return [max((row(r, name) for _ in range(20)), key=lambda it: len(it.octets) if len(it.octets) < 60 else 0) for name in VALUES]


def names_of_derview():
    """The type names that derview's source has."""
    with open(f"{ROOT}/crates/derview_names/src/names.rt") as source:
        source = source.read()
    return set(re.findall(r'"([a-z0-9-]+)" => ', source)) | set(re.findall(r'is_name\(name, "([a-z0-9-]+)"\)', source))
