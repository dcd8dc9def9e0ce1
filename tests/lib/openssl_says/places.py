"""Where openssl finds each encoding (`asn1parse`), also in strings that hold another, and what it says of the numbers, times and
identifiers among them."""

import functools
import re

from . import asking
from ..octets import tlv
from ..reader import pem, values
from ..reader.octets import Encoding, Refused

LINE = re.compile(r" *(\d+):d=\d+ +hl=(\d+) l= *(\d+) (prim|cons): ([^:\n]*?) *(?::(.*))?")
IDENTIFIER = re.compile(r"\d+(?:\.\d+)+(?=$| \(|,)")
# A version that is shown one more than it is encoded: of certificates, lists and requests.
ONE_MORE = ("certificate", "list of revoked certificates", "certification request")
STRINGS = ("OCTET STRING", "BIT STRING")


@functools.lru_cache(maxsize=None)
def identifiers():
    """The dotted forms of the names that openssl has."""
    found = {}
    for line in asking.ask("list", "-objects").splitlines():
        names, _, dotted = line.rpartition(" ")
        for name in names.removesuffix(",").removesuffix(" =").split(" = "):
            found[name.removesuffix(",")] = dotted
    return found


def parsed(octets, base):
    """The header's length, the length, the type and the value of each encoding in octets, by its place; so many stand before."""
    found = {}
    for line in asking.ask("asn1parse", "-inform", "DER", given=octets).splitlines():
        parts = LINE.fullmatch(line)
        if parts:
            kind = parts[5].replace("[HEX DUMP]", "").strip() if parts[4] == "prim" else "constructed"
            found[base + int(parts[1])] = (int(parts[2]), int(parts[2]) + int(parts[3]), kind, parts[6] or "")
    return found


def string_around(found, offset):
    """The innermost string in which a place lies: where its contents begin and end."""
    around = [
        (at + head, at + length)
        for at, (head, length, kind, _) in found.items()
        if at + head <= offset < at + length and (kind in STRINGS or kind.startswith("cont ["))
    ]
    return max(around, default=None)


def found_by_openssl(octets, fields):
    """What stands in octets, and in the strings in which fields lie."""
    found, seen = parsed(octets, 0), set()
    for field in fields:
        while field["offset"] is not None and field["offset"] not in found:
            around = string_around(found, field["offset"])
            if around is None or around in seen:
                break
            seen.add(around)
            found.update(parsed(octets[around[0] : around[1]], around[0]))
    return found


def number_of(value):
    """The number that a field shows, in decimal or by its bits and digits."""
    found = re.fullmatch(r"\d+ bits, ([0-9a-f]+)", value)
    if found:
        return int(found[1], 16)
    return int(value) if value.isdigit() else None


def compare(file, message):
    with open(file, "rb") as opened:
        octets = pem.blocks(opened.read())[0][1]
    compared, found = asking.Compared(), found_by_openssl(octets, message["fields"])
    for field in message["fields"]:
        if field["offset"] is None:
            continue
        if field["offset"] not in found:
            compared.same(f"the place of {field['name']}", field["offset"], "none there")
            continue
        head, length, kind, shown = found[field["offset"]]
        compared.same(f"the length of {field['name']}", field["length"], length)
        compare_value(compared, message["kind"], field, kind, shown)
        compare_identifier(compared, found, field, head)
    return compared


def compare_value(compared, message, field, kind, shown):
    """A number, or a time."""
    value = field["value"]
    if kind == "INTEGER" and field["name"] in ("serial number", "nonce"):
        compared.same(field["name"], value, asking.serial(shown))
    elif kind == "INTEGER" and number_of(value) is not None:
        more = 1 if field["name"] == "version" and message in ONE_MORE else 0
        compared.same(field["name"], number_of(value), int(shown, 16) + more)
    elif kind in ("UTCTIME", "GENERALIZEDTIME") and "UTC" in value:
        compared.same(field["name"], value, time_of(kind, shown))


def time_of(kind, shown):
    octets = tlv(0x17 if kind == "UTCTIME" else 0x18, shown.encode())
    read = values.utc_time if kind == "UTCTIME" else values.fractional_time
    try:
        return read(Encoding(octets, 0, 2, len(octets)))
    except Refused:
        return shown


def compare_identifier(compared, found, field, head):
    """An identifier, or that with which the encoding begins."""
    ours = IDENTIFIER.match(field["value"])
    for offset in (field["offset"], field["offset"] + head):
        if ours and offset in found and found[offset][2] == "OBJECT":
            theirs = found[offset][3]
            compared.same(f"the identifier of {field['name']}", ours[0], identifiers().get(theirs, theirs))
            return
