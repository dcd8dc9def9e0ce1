"""Spoilt octets, for peers.py: of an encoding each change is made at an element that a lot draws."""

UNIVERSAL = 0x1F


class Element:
    """An element of an encoding: where it begins, where its contents begin, and its end."""

    def __init__(self, start, inner, end):
        self.start, self.inner, self.end = start, inner, end


def header(octets, at, end):
    """The element that begins here, or None where its header or its length is not within the octets."""
    start = at
    if at >= end:
        return None
    at += 1
    if octets[start] & UNIVERSAL == UNIVERSAL:
        while at < end and octets[at] & 0x80:
            at += 1
        at += 1
    if at >= end:
        return None
    length, at = octets[at], at + 1
    if length & 0x80:
        count = length & 0x7F
        length, at = int.from_bytes(octets[at : at + count], "big"), at + count
    return Element(start, at, at + length) if at + length <= end else None


def elements(octets, at=0, end=None):
    """All elements with those within them; an element that no header begins is passed over."""
    end = len(octets) if end is None else end
    found = []
    while at < end:
        one = header(octets, at, end)
        if one is None:
            break
        found.append(one)
        if octets[one.start] & 0x20:
            found += elements(octets, one.inner, one.end)
        at = one.end
    return found


def length_octets(count):
    if count < 0x80:
        return bytes([count])
    octets = count.to_bytes((count.bit_length() + 7) // 8, "big")
    return bytes([0x80 | len(octets)]) + octets


def put(octets, start, end, new):
    """The octets with others in a part's place, and with the lengths of what holds that part mended."""
    holders = [one for one in elements(octets) if one.inner <= start and end <= one.end and (one.start, one.end) != (start, end)]
    found = octets[:start] + new + octets[end:]
    grown = len(new) - (end - start)
    for one in sorted(holders, key=lambda one: -one.start):
        length_at = one.inner - 1
        while length_at > one.start and not is_length(octets, one, length_at):
            length_at -= 1
        mended = length_octets(one.end - one.inner + grown)
        found = found[:length_at] + mended + found[one.inner :]
        grown += len(mended) - (one.inner - length_at)
    return found


def is_length(octets, one, at):
    """Whether the length octets of an element begin here."""
    first = octets[at]
    count = first & 0x7F if first & 0x80 else 0
    before = octets[one.start : at]
    is_tag = len(before) == 1 and before[0] & UNIVERSAL != UNIVERSAL or len(before) > 1 and not before[-1] & 0x80
    return is_tag and at + 1 + count == one.inner


def bit(octets, one, lot):
    at = lot.randrange(one.start, one.end)
    return octets[:at] + bytes([octets[at] ^ 1 << lot.randrange(8)]) + octets[at + 1 :]


def tag(octets, one, lot):
    return put(octets, one.start, one.end, bytes([octets[one.start] ^ lot.choice([1, 2, 0x20, 0x40, 0x80])]) + octets[one.start + 1 : one.end])


def length(octets, one, lot):
    at = one.inner - 1
    return octets[:at] + bytes([octets[at] + lot.choice([1, -1]) & 0xFF]) + octets[at + 1 :]


def long_length(octets, one, lot):
    """The length in an octet more than it needs (X.690 10.1), or in the indefinite form."""
    contents, first = octets[one.inner : one.end], octets[one.start : one.start + 1]
    if first[0] & UNIVERSAL == UNIVERSAL:
        return octets
    if first[0] & 0x20 and lot.random() < 0.3:
        return put(octets, one.start, one.end, first + b"\x80" + contents + b"\0\0")
    count = len(contents).to_bytes(lot.choice([1, 2]) if len(contents) < 256 else 3, "big")
    return put(octets, one.start, one.end, first + bytes([0x80 | len(count)]) + count + contents)


def left_out(octets, one, lot):
    return put(octets, one.start, one.end, b"")


def doubled(octets, one, lot):
    return put(octets, one.start, one.end, octets[one.start : one.end] * 2)


def octet_left_out(octets, one, lot):
    return contents(octets, one, lambda it, at: it[:at] + it[at + 1 :], lot)


def octet_more(octets, one, lot):
    return contents(octets, one, lambda it, at: it[:at] + bytes([lot.choice([0, 0xFF, 0x80])]) + it[at:], lot)


def octet_before(octets, one, lot):
    return contents(octets, one, lambda it, at: bytes([lot.choice([0, 0xFF, 0x80])]) + it, lot)


def contents(octets, one, change, lot):
    """Other contents octets, with a length that says how many they are."""
    inner = octets[one.inner : one.end]
    new = change(inner, lot.randrange(len(inner) + 1))
    first = octets[one.start : one.start + 1]
    if first[0] & UNIVERSAL == UNIVERSAL:
        return octets
    return put(octets, one.start, one.end, first + length_octets(len(new)) + new)


def turned(octets, one, lot):
    """What stands within an element, with two neighbours exchanged."""
    within = [it for it in elements(octets, one.inner, one.end) if is_child(octets, one, it)] if octets[one.start] & 0x20 else []
    if len(within) < 2:
        return octets
    at = lot.randrange(len(within) - 1)
    first, second = within[at], within[at + 1]
    return octets[: first.start] + octets[second.start : second.end] + octets[first.start : first.end] + octets[second.end :]


def is_child(octets, holder, one):
    """Whether an element stands directly within another."""
    between = [it for it in elements(octets, holder.inner, holder.end) if it.start < one.start and one.end <= it.end]
    return not between


def beginning(octets, one, lot):
    return octets[: lot.randrange(len(octets))]


def trailing(octets, one, lot):
    return octets + lot.choice([b"\0", b"\x05\x00", octets])


CHANGES = [bit, bit, bit, tag, length, long_length, left_out, doubled, octet_left_out, octet_more, octet_before, turned, beginning, trailing]


def mutants(octets, lot):
    """Each change once, at an element that is drawn; what changes nothing, or leaves no octets, is left out."""
    found = elements(octets)
    made = [change(octets, lot.choice(found), lot) for change in CHANGES] if found else []
    return [it for it in dict.fromkeys(made) if it and it != octets]
