"""The clauses of X.690 and X.680 that octets break, as a type: for peers.py. The octets are taken apart here anew; of the compiler
only the types are taken: their fields, tags, bounds and the library's type of each."""
import re

from asn1.model import Alias, Choice, Enumeration, Leaf, List, Listed, Measure, Presence, Struct, Tagged, Use, Whole
from asn1.properties import tags_of

TIME = {
    Whole.UTC_TIME: (r"\d{2}(0[1-9]|1[0-2])(0[1-9]|[12]\d|3[01])([01]\d|2[0-3])[0-5]\d[0-5]\dZ", "X.690 11.8: UTCTime"),
    Whole.GENERALIZED_TIME: (r"\d{4}(0[1-9]|1[0-2])(0[1-9]|[12]\d|3[01])([01]\d|2[0-3])[0-5]\d[0-5]\dZ", "X.690 11.7: GeneralizedTime"),
}
CHARACTERS = {
    Whole.PRINTABLE_STRING: (rb"[A-Za-z0-9 '()+,\-./:=?]*", "X.680 41.4: PrintableString"),
    Whole.NUMERIC_STRING: (rb"[0-9 ]*", "X.680 41.2: NumericString"),
    Whole.VISIBLE_STRING: (rb"[\x20-\x7e]*", "X.680 41.1: VisibleString"),
    Whole.IA5_STRING: (rb"[\x00-\x7f]*", "X.680 41.1: IA5String"),
    Whole.TELETEX_STRING: (rb"[\x00-\x7f]*", "this library: T61String and VideotexString of 7 bits"),
    Whole.VIDEOTEX_STRING: (rb"[\x00-\x7f]*", "this library: T61String and VideotexString of 7 bits"),
}
NUMBERS = {Whole.MACHINE_INTEGER, Whole.INTEGER, Whole.NATURAL}
END = "X.690 8.1.1: an encoding ends too soon"
LONGEST_IDENTIFIER = 39
UNREAD_SEQUENCE = frozenset([Whole.UNREAD_SEQUENCE])
UNREAD = UNREAD_SEQUENCE | {Whole.ANY}


class Broken(Exception):
    """A clause that is broken."""


class Node:
    """An element: its class and number as one pair, whether it is constructed, its octets and its contents octets."""

    def __init__(self, tag, is_constructed, whole, contents):
        self.tag, self.is_constructed, self.whole, self.contents = tag, is_constructed, whole, contents


def node_at(octets, at):
    """The element that begins here."""
    start = at
    tag, is_constructed, at = tag_at(octets, at)
    if at >= len(octets):
        raise Broken(END)
    count, at = octets[at], at + 1
    if count == 0x80:
        raise Broken("X.690 10.1: indefinite length")
    if count > 0x80:
        digits = octets[at : at + (count & 0x7F)]
        if len(digits) < count & 0x7F:
            raise Broken(END)
        at += len(digits)
        count = int.from_bytes(digits, "big")
        if count < 0x80 or digits[0] == 0:
            raise Broken("X.690 10.1: length not in the fewest octets")
    if at + count > len(octets):
        raise Broken(END)
    return Node(tag, is_constructed, octets[start : at + count], octets[at : at + count])


def tag_at(octets, at):
    """A tag, whether it is constructed, and where it ends."""
    if at >= len(octets):
        raise Broken(END)
    first, number, at = octets[at], octets[at] & 0x1F, at + 1
    if number == 0x1F:
        number, start = 0, at
        while True:
            if at >= len(octets):
                raise Broken(END)
            number, at = number << 7 | octets[at] & 0x7F, at + 1
            if not octets[at - 1] & 0x80:
                break
        if octets[start] == 0x80 or number < 31:
            raise Broken("X.690 8.1.2.4: tag number not in the fewest octets")
    return (first >> 6, number), bool(first & 0x20), at


def nodes_of(octets):
    """The elements that stand one behind another."""
    found, at = [], 0
    while at < len(octets):
        found.append(node_at(octets, at))
        at += len(found[-1].whole)
    return found


def broken(type_, octets, kept=None):
    """The first clause that the octets break as an encoding of a type, or None. The contents octets of each OBJECT IDENTIFIER are put
    into the list."""
    try:
        node = node_at(octets, 0)
        if len(node.whole) != len(octets):
            return "X.690 8.1.1: octets after the encoding"
        look(type_, node, [] if kept is None else kept)
    except Broken as found:
        return str(found)
    return None


def begins(type_, node):
    tags = tags_of(type_)
    return tags is None or node.tag in [(tag.tag_class, tag.number) for tag in tags]


def look(type_, node, kept):
    """Looks at an element as a type, its tag too."""
    if not begins(type_, node):
        raise Broken("X.690 8.1.2: another tag")
    look_within(type_, node, kept)


def look_within(type_, node, kept):
    """Looks at the contents of an element."""
    if isinstance(type_, Tagged):
        look_behind(type_, node, kept)
    elif isinstance(type_, Listed):
        look_at_list(type_, node, kept)
    elif isinstance(type_, Leaf):
        look_at_leaf(type_, node, kept)
    else:
        assert isinstance(type_, Use)
        look_at_definition(type_.definition, node, kept)


def look_behind(type_, node, kept):
    if not type_.is_explicit:
        look_within(type_.of, node, kept)
        return
    need_constructed(node)
    within = nodes_of(node.contents)
    if len(within) != 1:
        raise Broken("X.690 8.14.2: one encoding after an explicit tag")
    look(type_.of, within[0], kept)


def need_constructed(node):
    if not node.is_constructed:
        raise Broken("X.690 8.9.1: constructed")


def look_at_definition(found, node, kept):
    if isinstance(found, Alias):
        look_within(found.type, node, kept)
    elif isinstance(found, List):
        look_at_list(found.listed, node, kept)
    elif isinstance(found, Choice):
        look_within(next(it.type for it in found.alternatives if begins(it.type, node)), node, kept)
    elif isinstance(found, Enumeration):
        number = number_of(node)
        if number not in [one.number for one in found.values]:
            raise Broken("X.680 20: no enumeration with this number")
    else:
        assert isinstance(found, Struct)
        look_at_fields(found, node, kept)


def look_at_fields(found, node, kept):
    """The fields in their order; what is left over is none of them."""
    need_constructed(node)
    left = nodes_of(node.contents)
    for one in found.fields:
        if not left or not begins(one.type, left[0]):
            if one.presence is Presence.ALWAYS:
                raise Broken("X.690 8.9.2: a component is absent, or another stands in its place")
            continue
        if is_empty_default(one, left[0]):
            raise Broken("X.690 11.5: a default is encoded")
        look(one.type, left[0], kept)
        if one.presence is Presence.DEFAULT and is_default(one, left[0]):
            raise Broken("X.690 11.5: a default is encoded")
        left.pop(0)
    if left:
        raise Broken("X.690 8.9.2: no component of the type (of X.680 25 or 51.8 where it has '...')")


def is_empty_default(one, node):
    """Whether a node is that of the empty list, which is the default of a component: it is OPTIONAL then, and never empty."""
    return one.presence is Presence.OPTIONAL and one.component.default is not None and not contents_of(one, node)


def contents_of(one, node):
    """A node's contents octets, after the explicit tags of a component."""
    type_, contents = one.type, node.contents
    while isinstance(type_, Tagged):
        contents = node_at(contents, 0).contents if type_.is_explicit else contents
        type_ = type_.of
    return contents


def is_default(one, node):
    """Whether a node's contents are those of a default that is a BOOLEAN, a number or a name of a number."""
    contents, value = contents_of(one, node), one.default
    if isinstance(value, bool):
        return contents == (b"\xff" if value else b"\0")
    if hasattr(value, "name") and isinstance(getattr(value, "definition", None), Enumeration):
        value = next(it.number for it in value.definition.values if it.name == value.name)
    return isinstance(value, int) and int.from_bytes(contents, "big", signed=True) == value


def look_at_list(listed, node, kept):
    need_constructed(node)
    items = nodes_of(node.contents)
    if listed.is_never_empty and not items:
        raise Broken("X.680 51.5: SIZE of a list")
    for item in items:
        look(listed.item, item, kept)
    if listed.is_set and not listed.is_any_order and any(b.whole < a.whole for a, b in zip(items, items[1:])):
        raise Broken("X.690 11.6: order of a SET OF")


# ---- values with no parts


def number_of(node):
    if node.is_constructed:
        raise Broken("X.690 8.1.2.5: constructed")
    octets = node.contents
    if not octets:
        raise Broken("X.690 8.3.1: no contents octet")
    if len(octets) > 1 and octets[0] in (0, 0xFF) and octets[0] >> 7 == octets[1] >> 7:
        raise Broken("X.690 8.3.2: not the fewest octets")
    return int.from_bytes(octets, "big", signed=True)


def look_at_leaf(leaf, node, kept):
    whole = leaf.whole
    if whole is Whole.ANY:
        return
    if whole is Whole.UNREAD_SEQUENCE:
        need_constructed(node)
        return
    if whole in NUMBERS:
        look_at_number(leaf, number_of(node))
        return
    if node.is_constructed:
        is_string = whole not in (Whole.BOOLEAN, Whole.NULL, Whole.OBJECT_IDENTIFIER, Whole.RELATIVE_OID)
        raise Broken("X.690 10.2: a constructed string" if is_string else "X.690 8.1.2.5: constructed")
    if whole in (Whole.BIT_STRING, Whole.NAMED_BITS):
        look_at_bits(leaf, node.contents)
    elif whole in TIME:
        look_at_time(whole, node.contents)
    else:
        look_at_octets(leaf, node.contents)
        kept += [node.contents] if whole is Whole.OBJECT_IDENTIFIER else []


def look_at_number(leaf, number):
    if leaf.whole is Whole.NATURAL and number < 0:
        raise Broken("X.680 51.4: a number below 0")
    if leaf.width is not None:
        bits, is_signed = int(leaf.width[1:]), leaf.width[0] == "i"
        low, high = (-(1 << bits - 1), (1 << bits - 1) - 1) if is_signed else (0, (1 << bits) - 1)
        if not low <= number <= high:
            raise Broken("X.680 51.4: a number out of the bounds, or of the machine integer where a type has names alone")
    allow(leaf, {Measure.NUMBER: [number]})


def look_at_bits(leaf, octets):
    if not octets or octets[0] > 7 or (len(octets) == 1 and octets[0]):
        raise Broken("X.690 8.6.2: unused bits of a BIT STRING")
    if octets[-1] & (1 << octets[0]) - 1 and len(octets) > 1:
        raise Broken("X.690 11.2.1: an unused bit is not 0")
    if leaf.whole is Whole.NAMED_BITS and len(octets) > 1 and not octets[-1] >> octets[0] & 1:
        raise Broken("X.690 11.2.2: named bits that end with 0")
    allow(leaf, {Measure.SIZE: [8 * (len(octets) - 1) - octets[0]]})


def look_at_time(whole, octets):
    pattern, clause = TIME[whole]
    text = octets.decode("latin-1")
    if not re.fullmatch(pattern, text, re.ASCII):
        raise Broken(clause)
    year = int(text[:-11]) if whole is Whole.GENERALIZED_TIME else int(text[:2]) + (1900 if text[:2] >= "50" else 2000)
    rest = text[-11:]
    days = [31, 29 if year % 4 == 0 and (year % 100 or year % 400 == 0) else 28, 31, 30, 31, 30, 31, 31, 30, 31, 30, 31]
    if int(rest[2:4]) > days[int(rest[:2]) - 1]:
        raise Broken(clause)
    if year < 1970:
        raise Broken("this library: no time before 1970")


def look_at_octets(leaf, octets):
    whole = leaf.whole
    if whole is Whole.BOOLEAN and len(octets) != 1:
        raise Broken("X.690 8.2.1: one contents octet")
    if whole is Whole.BOOLEAN and octets not in (b"\0", b"\xff"):
        raise Broken("X.690 11.1: a BOOLEAN is 00 or FF")
    if whole is Whole.NULL and octets:
        raise Broken("X.690 8.8.2: NULL has no contents octets")
    if whole in (Whole.OBJECT_IDENTIFIER, Whole.RELATIVE_OID) and not octets:
        raise Broken("X.690 8.19.2: no arc")
    if whole is Whole.OBJECT_IDENTIFIER and len(octets) > (leaf.octets or LONGEST_IDENTIFIER):
        raise Broken("this library: an identifier of at most 39 octets")
    if whole is Whole.RELATIVE_OID and not is_arcs(octets):
        raise Broken("X.690 8.20.2: an arc is not in the fewest octets, or does not end")
    if whole in CHARACTERS and not re.fullmatch(CHARACTERS[whole][0], octets):
        raise Broken(CHARACTERS[whole][1])
    look_at_text(leaf, octets)


def look_at_text(leaf, octets):
    if leaf.whole is Whole.UTF8_STRING:
        try:
            text = octets.decode("utf-8")
        except UnicodeDecodeError:
            raise Broken("X.690 8.23.10: UTF-8") from None
        allow(leaf, {Measure.SIZE: [len(text)]})
        return
    if leaf.whole is Whole.BMP_STRING:
        units = [octets[at : at + 2] for at in range(0, len(octets), 2)]
        if len(octets) % 2 or any(b"\xd8" <= unit[:1] <= b"\xdf" for unit in units):
            raise Broken("X.690 8.23.9: units of a BMPString")
        return
    allow(leaf, {Measure.SIZE: [len(octets)], Measure.CHARACTER: octets})


def is_arcs(octets):
    """Whether octets are arcs in base 128, each in the fewest octets."""
    starts = [0] + [at + 1 for at, octet in enumerate(octets[:-1]) if not octet & 0x80]
    return not octets[-1] & 0x80 and not any(octets[at] == 0x80 for at in starts)


def allow(leaf, values):
    """Whether the constraint of a leaf allows a value, of which there are a number, or a size and characters."""
    if leaf.allowed is not None and not is_allowed(leaf.allowed, values):
        raise Broken("X.680 51: a value that a constraint excludes")


def is_allowed(allowed, values):
    if allowed.any_of:
        return any(is_allowed(one, values) for one in allowed.any_of)
    if allowed.all_of:
        return all(is_allowed(one, values) for one in allowed.all_of)
    return all(any(low <= it <= high for low, high in allowed.runs) for it in values.get(allowed.measure, ()))


def has_no_arcs(type_, octets):
    """Whether some OBJECT IDENTIFIER, of the type or within an ANY, has octets that are no arcs: a reader here keeps them as they are."""
    kept = [node.contents for node in every(octets) if node.tag == (0, 6) and not node.is_constructed and node.contents]
    broken(type_, octets, kept)
    return not all(map(is_arcs, kept))


def is_well_formed(octets):
    """Whether all elements, those within others too, have headers and lengths of DER: within an ANY they are not looked at here."""
    try:
        return all(is_well_formed(node.contents) for node in nodes_of(octets) if node.is_constructed)
    except Broken:
        return False


def every(octets):
    """All elements, those within others too, as far as they are such."""
    try:
        found = nodes_of(octets)
    except Broken:
        return []
    return found + [it for node in found if node.is_constructed for it in every(node.contents)]


def within(definition):
    """The definitions that a type names."""
    return [it for type_ in types_within(definition) for it in used(type_)]


def types_within(definition):
    """The types of the parts of a definition."""
    if isinstance(definition, Struct):
        return [one.type for one in definition.fields]
    if isinstance(definition, Choice):
        return [one.type for one in definition.alternatives]
    if isinstance(definition, List):
        return [definition.item]
    return [definition.type] if isinstance(definition, Alias) else []


def has_unread(definition, wholes, seen):
    """Whether a type, or one within it, has a part of these types, whose octets are kept as they are."""
    if id(definition) in seen:
        return False
    seen.add(id(definition))
    leaves = [leaf for type_ in types_within(definition) for leaf in leaves_of(type_)]
    return any(leaf.whole in wholes for leaf in leaves) or any(has_unread(it, wholes, seen) for it in within(definition))


def leaves_of(type_):
    """The library's types that stand in a type."""
    if isinstance(type_, Tagged):
        return leaves_of(type_.of)
    if isinstance(type_, Listed):
        return leaves_of(type_.item)
    return [type_] if isinstance(type_, Leaf) else []


def used(type_):
    """The definitions that stand in a type."""
    if isinstance(type_, Tagged):
        return used(type_.of)
    if isinstance(type_, Listed):
        return used(type_.item)
    return [type_.definition] if isinstance(type_, Use) else []
