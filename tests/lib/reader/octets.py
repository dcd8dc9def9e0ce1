"""Encodings of X.690 DER: where each begins, where its contents stand, and where it ends."""

# The universal numbers that docs/FORMAT.md lists.
KNOWN = {1, 2, 3, 4, 5, 6, 9, 10, 12, 13, 16, 17, 18, 19, 20, 21, 22, 23, 24, 26, 27, 30}
CONSTRUCTED = {16, 17}
MOST = 0xFFFFFFFF


class Refused(Exception):
    """Octets that are not what the grammar allows."""


def refuse_unless(holds, words):
    if not holds:
        raise Refused(words)


class Encoding:
    """An encoding in octets: `tag` is its first identifier octet."""

    def __init__(self, octets, begin, contents_begin, end):
        self.octets, self.begin, self.contents_begin, self.end = octets, begin, contents_begin, end
        self.tag = octets[begin]

    @property
    def contents(self):
        return self.octets[self.contents_begin : self.end]

    @property
    def whole(self):
        return self.octets[self.begin : self.end]

    @property
    def length(self):
        return self.end - self.begin

    def fields(self):
        """The encodings in its contents octets."""
        return Fields(self.octets, self.contents_begin, self.end)

    def has(self, tag):
        refuse_unless(self.tag == tag, f"{self.tag:02x} stands where {tag:02x} is expected")
        return self

    def only(self, tag):
        """The one encoding in its contents octets, as behind an explicit tag."""
        fields = self.fields()
        held = fields.take(tag)
        fields.close()
        return held


class Fields:
    """Encodings one after another, taken from the left."""

    def __init__(self, octets, begin, end):
        self.octets, self.at, self.end = octets, begin, end

    def is_empty(self):
        return self.at == self.end

    def next(self):
        found = encoding_at(self.octets, self.at, self.end)
        self.at = found.end
        return found

    def take(self, *tags):
        found = self.next()
        refuse_unless(found.tag in tags, f"{found.tag:02x} stands where {tags} are expected")
        return found

    def option(self, *tags):
        """The next one if it has one of these tags."""
        if self.is_empty() or self.octets[self.at] not in tags:
            return None
        return self.next()

    def close(self):
        refuse_unless(self.is_empty(), "octets are left over")

    def rest(self, *tags):
        """All that is left, of these tags where some are given."""
        found = []
        while not self.is_empty():
            found.append(self.take(*tags) if tags else self.next())
        return found


def after_tag(octets, begin, end):
    """The place after the identifier octets (X.690 8.1.2)."""
    refuse_unless(begin < end, "the octets end before a tag")
    first, at = octets[begin], begin + 1
    number = first & 31
    if number == 31:
        number = 0
        refuse_unless(at < end and octets[at] != 0x80, "a number of a tag with a leading zero")
        while True:
            refuse_unless(at < end, "the octets end in a tag")
            number = number << 7 | octets[at] & 0x7F
            refuse_unless(number <= MOST, "a number of a tag that is too great")
            at += 1
            if octets[at - 1] < 0x80:
                break
        refuse_unless(number >= 31, "a number of a tag that needs no long form")
    if first < 0x40:
        refuse_unless(number in KNOWN, "a universal tag that is not known")
        refuse_unless((first & 0x20 != 0) == (number in CONSTRUCTED), "the other form of a universal tag")
    return at


def length_at(octets, at, end):
    """The length, and the place after its octets (X.690 8.1.3, 10.1)."""
    refuse_unless(at < end, "the octets end before a length")
    first = octets[at]
    if first < 0x80:
        return first, at + 1
    count = first - 0x80
    refuse_unless(1 <= count <= 4, "a length that is indefinite or too long")
    refuse_unless(at + 1 + count <= end, "the octets end in a length")
    length = int.from_bytes(octets[at + 1 : at + 1 + count], "big")
    refuse_unless(length >= 128 and length >> 8 * (count - 1), "a length in more octets than it needs")
    return length, at + 1 + count


def encoding_at(octets, begin, end):
    length, contents = length_at(octets, after_tag(octets, begin, end), end)
    refuse_unless(contents + length <= end, "the octets end too soon")
    return Encoding(octets, begin, contents, contents + length)


def message_of(octets):
    """All of the octets, as one encoding."""
    fields = Fields(octets, 0, len(octets))
    message = fields.next()
    fields.close()
    return message


def read_inside(octets, begin, end):
    """One encoding that fills these octets, as in an OCTET STRING."""
    fields = Fields(octets, begin, end)
    held = fields.next()
    fields.close()
    return held
