"""Encodings of DER (X.690): identifier octets, length octets and contents octets, each in the fewest octets. Nothing here is
taken from the crates."""


def length(count):
    """The length octets (X.690 8.1.3, 10.1)."""
    if count < 128:
        return bytes([count])
    octets = count.to_bytes((count.bit_length() + 7) // 8, "big")
    return bytes([0x80 + len(octets)]) + octets


def identifier(bits, number):
    """The identifier octets of a tag: the three high bits of the first octet, and the number (X.690 8.1.2)."""
    return bytes([bits + number]) if number < 31 else bytes([bits + 31]) + base_128(number)


def base_128(number):
    """A number in base 128, highest digit first, with bit 8 in all its octets but the last (X.690 8.1.2.4, 8.19.2)."""
    digits = [number & 127]
    while number > 127:
        number >>= 7
        digits.insert(0, 128 + (number & 127))
    return bytes(digits)


def tlv(tag, *parts):
    """The encoding of these contents octets. The tag is its one octet as a number, or its identifier octets."""
    contents = b"".join(parts)
    return (tag if isinstance(tag, bytes) else bytes([tag])) + length(len(contents)) + contents


def sequence(*parts):
    return tlv(0x30, *parts)


def signed(value):
    """The fewest octets of two's complement."""
    count = 1
    while not -(1 << (8 * count - 1)) <= value < 1 << (8 * count - 1):
        count += 1
    return value.to_bytes(count, "big", signed=True)


def integer(value):
    return tlv(2, signed(value))
