"""The encoding of a default, by the resolver's types: as a term of the logic, and as octets."""

from __future__ import annotations

from ..model import (
    AlternativeValue,
    Bits,
    DefaultValue,
    Field,
    FieldValues,
    Leaf,
    NamedValue,
    Nothing,
    Octets,
    Resolved,
    Tag,
    Tagged,
    Whole,
)
from ..properties import is_constructed, named_type, tags_of
from .module_laws import CLASS_WORDS
from .names import ASN1, TAGS
from .source import Source

# ---- as a term


def encoding_term(source: Source, type_: Resolved, value: DefaultValue) -> str:
    """The encoding of a value, in the words of X.690."""
    return f"{source.word('tlv')} {' '.join(terms(source, type_, value))}"


def terms(source: Source, type_: Resolved, value: DefaultValue) -> tuple[str, str]:
    """The tag of a value, and its contents octets."""
    type_ = named_type(type_)
    if isinstance(type_, Tagged):
        tag, contents = terms(source, type_.of, value)
        if type_.is_explicit:
            return marker_term(source, type_.tag, True), f"({source.word('tlv')} {tag} {contents})"
        return marker_term(source, type_.tag, is_constructed(type_.of)), contents
    if isinstance(value, AlternativeValue):
        return terms(source, value.definition.alternatives[value.index].type, value.value)
    return own_tag(source, type_), contents_term(source, type_, value)


def own_tag(source: Source, type_: Resolved) -> str:
    """The tag of a type with no tags before it."""
    (tag,) = tags_of(type_) or frozenset()
    if tag.tag_class:
        return marker_term(source, tag, is_constructed(type_))
    source.word("tags")
    return f"tags.{TAGS[tag.number]}"


def marker_term(source: Source, tag: Tag, constructed: bool) -> str:
    place = source.page_word(ASN1, CLASS_WORDS[tag.tag_class])
    return f"({source.word('marker_tag')} {place} {source.word('true' if constructed else 'false')} {tag.number})"


def contents_term(source: Source, type_: Resolved, value: DefaultValue) -> str:
    """The contents octets of a value."""
    if isinstance(value, bool):
        return f"({source.word('boolean_contents')} {source.word('true' if value else 'false')})"
    if isinstance(value, int):
        return number_term(source, value, is_signed(type_))
    if isinstance(value, NamedValue):
        number = next(one.number for one in value.definition.values if one.name == value.name)
        return number_term(source, number, True)
    if isinstance(value, FieldValues):
        joined = source.page_word(ASN1, "joined")
        return f"({joined} {listed(source, [f'({encoding_term(source, *one)})' for one in present(value)])})"
    return listed(source, [str(octet) for octet in contents_octets(type_, value)])


def present(value: FieldValues) -> list[tuple[Resolved, DefaultValue]]:
    """The fields that stand in the encoding, with their values."""
    pairs: list[tuple[Field, DefaultValue | None]] = list(zip(value.definition.fields, value.values))
    return [(part.type, one) for part, one in pairs if one is not None]


def is_signed(type_: Resolved) -> bool:
    """Whether the library has the contents octets of an INTEGER by a number that may be negative."""
    assert isinstance(type_, Leaf)
    return type_.whole is Whole.INTEGER or (type_.width or "u").startswith("i")


def number_term(source: Source, number: int, signed: bool) -> str:
    if not signed:
        return f"({source.word('natural_contents')} {number})"
    whole = f"{source.word('pos')} {number}" if number >= 0 else f"{source.word('negsuc')} {-number - 1}"
    return f"({source.word('integer_contents')} ({whole}))"


def listed(source: Source, items: list[str]) -> str:
    """A list of the logic."""
    source.word("[]")
    if not items:
        return "[]"
    return f"({f' {source.word(chr(0x2237))} '.join([*items, '[]'])})"


# ---- as octets


def encoded(type_: Resolved, value: DefaultValue) -> bytes:
    """The encoding of a value (X.690 8.1)."""
    type_ = named_type(type_)
    if isinstance(type_, Tagged):
        inner = encoded(type_.of, value)
        contents = inner if type_.is_explicit else without_header(inner)
        return header(type_.tag, type_.is_explicit or is_constructed(type_.of), len(contents)) + contents
    if isinstance(value, AlternativeValue):
        return encoded(value.definition.alternatives[value.index].type, value.value)
    (tag,) = tags_of(type_) or frozenset()
    contents = contents_octets(type_, value)
    return header(tag, is_constructed(type_), len(contents)) + contents


def without_header(octets: bytes) -> bytes:
    """The contents octets of an encoding."""
    at = 1
    if octets[0] & 0x1F == 0x1F:
        at += next(i for i, octet in enumerate(octets[1:], 1) if octet < 0x80)
    return octets[at + 1 + (octets[at] & 0x7F if octets[at] & 0x80 else 0) :]


def header(tag: Tag, constructed: bool, length: int) -> bytes:
    """The identifier octets and the length octets (X.690 8.1.2, 8.1.3)."""
    first = tag.tag_class << 6 | constructed << 5
    identifier = bytes([first | tag.number]) if tag.number < 31 else bytes([first | 31]) + base_128(tag.number)
    if length < 0x80:
        return identifier + bytes([length])
    digits = length.to_bytes((length.bit_length() + 7) // 8, "big")
    return identifier + bytes([0x80 | len(digits)]) + digits


def base_128(number: int) -> bytes:
    """Seven bits an octet, with bit 8 in all but the last (X.690 8.1.2.4.2)."""
    octets = [number & 0x7F]
    while number > 0x7F:
        number >>= 7
        octets.append(number & 0x7F | 0x80)
    return bytes(reversed(octets))


def contents_octets(type_: Resolved, value: DefaultValue) -> bytes:
    """The contents octets of a value."""
    if isinstance(value, bool):
        return b"\xff" if value else b"\x00"
    if isinstance(value, int):
        return twos_complement(value)
    if isinstance(value, NamedValue):
        return twos_complement(next(one.number for one in value.definition.values if one.name == value.name))
    if isinstance(value, Bits):
        return bytes([value.unused]) + value.octets
    if isinstance(value, Octets):
        return value.octets
    if isinstance(value, FieldValues):
        return b"".join(encoded(*one) for one in present(value))
    assert isinstance(value, Nothing)
    return b""


def twos_complement(number: int) -> bytes:
    """The fewest octets of a number's two's complement (X.690 8.3)."""
    bits = number.bit_length() if number >= 0 else (-number - 1).bit_length()
    return number.to_bytes(bits // 8 + 1, "big", signed=True)
