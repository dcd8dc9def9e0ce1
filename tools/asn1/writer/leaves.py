"""The library's types of the types of ASN.1 that have no parts."""

from __future__ import annotations

from dataclasses import replace

from ..model import Leaf, Whole
from ..properties import properties_of
from .constraints import constraint_type
from .source import Source

# The library's type of each type of ASN.1: borrowed, and owned.
WHOLES: dict[Whole, tuple[str, str]] = {
    Whole.NULL: ("Null", "Null"),
    Whole.INTEGER: ("IntRef", "Int"),
    Whole.NATURAL: ("UintRef", "Uint"),
    Whole.BIT_STRING: ("BitStringRef", "BitString"),
    Whole.NAMED_BITS: ("NamedBitsRef", "NamedBitsRef"),
    Whole.OCTET_STRING: ("OctetStringRef", "OctetString"),
    Whole.OBJECT_IDENTIFIER: ("ObjectIdentifierRef", "ObjectIdentifier"),
    Whole.UTC_TIME: ("UtcTime", "UtcTime"),
    Whole.GENERALIZED_TIME: ("GeneralizedTime", "GeneralizedTime"),
    Whole.FRACTIONAL_TIME: ("FractionalTimeRef", "FractionalTimeRef"),
    Whole.UTF8_STRING: ("Utf8StringRef", "String"),
    Whole.PRINTABLE_STRING: ("PrintableStringRef", "PrintableString"),
    Whole.TELETEX_STRING: ("TeletexStringRef", "TeletexString"),
    Whole.VIDEOTEX_STRING: ("VideotexStringRef", "VideotexString"),
    Whole.IA5_STRING: ("Ia5StringRef", "Ia5String"),
    Whole.GENERAL_STRING: ("GeneralStringOctets", "GeneralStringOctets"),
    Whole.NUMERIC_STRING: ("NumericStringRef", "NumericStringRef"),
    Whole.VISIBLE_STRING: ("VisibleStringRef", "VisibleStringRef"),
    Whole.RELATIVE_OID: ("RelativeOidRef", "RelativeOidRef"),
    Whole.BMP_STRING: ("BmpString", "BmpString"),
    Whole.ANY: ("AnyRef", "Any"),
    Whole.UNREAD_SEQUENCE: ("SequenceRef", "SequenceRef"),
}
# Strings that are a type of the library with a universal number, and both.
CHARACTERS = {
    Whole.NUMERIC_STRING: ("SimpleString", 18),
    Whole.PRINTABLE_STRING: ("CharacterString", 19),
    Whole.TELETEX_STRING: ("CharacterString", 20),
    Whole.VIDEOTEX_STRING: ("CharacterString", 21),
    Whole.IA5_STRING: ("CharacterString", 22),
    Whole.VISIBLE_STRING: ("SimpleString", 26),
}


def rust_leaf(source: Source, leaf: Leaf) -> str:
    """A type of the library, of which a constraint may allow some values."""
    if leaf.allowed is not None:
        inner = rust_leaf(source, replace(leaf, allowed=None))
        return f"{source.use('Constrained')}<{inner}, {constraint_type(source, leaf.allowed)}>"
    if leaf.whole is Whole.BOOLEAN:
        return "bool"
    if leaf.whole is Whole.MACHINE_INTEGER:
        return leaf.width or "u8"
    key = WHOLES[leaf.whole][1 if leaf.is_owned else 0]
    name = key if key == "String" else source.use(key)
    if leaf.whole is Whole.OBJECT_IDENTIFIER:
        return f"{name}<{leaf.octets}>" if leaf.is_owned else f"{name}<'a, {leaf.octets}>"
    return name + lifetime_of(properties_of(leaf).borrows)


def lifetime_of(borrows: bool) -> str:
    return "<'a>" if borrows else ""
