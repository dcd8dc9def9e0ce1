"""The functions that make a value of the library of octets that it refuses none of: those that a module's defaults call."""

from __future__ import annotations

from dataclasses import dataclass

from ..model import Whole
from . import docs
from .leaves import CHARACTERS
from .source import Source

PRELUDE = "std.specs.Prelude"
SHORT = "    requires short { length octets.now < 2 ^ 32 }\n"


@dataclass(frozen=True)
class Made:
    """A function: what it is of, its arguments and result, what it asks and answers, and the call that it makes."""

    words: str  # its documentation
    head: str  # from its name on
    asks: str
    answers: str  # the contents octets of the result, and what they are
    call: str
    uses: tuple[str, ...]  # of the library
    pages: tuple[tuple[str, str], ...] = ()  # the words of its clauses
    law: str = ""  # of the page of these laws
    is_tested: bool = True  # whether the call answers a Result

    @property
    def name(self) -> str:
        return self.head.split("(")[0].split("<")[0]

    def text(self, source: Source) -> str:
        """The function, with its imports."""
        for key in self.uses:
            source.use(key)
        for module, name in ((PRELUDE, "◌<◌"), (PRELUDE, "◌^◌"), (PRELUDE, "length"), *self.pages):
            source.page_word(module, name)
        law = f"{source.using(self.law)}\n" if self.law else ""
        tested = f"match {self.call} {{\n        Ok(value) => value,\n        Err(_) => unreachable!(),\n    }}"
        return (
            f"{docs.doc(self.words)}\n{law}fn {self.head}\n{self.asks}    ensures {{ {self.answers} }}\n"
            f"{{\n    {tested if self.is_tested else self.call}\n}}"
        )


SOME = "    requires some { 0 < length octets.now }\n"
FEW = "    requires few { length octets.now ≤ MAX_SIZE }\n"
BITS = "    requires bits { is_bit_string unused octets.now ≡ true }\n"
SAME = "≡ octets.now"
INTEGER = Made(
    "The INTEGER of any length with these contents octets.",
    "integer(octets: &[u8]) -> IntRef<'_>",
    SOME + SHORT,
    "int_ref.contents_of result ≡ integer_contents (twos_complement octets.now)",
    "IntRef::new(octets)",
    ("IntRef",),
    (
        ("der_numbers.specs.IntRef as int_ref", ""),
        ("der_elem.specs.Integer", "integer_contents"),
        ("der_elem.specs.Integer", "twos_complement"),
    ),
    "integer_within",
)
NATURAL = Made(
    "The INTEGER that is not negative with these contents octets.",
    "natural(octets: &[u8]) -> UintRef<'_>",
    SOME + SHORT + "    requires positive { slice_index octets.now 0 < 128 }\n",
    "uint_ref.contents_of result ≡ natural_contents (big_endian_number octets.now)",
    "UintRef::new(octets)",
    ("UintRef",),
    (
        (PRELUDE, "slice_index"),
        ("der_numbers.specs.UintRef as uint_ref", ""),
        ("der_elem.specs.Integer", "natural_contents"),
        ("der_elem.specs.Integer", "big_endian_number"),
    ),
    "natural_within",
)
OCTET_STRING = Made(
    "The OCTET STRING of these octets.",
    "octet_string(octets: &[u8]) -> OctetStringRef<'_>",
    SHORT,
    f"octet_string_ref.octets_of result {SAME}",
    "OctetStringRef::new(octets)",
    ("OctetStringRef",),
    (("der_opaque.specs.OctetStringRef as octet_string_ref", ""),),
)
GENERAL_STRING = Made(
    "The GeneralString of these octets.",
    "general_string(octets: &[u8]) -> GeneralStringOctets<'_>",
    SHORT,
    f"general_string_words.octets_of result {SAME}",
    "GeneralStringOctets::new(octets)",
    ("GeneralStringOctets",),
    (("der_modules.specs.GeneralString as general_string_words", ""),),
)
UTF8_STRING = Made(
    "The UTF8String of this text.",
    "utf8_string(text: &str) -> Utf8StringRef<'_>",
    SHORT.replace("octets", "text"),
    "utf8_string_ref.octets_of result ≡ text.now",
    "Utf8StringRef::try_from(text)",
    ("Utf8StringRef",),
    (("der_text.specs.Utf8StringRef as utf8_string_ref", ""),),
)
CHARACTER_STRING = Made(
    "The string of these characters, of the type with this universal number.",
    "character_string<const NUMBER: u8>(octets: &[u8]) -> CharacterStringRef<'_, NUMBER>",
    "    requires characters { are_characters NUMBER octets.now ≡ true }\n" + SHORT,
    f"character_string_ref.octets_of result {SAME}",
    "CharacterStringRef::new(octets)",
    ("CharacterStringRef",),
    (
        (PRELUDE, "true"),
        ("der_ascii.specs.CharacterStringRef as character_string_ref", ""),
        ("der_ascii.specs.Characters", "are_characters"),
    ),
)
SIMPLE_STRING = Made(
    "The string of these characters, of the type with this universal number.",
    "simple_string<const NUMBER: u8>(octets: &[u8]) -> SimpleStringRef<'_, NUMBER>",
    "    requires characters { are_simple_characters NUMBER octets.now ≡ true }\n" + SHORT,
    f"simple_string_ref.octets_of result {SAME}",
    "SimpleStringRef::new(octets)",
    ("SimpleStringRef",),
    (
        (PRELUDE, "true"),
        ("der_simple.specs.SimpleStringRef as simple_string_ref", ""),
        ("der_simple.specs.Characters", "are_simple_characters"),
    ),
)
BIT_STRING = Made(
    "The BIT STRING of these octets, of whose last so many bits are unused.",
    "bit_string(unused: u8, octets: &[u8]) -> BitStringRef<'_>",
    BITS + SHORT,
    "bit_string_ref.contents_of result ≡ unused ∷ octets.now",
    "BitStringRef::new(unused, octets)",
    ("BitStringRef",),
    (
        (PRELUDE, "◌∷◌"),
        (PRELUDE, "true"),
        ("der_bits.specs.BitStringRef as bit_string_ref", ""),
        ("der_bits.specs.BitString", "is_bit_string"),
    ),
)
NAMED_BITS = Made(
    "The BIT STRING with named bits of these octets, of whose last so many bits are unused, and whose last bit is 1.",
    "named_bits(unused: u8, octets: &[u8]) -> NamedBitsRef<'_>",
    BITS + "    requires trimmed { ends_in_one unused octets.now ≡ true }\n" + SHORT,
    "named_bits_ref.contents_of result ≡ unused ∷ octets.now",
    "NamedBitsRef::new(bit_string(unused, octets))",
    ("NamedBitsRef",),
    (
        (PRELUDE, "◌∷◌"),
        (PRELUDE, "true"),
        ("der_bits.specs.NamedBitsRef as named_bits_ref", ""),
        ("der_bits.specs.NamedBits", "ends_in_one"),
        ("der_bits.specs.BitString", "is_bit_string"),
    ),
    is_tested=False,
)
IDENTIFIER = Made(
    "The OBJECT IDENTIFIER with these contents octets.",
    "identifier<const MAX_SIZE: usize>(octets: &[u8]) -> ObjectIdentifierRef<'_, MAX_SIZE>",
    SOME + FEW + SHORT,
    f"identifier_ref.octets_of result {SAME}",
    "ObjectIdentifierRef::from_bytes(octets)",
    ("ObjectIdentifierRef",),
    ((PRELUDE, "◌≤◌"), ("der_opaque.specs.ObjectIdentifierRef as identifier_ref", "")),
)
OWNED_IDENTIFIER = Made(
    "The OBJECT IDENTIFIER with these contents octets, which owns them.",
    "owned_identifier<const MAX_SIZE: usize>(octets: &[u8]) -> ObjectIdentifier<MAX_SIZE>",
    SOME + FEW + SHORT,
    f"identifier_owned.octets_of result {SAME}",
    "ObjectIdentifier::from_bytes(octets)",
    ("ObjectIdentifier",),
    ((PRELUDE, "◌≤◌"), ("der_opaque.specs.ObjectIdentifier as identifier_owned", "")),
)

# By the type, but for an OBJECT IDENTIFIER that owns its octets.
OF_WHOLES = {
    Whole.INTEGER: INTEGER,
    Whole.NATURAL: NATURAL,
    Whole.OCTET_STRING: OCTET_STRING,
    Whole.GENERAL_STRING: GENERAL_STRING,
    Whole.UTF8_STRING: UTF8_STRING,
    **{whole: SIMPLE_STRING if kind == "SimpleString" else CHARACTER_STRING for whole, (kind, _) in CHARACTERS.items()},
    Whole.BIT_STRING: BIT_STRING,
    Whole.NAMED_BITS: NAMED_BITS,
    Whole.OBJECT_IDENTIFIER: IDENTIFIER,
}
