"""The proofs of the functions that make the INTEGERs of defaults: octets that a length counts are no more than their own."""

from __future__ import annotations

from .default_makers import INTEGER, NATURAL, Made
from .plan import DEFAULT_LAWS, DEFAULTS
from .source import Source

# What differs: the words, the contents octets of the octets' number, and what the law takes beside the octets.
WORDS = {INTEGER.name: "integer_contents, twos_complement", NATURAL.name: "big_endian_number, natural_contents"}
CONTENTS = {
    INTEGER.name: "integer_contents (twos_complement c.args.octets.now)",
    NATURAL.name: "without_sign_octet (natural_contents (big_endian_number c.args.octets.now))",
}
MORE = {INTEGER.name: "", NATURAL.name: " c.requires.positive"}
USES = {INTEGER.name: "", NATURAL.name: "use Rattle.der_numbers.specs.AnyLength.{without_sign_octet}\n"}
TEXT = """-- {first}
use Rattle.std.proofs.Common.{{◌≤◌, rules, arith, length, inl, inr, ap}}
use Rattle.der_elem.specs.Integer.{{AreOctets, {words}}}
use Rattle.der_elem.proofs.IntegerContents.{{are_octets}}
{uses}use Rattle.{crate}.specs.{page}.{laws}.{{{law}}}
use Rattle.{crate}.proofs.{place}.Goals as goal

pub unreachable-requires : goal.unreachable-requires
unreachable-requires c =
    let all : AreOctets c.args.octets.now = are_octets c.args.octets.now (search rules) in
    let within : length ({contents}) ≤ length c.args.octets.now = {law} c.args.octets.now all c.requires.some{more} in
    let some = c.requires.some in
    let short = c.requires.short in
    elim c.in-Err.ensures.1 [
      | inl none ↦ let empty = ap length none in omega (arith, some, empty)
      | inr long ↦ omega (arith, within, short, long)
    ]
"""


def write_proofs(source: Source, called: dict[str, Made]) -> dict[str, str]:
    """The proof of each of these functions that the prover's search does not find."""
    files = {}
    for name in (name for name in called if name in CONTENTS):
        place = f"{source.target.module}.{DEFAULTS}.{name}"
        files[f"proofs/{place.replace('.', '/')}/Answers.antt"] = TEXT.format(
            first="No octets, and more than a length counts, are refused: these are some, and few.",
            words=WORDS[name],
            uses=USES[name],
            crate=source.target.crate,
            page=source.target.page,
            laws=DEFAULT_LAWS,
            law=called[name].law,
            place=place,
            contents=CONTENTS[name],
            more=MORE[name],
        )
    return files
