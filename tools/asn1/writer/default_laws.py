"""The page of the laws by which a module's defaults are made, and told from other values."""

from __future__ import annotations

from dataclasses import dataclass

from ..model import ResolvedModule
from .plan import Plan
from .source import Page

@dataclass(frozen=True)
class Law:
    """A law with what it takes, and the words that it is stated and proved in, by their modules."""

    text: str
    words: dict[str, str]


TOLD_BY_EQUALITY = Law(
    """-- a test that holds exactly where an encoding is the default's says whether it is
pub told_by_equality : (default octets : List ℕ) (test : Bool) → (IsTrue test ↔ (octets ≡ default)) → test ≡ is_default default octets
told_by_equality default octets true h = sym ((bytes_decides octets default).1 (h.0 refl))
told_by_equality default octets false h = sym (false_from_ne_true (pointwise nat_eq octets default) (λ e. let told = h.1 ((bytes_decides octets default).0 e) in absurd (cc)))""",
    {
        "std.proofs.Common": "◌≡◌ ◌↔◌ ℕ List Bool true false nat_eq refl sym IsTrue",
        "std.proofs.lemmas.Bool": "false_from_ne_true",
        "std.specs.Cmp.Lexicographic": "bytes_decides pointwise",
        "der_fields.specs.Defaults": "is_default",
    },
)
TOLD_BY_LENGTH = Law(
    """-- octets that are more than the default's are not its
pub told_by_length : (default octets : List ℕ) → length default < length octets → false ≡ is_default default octets
told_by_length default octets more = sym (false_from_ne_true (pointwise nat_eq octets default) (λ e. let same : length octets ≡ length default = ap length ((bytes_decides octets default).0 e) in omega arith))""",
    {
        "std.proofs.Common": "◌≡◌ ◌<◌ ℕ List false nat_eq length sym ap arith",
        "std.proofs.lemmas.Bool": "false_from_ne_true",
        "std.specs.Cmp.Lexicographic": "bytes_decides pointwise",
        "der_fields.specs.Defaults": "is_default",
    },
)
INTEGER_WITHIN = Law(
    """-- the fewest contents octets of an INTEGER are no more than these
pub integer_within : (octets : List ℕ) → AreOctets octets → 0 < length octets → length (integer_contents (twos_complement octets)) ≤ length octets
integer_within octets all some = integer_contents-shortest (twos_complement octets) octets all some refl""",
    {
        "std.proofs.Common": "◌<◌ ◌≤◌ ℕ List length refl",
        "der_elem.specs.Integer": "AreOctets integer_contents twos_complement",
        "der_elem.specs.IntegerLaws": "integer_contents-shortest",
    },
)
NATURAL_WITHIN = Law(
    """-- contents octets without a 00 that only says that a number is not negative are no more
either_within : (b : Bool) (first second : ℕ) (others : List ℕ) → length (if b then second ∷ others else first ∷ second ∷ others) ≤ length (first ∷ second ∷ others)
either_within true first second others = omega arith
either_within false first second others = omega arith

stripped_within : (octets : List ℕ) → length (without_sign_octet octets) ≤ length octets
stripped_within [] = omega arith
stripped_within (first ∷ []) = omega arith
stripped_within (first ∷ second ∷ others) = either_within (first == 0) first second others

-- so are the fewest octets of a number
pub natural_within : (octets : List ℕ) → AreOctets octets → 0 < length octets → slice_index octets 0 < 128 → length (without_sign_octet (natural_contents (big_endian_number octets))) ≤ length octets
natural_within octets all some small =
    let fewest : length (natural_contents (big_endian_number octets)) ≤ length octets = natural_contents-shortest octets all some small in
    let stripped : length (without_sign_octet (natural_contents (big_endian_number octets))) ≤ length (natural_contents (big_endian_number octets)) = stripped_within (natural_contents (big_endian_number octets)) in
    omega arith""",
    {
        "std.specs.Prelude": "◌==◌",
        "std.proofs.Common": "◌<◌ ◌≤◌ ◌∷◌ [] ℕ List Bool true false if◌then◌else◌ length slice_index arith",
        "der_elem.specs.Integer": "AreOctets big_endian_number natural_contents",
        "der_elem.specs.IntegerLaws": "natural_contents-shortest",
        "der_numbers.specs.AnyLength": "without_sign_octet",
    },
)
LAWS = {
    "told_by_equality": TOLD_BY_EQUALITY,
    "told_by_length": TOLD_BY_LENGTH,
    "integer_within": INTEGER_WITHIN,
    "natural_within": NATURAL_WITHIN,
}


def write_default_laws(plan: Plan, module: ResolvedModule, names: set[str]) -> str:
    """The page of these laws."""
    page = Page(plan, plan.targets[module.name], f"-- How the defaults of {module.name} are made, and told from other values.")
    for law in (law for name, law in LAWS.items() if name in names):
        page.add(law.text)
        for from_, words in law.words.items():
            for word in words.split():
                page.from_module(from_, word)
    return page.text()
