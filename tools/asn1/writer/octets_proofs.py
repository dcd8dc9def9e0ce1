"""The proof of the law on the contents octets of a SEQUENCE with many OPTIONAL components: the prover's search tries each
component as present and as absent, and so meets a limit."""

from __future__ import annotations

from ..model import Struct
from ..spelling import snake
from .fields import Member
from .module_laws import members_as_written
from .plan import Plan

MANY = 7  # OPTIONAL components
HEAD = """-- The contents octets of {name} are the encodings of its fields.
use Rattle.std.proofs.Common.{{◌≡◌, ℕ, List, ◌++◌, Option, None, Some, refl, ap, ◌∙◌}}
use Rattle.std.specs.Prelude.{{option_map}}
use Rattle.der_elem.specs.Options.{{encoding_option}}
use Rattle.der_modules.specs.Asn1.{{optional}}
use Rattle.{crate}.proofs.{place}.Goals as goal

-- a component that may be absent, by its value and by the value after its tags
present : {{A B : Type 0}} (e : A → List ℕ) (f : B → List ℕ) (m : A → B) → ((x : A) → e x ≡ f (m x)) → (o : Option A) → encoding_option e o ≡ optional f (option_map m o)
present e f m same None = refl
present e f m same (Some x) = same x

-- the same of a value without tags
untagged : {{A : Type 0}} (e : A → List ℕ) (o : Option A) → encoding_option e o ≡ optional e o
untagged e None = refl
untagged e (Some x) = refl

-- octets before others
before : (a b c d : List ℕ) → a ≡ b → c ≡ d → a ++ c ≡ b ++ d
before a b c d p q = ap (λ x. x ++ c) p ∙ ap (λ y. b ++ y) q

pub returns : goal.returns
returns c v =
"""


def write_octets_proof(plan: Plan, struct: Struct) -> dict[str, str]:
    """The proof, where the struct has so many OPTIONAL components."""
    members = [] if struct.by_hand or struct.is_holder or struct.is_set or struct.has_additions else members_as_written(struct)
    if sum(member.is_optional for _, member in members) < MANY:
        return {}
    target = plan.of(struct)
    name = snake(struct.rust)
    place = f"{target.module}.{name}.octets_of_{name}"
    lines = [f"    before _ _ _ _ {step(member)} (\n" for _, member in members]
    text = HEAD.format(name=struct.name, crate=target.crate, place=place) + "".join(lines) + f"    refl{')' * len(members)}\n"
    return {f"proofs/{place.replace('.', '/')}/Answers.antt": text}


def step(member: Member) -> str:
    """That the octets of a component are those of the law."""
    if not member.is_optional:
        return "refl"
    field = f"v.fields{member.place}"
    return f"(present _ _ (λ x. x{member.way}) (λ x. refl) {field})" if member.way else f"(untagged _ {field})"
