"""An ENUMERATED as an enum of its names, which the library's `Enumerated` holds (X.690 8.4)."""

from __future__ import annotations

from ..as_written import enumeration as names_as_written
from ..model import Enumeration
from ..resolver.classes import base_of
from ..spelling import enumeration_name, snake
from ..syntax import EnumeratedType
from . import docs, markers
from .module_laws import add_laws
from .plan import Plan
from .source import Page, Source


def write_enumeration(plan: Plan, definition: Enumeration) -> str:
    """The source file of an ENUMERATED."""
    source = Source(plan, plan.of(definition), plan.file(definition))
    source.add(declaration(definition))
    source.add(enumeration(source, definition))
    add_laws(source, definition)
    return source.text([f"//! {definition.name}, an ENUMERATED of {len(definition.values)} names."])


def variant_of(definition: Enumeration, name: str) -> str:
    """The variant of a name."""
    return enumeration_name(name, definition.rust, [one.name for one in definition.values])


def declaration(definition: Enumeration) -> str:
    rust = definition.rust
    more = f"In a message it stands as `Enumerated<{rust}>`. A number without a name is refused (`ErrorKind::Value`, 13)."
    rows = "\n".join(f"    /// `{one.name}` ({one.number}).\n    {variant_of(definition, one.name)}," for one in definition.values)
    head = docs.of_definition(definition, more)
    return f"{head}\n#[derive(Clone, Copy, Debug, PartialEq, Eq)]\npub enum {rust} {{\n{rows}\n}}"


def enumeration(source: Source, definition: Enumeration) -> str:
    """The numbers of the names, and the names of the numbers."""
    rust, target = definition.rust, source.target
    names = source.page_word(f"{target.crate}.specs.{target.page}.{rust}", f"names_of_{snake(rust)}")
    to = "\n".join(f"            {rust}::{variant_of(definition, one.name)} => {one.number}," for one in definition.values)
    back = "\n".join(f"            {one.number} => Some({rust}::{variant_of(definition, one.name)})," for one in definition.values)
    return (
        f"impl {source.use('Enumeration')} for {rust} {{\n"
        f"    type Marker = {markers.of_definition(source, definition)};\n\n"
        f"    ghost {source.member('names')} = {{ {names} }};\n\n"
        f"    fn number(self) -> i64 {{\n        match self {{\n{to}\n        }}\n    }}\n\n"
        f"    fn of_number(number: i64) -> Option<{rust}> {{\n        match number {{\n{back}\n"
        f"            _ => None,\n        }}\n    }}\n}}"
    )


# ---- the page


def write_enumeration_page(plan: Plan, definition: Enumeration) -> str:
    """The number of each name, and all of the names, as the text of the module has them."""
    assert definition.origin is not None
    env, type_ = base_of(definition.origin.library, definition.origin.env, definition.origin.type)
    assert isinstance(type_, EnumeratedType)
    named = names_as_written(definition.origin.library, env, type_)
    page = Page(plan, plan.of(definition), f"-- The numbers of {definition.name}.")
    rust, name = page.logic_type(definition), snake(definition.rust)
    target = plan.of(definition)
    module = f"{target.crate}.specs.declared.{target.module}.{snake(definition.rust)}.{definition.rust}.TheVariants"
    variants = [page.from_module(module, variant_of(definition, one)) for one, _ in named]
    for key in ("≡", "refl", "[]", "∷", "Some"):
        page.word(key)
    numbers = "\n".join(
        f"number_of_{name} {one} = {page.integer(number)}" for one, (_, number) in zip(variants, named)
    )
    page.add(f"abbrev pub number_of_{name} : {rust} → {page.word('ℤ')}\n{numbers}")
    listed = " ∷ ".join([*variants, "[]"])
    page.add(f"abbrev pub all_of_{name} : {page.word('List')} {rust}\nall_of_{name} = {listed}")
    found = "\n".join(f"{name}_is_found {one} = refl" for one in variants)
    claim = f"{page.word('named')} number_of_{name} all_of_{name} (number_of_{name} value) ≡ Some value"
    page.add(f"pub {name}_is_found : (value : {rust}) → {claim}\n{found}")
    page.add(
        f"abbrev pub names_of_{name} : {page.word('Names')} {rust}\nnames_of_{name} = record {{\n"
        f"  number_of = number_of_{name};\n  values = all_of_{name};\n  is_found = {name}_is_found;\n  fit = refl;\n}}"
    )
    return page.text()
