"""The pages of specs/ that name the fields of a struct, and the items of a list."""

from __future__ import annotations

from ..model import List, Struct
from .fields import Member, members_of, place_after
from .plan import Plan
from .source import Page
from .copies import way_to_list
from .types import closed, list_name, logic_type, plain


def write_struct_page(plan: Plan, struct: Struct) -> str:
    """The fields of a struct, by their names."""
    page = Page(plan, plan.of(struct), f"-- The fields of {struct.name}, by their names.")
    whole = page.logic_type(struct)
    for member in members_of(struct):
        page.add(projection(page, whole, member))
    if struct.has_additions:
        comment = "-- the elements after these, which the module does not have"
        place = f"v.fields{place_after(len(struct.fields))}"
        page.add(f"{comment}\nabbrev pub additions : {whole} → {page.logic('Additions')}\nadditions v = {place}")
    return page.text()


def projection(page: Page, whole: str, member: Member) -> str:
    """A field of a value: after its tags, and with no default."""
    type_ = logic_type(page, plain(member.field.type))
    place = f"v.fields{member.place}"
    comment = f"-- {member.field.name} {member.field.text}"
    if not member.is_optional:
        return f"{comment}\nabbrev pub {member.name} : {whole} → {type_}\n{member.name} v = {place}{member.way}"
    if member.way:
        place = f"{page.word('option_map')} (λ x. x{member.way}) {place}"
    option = f"{page.logic('Option')} {closed(type_)}"
    return f"{comment}\nabbrev pub {member.name} : {whole} → {option}\n{member.name} v = {place}"


def write_list_page(plan: Plan, definition: List) -> str:
    """The items of a list."""
    assert definition.item is not None
    page = Page(plan, plan.of(definition), f"-- The items of {definition.name}.")
    whole = page.logic_type(definition)
    item = closed(logic_type(page, definition.item))
    listed = page.logic(list_name(definition.listed))
    page.add(f"abbrev pub items_of : {whole} → {listed} {item}\nitems_of v = v.items{way_to_list(definition.listed)}")
    return page.text()
