"""The components of SEQUENCE and SET (X.680 25), and the alternatives of CHOICE (29)."""

from __future__ import annotations

from dataclasses import replace

from ..errors import AsnError, Place
from ..lexer import Annotation, Kind
from ..syntax import ChoiceType, Component, ComponentsOf, FieldsType
from .cursor import Cursor
from . import constraints, types
from .values import parse_value

INSTEAD = "write components as 'name Type', with commas between them and '}' after the last"


class Listed:
    """What stands in the braces: the components in their order, and where '...' stands."""

    def __init__(self) -> None:
        self.components: list[Component | ComponentsOf] = []
        self.markers = 0
        self.marker_notes: list[Annotation] = []
        self.root_resumes = False  # a component stands after the second '...' (25.1)

    def add(self, part: Component | ComponentsOf) -> None:
        """The next component."""
        self.components.append(part)
        self.root_resumes |= self.markers > 1

    @property
    def in_additions(self) -> bool:
        """Between the first '...' and the second (25.1)."""
        return self.markers == 1


def parse_fields(cursor: Cursor, place: Place, is_set: bool) -> FieldsType:
    """`{ name Type OPTIONAL, name Type DEFAULT value, .. }`."""
    listed = parse_braces(cursor, is_choice=False)
    is_extensible = listed.markers > 0 or cursor.is_extensible
    notes = tuple(listed.marker_notes)
    return FieldsType(
        place, is_set, tuple(listed.components), is_extensible, marker_notes=notes, root_resumes=listed.root_resumes
    )


def parse_alternatives(cursor: Cursor, of: Place) -> ChoiceType:
    """`{ name Type, .. }`."""
    place = cursor.place
    listed = parse_braces(cursor, is_choice=True)
    alternatives = tuple(part for part in listed.components if isinstance(part, Component))
    if not alternatives:
        raise AsnError(place, "this CHOICE has no alternative", "write at least one (X.680 29.1)")
    return ChoiceType(of, alternatives, listed.markers > 0 or cursor.is_extensible, tuple(listed.marker_notes))


def parse_braces(cursor: Cursor, is_choice: bool) -> Listed:
    """What stands between `{` and `}`."""
    listed = Listed()
    cursor.expect("{", "write '{' before the components")
    if cursor.take("}"):
        return listed
    parse_one(cursor, listed, is_choice)
    while not cursor.sees("}"):
        if cursor.peek().kind is Kind.END:
            cursor.fail("the end of the file stands where '}' is expected", INSTEAD)
        parse_one(cursor, listed, is_choice)
    cursor.next()
    return listed


def parse_one(cursor: Cursor, listed: Listed, is_choice: bool) -> None:
    """One component, a marker, or a group of additions, with the comma after it."""
    if cursor.sees("..."):
        parse_marker(cursor, listed)
        return
    if cursor.take("[["):
        parse_group(cursor, listed, is_choice)
    elif cursor.sees("COMPONENTS"):
        parse_components_of(cursor, listed, is_choice)
    else:
        listed.add(parse_component(cursor, listed.in_additions, is_choice))
        return
    take_comma(cursor)


def take_comma(cursor: Cursor) -> None:
    """The comma between components, or what closes them."""
    if cursor.take(","):
        if cursor.sees("}"):
            cursor.fail("no component stands after this comma", "leave the comma out")
    elif not cursor.sees("}") and not cursor.sees("]]"):
        cursor.fail(f"{cursor.peek()} stands where ',' or '}}' is expected", INSTEAD)


def parse_marker(cursor: Cursor, listed: Listed) -> None:
    """`...`, perhaps with an exception (53), and the comma after it."""
    with cursor.collecting() as annotations:
        cursor.next()
        constraints.take_exception(cursor)
        take_comma(cursor)
    listed.markers += 1
    listed.marker_notes += annotations


def parse_group(cursor: Cursor, listed: Listed, is_choice: bool) -> None:
    """`[[ version: .. ]]` (25.1)."""
    if cursor.sees_kind(Kind.NUMBER) and cursor.peek(1).text == ":":
        cursor.next()
        cursor.next()
    while not cursor.take("]]"):
        if cursor.peek().kind is Kind.END:
            cursor.fail("the end of the file stands where ']]' is expected", "close the group of additions")
        listed.add(parse_component(cursor, True, is_choice))


def parse_components_of(cursor: Cursor, listed: Listed, is_choice: bool) -> None:
    """`COMPONENTS OF Type` (25.5)."""
    place = cursor.place
    if listed.in_additions:
        cursor.fail("COMPONENTS OF stands after '...'", "write the components out, each with OPTIONAL or DEFAULT")
    cursor.next()
    cursor.expect("OF", "write 'COMPONENTS OF Type'")
    if is_choice:
        raise AsnError(place, "COMPONENTS OF stands in a CHOICE", "write the alternatives out")
    listed.add(ComponentsOf(place, types.parse_type(cursor)))


def parse_component(cursor: Cursor, is_addition: bool, is_choice: bool) -> Component:
    """`name Type`, `name Type OPTIONAL`, `name Type DEFAULT value`, and the comma after it."""
    with cursor.collecting() as annotations:
        place, name = cursor.place, parse_name(cursor)
        first = cursor.peek()
        found = Component(place, name, types.parse_type(cursor), False, None, (), "", is_addition)
        presence = cursor.at
        if cursor.peek().text in ("OPTIONAL", "DEFAULT"):
            found = parse_presence(cursor, found, is_choice)
        if is_addition and not is_choice and not found.optional and found.default is None:
            found = replace(found, optional=True, is_later=True)
        text = cursor.text_from(first, presence)
        take_comma(cursor)
    return replace(found, annotations=tuple(annotations), text=text)


def parse_name(cursor: Cursor) -> str:
    """The name of a component; X.208 may leave it out, and then the first word of the type is the name."""
    token = cursor.peek()
    if token.kind is Kind.LOWER:
        return cursor.next().text
    if token.kind is Kind.UPPER:
        return token.text[0].lower() + token.text[1:]
    if token.kind is Kind.WORD:
        return token.text.lower()
    cursor.fail(f"{token} stands where the name of a component is expected", INSTEAD)


def parse_presence(cursor: Cursor, component: Component, is_choice: bool) -> Component:
    """OPTIONAL or DEFAULT, which an alternative has not."""
    if is_choice:
        cursor.fail(
            f"the alternative '{component.name}' is {cursor.peek().text}",
            "leave that out: an alternative of a CHOICE is there or not (X.680 29.1)",
        )
    if cursor.take("OPTIONAL"):
        return replace(component, optional=True)
    cursor.next()
    return replace(component, default=parse_value(cursor))
