"""What becomes of a type that the layer lacks, or that has a part of such a type.

After an implicit tag its contents octets are kept. An alternative, or a component that may be absent, is left out. The contents octets
of a SEQUENCE or a SEQUENCE OF that has such a part in each value are kept behind its tag, and not read. The components of a SET whose
order depends on its value are kept too, each as any value.
"""

from __future__ import annotations

from ..errors import AsnError, Place
from ..model import Leaf, Listed, Resolved, Tag, Tagged, Whole
from ..syntax import Component, FieldsType, ListType, Simple, Type
from .context import Context
from .lacking import LACKING, Lack, Search, lack_of

ANY_SET = Listed(Leaf(Whole.ANY), is_set=True, is_never_empty=False, is_any_order=True)
OMIT = "write '-- @omit' after the assignment that has it"


def kept(context: Context, place: Place, lack: Lack) -> Leaf:
    """The contents octets of a type that lacks something, after an implicit tag, which the layer reads."""
    said = f"the contents octets of this {lack.of} are kept, and not checked"
    context.say(place, said)
    return Leaf(Whole.UNREAD_SEQUENCE if lack.is_constructed else Whole.OCTET_STRING)


def is_kept(context: Context, type_: Type) -> bool:
    """Whether a type is a SEQUENCE or a SEQUENCE OF whose contents octets are kept, for what it lacks."""
    return sequence_lacks(context, type_) is not None


def sequence_lacks(context: Context, type_: Type) -> tuple[str, Lack] | None:
    """The part that a SEQUENCE or a SEQUENCE OF lacks, with its own tag or with another in place of that."""
    if not isinstance(type_, (FieldsType, ListType)) or type_.is_set:
        return None
    return Search(context.state.library).lacking_part(context.env, type_, ())


def kept_sequence(context: Context, type_: Type) -> Leaf | None:
    """The contents octets of a SEQUENCE or a SEQUENCE OF that lacks a part of each value, behind its tag."""
    found = sequence_lacks(context, type_)
    if found is None:
        return None
    part, lack = found
    word = "SEQUENCE OF" if isinstance(type_, ListType) else "SEQUENCE"
    said = f"the contents octets of this {word} are kept, and not read: {part} needs {lack.what}, which the layer lacks"
    context.say(type_.place, said)
    return Leaf(Whole.UNREAD_SEQUENCE)


def kept_set(context: Context, place: Place, name: str, tags: list[Tag]) -> Resolved:
    """The components of a SET whose order depends on its value (X.690 10.3), each as any value, after implicit tags."""
    said = f"the components of this SET are kept, each as any value, and not checked: '{name}' has no one place among them (X.690 10.3)"
    context.say(place, said)
    found: Resolved = ANY_SET
    for tag in reversed(tags):
        found = Tagged(tag, False, found)
    return found


def refuse(place: Place, simple: Simple) -> None:
    if simple is Simple.REAL:
        raise AsnError(place, "there is no type for REAL", "write ANY, and read its contents octets yourself")
    raise AsnError(
        place,
        f"there is no type for {simple.value}: its tag [UNIVERSAL {LACKING[simple]}] is refused (5)",
        OMIT,
    )


def is_left_out(context: Context, part: Component) -> bool:
    """Whether an alternative, or a component that may be absent, is left out for its type; values that have it are refused."""
    found = lack_of(context.state.library, context.env, part)
    if found is None:
        return False
    said = f"a value with '{part.name}' is refused: the layer has no {found.what}"
    context.say(part.place, said)
    return True
