"""`@skip` after '...': elements that a module does not have are kept, as extension additions (X.680 7, 25)."""

from __future__ import annotations

from ..errors import AsnError
from ..lexer import Annotation
from ..model import Field
from ..notes import Notes
from ..syntax import FieldsType

CALL = "additions"  # the field of the struct that has them


def has_additions(type_: FieldsType) -> bool:
    """Whether a SEQUENCE keeps the elements after its last component."""
    refuse_in_set(type_)
    refuse_before_root(type_)
    notes = Notes(type_.marker_notes)
    found = notes.has("skip")
    notes.check_used("'...'")
    return found


def refuse_in_set(type_: FieldsType) -> None:
    """The fields of a SET stand in the order of their tags (X.690 10.3), and additions among them."""
    if type_.is_set:
        why = "the fields of a SET stand in the order of their tags (X.690 10.3), so that additions stand among those that are known"
        refuse_skip(type_.marker_notes, "a SET", why)


def refuse_before_root(type_: FieldsType) -> None:
    """Additions stand before the components after the second '...' (X.680 25.1)."""
    if type_.root_resumes:
        why = "additions stand before the components after the second '...', and what is kept stands after all components"
        refuse_skip(type_.marker_notes, "a SEQUENCE with components after a second '...'", why)


def refuse_skip(notes: tuple[Annotation, ...], what: str, why: str) -> None:
    """An error where a type says `@skip` that keeps no additions."""
    for note in notes:
        if note.name == "skip":
            raise AsnError(note.place, f"'@skip' is not taken in {what}", f"leave it out: {why}")


def check_call(fields: tuple[Field, ...]) -> None:
    """No field has the name of the call that gives the additions."""
    for part in fields:
        if part.rust == CALL:
            words = f"'{part.name}' and the elements that '@skip' keeps are both '{CALL}' in Rattle"
            raise AsnError(part.place, words, "write '-- @name(..)' after the component")
