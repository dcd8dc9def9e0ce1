"""The kinds of reasons for which the compiler refuses a type, for counting."""

from __future__ import annotations

import re

from ..errors import AsnError

# A part of what an error says, and its kind; the first that is found.
KINDS = [
    (r"DEFAULT .*is not taken|this DEFAULT|no DEFAULT here", "DEFAULT that the library lacks"),
    (r"there is no type for (\w+)", r"\1"),
    (r"type '.*' reaches itself", "recursion"),
    (r"too many types stand|more than \d+ (types|constraints) stand|calls itself", "too deep"),
    (r"'(REAL|EXTERNAL|EMBEDDED|CHARACTER|INSTANCE|RELATIVE-OID|ObjectDescriptor|MACRO)'? is not taken", r"\1"),
    (r"^(REAL|EXTERNAL|EMBEDDED|CHARACTER|INSTANCE|RELATIVE-OID|ObjectDescriptor|MACRO) is not taken", r"\1"),
    (r"selection type", "selection type"),
    (r"^INSTANCE OF with its own tag", "INSTANCE OF with its own tag"),
    (r"field of the object", "type of a field of an object"),
    (r"^what stands after '.* <' is no CHOICE|^the CHOICE has no alternative", "selection from no such CHOICE"),
    (r"EXTENSIBILITY IMPLIED", "EXTENSIBILITY IMPLIED"),
    (r"WITH SUCCESSORS", "WITH SUCCESSORS"),
    (r"neither OPTIONAL nor DEFAULT", "addition neither OPTIONAL nor DEFAULT"),
    (r"COMPONENTS OF stands after", "COMPONENTS OF after '...'"),
    (r"COMPONENTS OF", "COMPONENTS OF of no such type"),
    (r"neither assigned in", "assigned nowhere"),
    (r"exported, and neither", "exported, and assigned nowhere"),
    (r"which is not given", "a module that is not there"),
    (r"assigns no", "module assigns no such name"),
    (r"does not export", "module does not export the name"),
    (r"is assigned twice", "assigned twice"),
    (r"is imported from .* which assign it|and so hands on none", "imported from two modules"),
    (r"is named '|are both '", "names alike in Rattle"),
    (r"are not distinguished", "tags not distinct"),
    (r"IMPLICIT stands before", "IMPLICIT before a CHOICE or an open type"),
    (r"class UNIVERSAL", "tag of the class UNIVERSAL"),
    (r"field of a field|of the field '.*' are (no )?objects", "field of a field of a class"),
    (r"has no field|is no class|stands for no type|stands where a type is expected$", "class or type of another kind"),
    (r"parameters, and|is no (name of a )?parameter", "parameters"),
    (r"instance of '.*' has other types", "instances that differ"),
    (r"this value is no number|is no value$|stands for itself", "value of another kind"),
    (r"object identifier|arcs", "object identifier value"),
    (r"stands twice|has two names", "name or number stands twice"),
    (r"of '.*' is not greater|is one of those before", "number of an addition"),
    (r"annotation|'@", "annotation"),
    (r"is no UTF-8", "file is no UTF-8"),
    (r"character .* is none of ASN|hyphen|begins with 0|quoted string|comment does not end|digits", "lexical item"),
    (r"is expected", "syntax"),
]

# What X.680 and its siblings refuse themselves, or what lies outside of the module.
NOT_ALLOWED = frozenset(
    [
        "COMPONENTS OF of no such type",
        "IMPLICIT before a CHOICE or an open type",
        "a module that is not there",
        "assigned nowhere",
        "assigned twice",
        "class or type of another kind",
        "exported, and assigned nowhere",
        "imported from two modules",
        "lexical item",
        "module assigns no such name",
        "module does not export the name",
        "name or number stands twice",
        "number of an addition",
        "object identifier value",
        "parameters",
        "selection from no such CHOICE",
        "syntax",
        "tag of the class UNIVERSAL",
        "tags not distinct",
        "value of another kind",
    ]
)


def kind_of(error: Exception) -> str:
    """The kind of an error; what is none of the compiler's errors is a traceback."""
    if not isinstance(error, AsnError):
        return f"traceback: {type(error).__name__}"
    for pattern, kind in KINDS:
        found = re.search(pattern, error.problem)
        if found:
            return found.expand(kind)
    return "other: " + re.sub(r"'[^']*'", "..", error.problem)


def name_in(error: Exception | None) -> str | None:
    """The name that an error says is assigned nowhere."""
    if not isinstance(error, AsnError):
        return None
    found = re.search(r"^'([^']+)' is neither assigned|assigns no '([^']+)'", error.problem)
    return (found.group(1) or found.group(2)) if found else None
