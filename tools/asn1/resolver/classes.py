"""Types from classes (X.681 14), and the parameters of types (X.683)."""

from __future__ import annotations

from ..errors import AsnError, Place
from ..scope import Binding, Env, Library, Scope
from ..syntax import (
    AnyType,
    BitStringType,
    ChoiceType,
    ClassAssignment,
    ClassField,
    ConstrainedType,
    FieldOfClass,
    NamedNumber,
    ReferenceType,
    SelectionType,
    Simple,
    SimpleType,
    TaggedType,
    Type,
    TypeAssignment,
)
from ..tagging import alternatives

MOST_STEPS = 1000  # from a type to what it is: a parameter's name may be met again, and stand for another type then
NOWHERE = Place("X.681", 1, 1)
IDENTIFIER = ClassField(NOWHERE, "&id", SimpleType(NOWHERE, Simple.OBJECT_IDENTIFIER))
PROPERTY = ClassField(NOWHERE, "&property", BitStringType(NOWHERE, (NamedNumber(NOWHERE, "handles-invalid-encodings", 0),)))
# The classes that each module has (X.681 annexes A and B).
BUILT_IN = {
    "TYPE-IDENTIFIER": (IDENTIFIER, ClassField(NOWHERE, "&Type", None)),
    "ABSTRACT-SYNTAX": (IDENTIFIER, ClassField(NOWHERE, "&Type", None), PROPERTY),
}


def find_class(
    library: Library, env: Env, name: str, place: Place, module: str | None = None
) -> tuple[Env, ClassAssignment] | None:
    """The class of a name, or None where the name is a type's; a name that reaches itself is none."""
    seen: set[tuple[str, str]] = set()
    while (module or env.scope.module.name, name) not in seen:
        seen.add((module or env.scope.module.name, name))
        if name in BUILT_IN:
            return env, ClassAssignment(NOWHERE, name, BUILT_IN[name])
        if module is None and name in env.bindings:
            env, following = env.bindings[name].env, env.bindings[name].actual.type
        else:
            scope, found = library.find(env, name, place, module)
            if isinstance(found, ClassAssignment):
                return Env(scope), found
            plain = found if isinstance(found, TypeAssignment) and not found.parameters else None
            env, following = Env(scope), plain.type if plain else None
        if not isinstance(following, ReferenceType) or following.actuals:
            return None
        module, name, place = following.module, following.name, following.place
    return None


def class_of(library: Library, env: Env, type_: Type | None) -> tuple[Env, ClassAssignment] | None:
    """The class that a name stands for where a type may stand, or None where it is a type."""
    if not isinstance(type_, ReferenceType) or type_.actuals:
        return None
    return find_class(library, env, type_.name, type_.place, type_.module)


def type_of_field(library: Library, env: Env, type_: FieldOfClass) -> tuple[Env, Type]:
    """What `CLASS.&field` stands for: ANY for an open type, and else the type of the field."""
    found = find_class(library, env, type_.class_name, type_.place, type_.module)
    if found is None:
        raise AsnError(type_.place, f"'{type_.class_name}' is no class", "write the name of a class before '.&'")
    for name in type_.fields[:-1]:
        found = class_of(library, found[0], field_of(found[1], name, type_.place).type)
        if found is None:
            instead = "write a field whose values are objects before that of their class"
            raise AsnError(type_.place, f"the values of the field '{name}' are no objects", instead)
    last = field_of(found[1], type_.fields[-1], type_.place)
    if class_of(library, found[0], last.type):
        raise AsnError(type_.place, f"the values of the field '{last.name}' are objects", "write a field of their class after it")
    return found[0], last.type or AnyType(type_.place, None)


def field_of(class_: ClassAssignment, name: str, place: Place) -> ClassField:
    """A field of a class by its name."""
    for one in class_.fields:
        if one.name == name:
            return one
    known = ", ".join(one.name for one in class_.fields)
    raise AsnError(place, f"the class '{class_.name}' has no field '{name}'", f"its fields are {known}")


def selected(library: Library, env: Env, type_: SelectionType) -> tuple[Env, Type]:
    """The type of an alternative, with the tag that the alternative has (X.680 30)."""
    env, base = base_of(library, env, type_.type)
    if not isinstance(base, ChoiceType):
        raise AsnError(type_.place, f"what stands after '{type_.name} <' is no CHOICE", "write the name of a CHOICE (X.680 30.1)")
    parts = alternatives(env, base)
    for part in parts:
        if part.name == type_.name:
            return env, part.type
    known = ", ".join(part.name for part in parts)
    raise AsnError(type_.place, f"the CHOICE has no alternative '{type_.name}'", f"its alternatives are {known}")


def meant(library: Library, env: Env, type_: FieldOfClass | SelectionType) -> tuple[Env, Type]:
    """What a type stands for that is told by a class or by a CHOICE."""
    return selected(library, env, type_) if isinstance(type_, SelectionType) else type_of_field(library, env, type_)


def bind(env: Env, scope: Scope, assignment: TypeAssignment, reference: ReferenceType) -> Env:
    """The names within a parameterised type (X.683 9)."""
    if len(assignment.parameters) != len(reference.actuals):
        wanted = len(assignment.parameters)
        raise AsnError(
            reference.place,
            f"'{assignment.name}' has {wanted} parameters, and {len(reference.actuals)} are given",
            f"write {wanted} in braces after the name" if wanted else "leave the braces out",
        )
    pairs = zip(assignment.parameters, reference.actuals)
    return Env(scope, {parameter.name: Binding(actual, env) for parameter, actual in pairs})


def has_type_parameter(library: Library, env: Env, assignment: TypeAssignment, reference: ReferenceType) -> bool:
    """Whether a parameter is a type, so that each instance is a type of its own; classes and sets change no octets."""
    for parameter, actual in zip(assignment.parameters, reference.actuals):
        if parameter.governor is not None or actual.type is None:
            continue
        if class_of(library, env, actual.type) is None:
            return True
    return False


def follow(library: Library, env: Env, reference: ReferenceType) -> tuple[Env, Type]:
    """The type that a reference stands for, and the names within it."""
    if reference.module is None and reference.name in env.bindings:
        binding = env.bindings[reference.name]
        if binding.actual.type is None:
            raise AsnError(reference.place, f"'{reference.name}' stands for no type here", "give a type as the parameter")
        return binding.env, binding.actual.type
    scope, assignment = library.find_type(env, reference.name, reference.place, reference.module)
    return bind(env, scope, assignment, reference), assignment.type


def base_of(library: Library, env: Env, type_: Type) -> tuple[Env, Type]:
    """A type with no names, tags or constraints before it is told what it is; a name that reaches itself stays."""
    for _ in range(MOST_STEPS):
        if isinstance(type_, (TaggedType, ConstrainedType)):
            type_ = type_.type
        elif isinstance(type_, ReferenceType):
            env, type_ = follow(library, env, type_)
        elif isinstance(type_, (FieldOfClass, SelectionType)):
            env, type_ = meant(library, env, type_)
        else:
            break
    return env, type_


def is_parameter(env: Env, type_: Type) -> bool:
    """Whether a type is the name of a parameter, before which the module's default makes no tag implicit (31.2.7 c)."""
    while isinstance(type_, ConstrainedType):
        type_ = type_.type
    return isinstance(type_, ReferenceType) and type_.module is None and type_.name in env.bindings


def is_untagged_choice(library: Library, env: Env, type_: Type) -> bool:
    """Whether a type is a CHOICE or an open type with no tag before it (31.2.7)."""
    for _ in range(MOST_STEPS):
        if isinstance(type_, TaggedType):
            return False
        if isinstance(type_, ConstrainedType):
            type_ = type_.type
        elif isinstance(type_, ReferenceType):
            env, type_ = follow(library, env, type_)
        elif isinstance(type_, (FieldOfClass, SelectionType)):
            env, type_ = meant(library, env, type_)
        else:
            break
    return isinstance(type_, (ChoiceType, AnyType))
