"""Types with a name of their own."""

from __future__ import annotations

from dataclasses import replace

from ..bounds import Placed, placed
from ..errors import AsnError, Place
from ..model import (
    Alias,
    Choice,
    Definition,
    Enumeration,
    Field,
    List,
    Named,
    Origin,
    Resolved,
    Struct,
    Tag,
    Tagged,
    Use,
)
from ..notes import Notes
from ..scope import Env
from ..spelling import camel, enumeration_name, screaming
from ..syntax import (
    BitStringType,
    ChoiceType,
    ConstrainedType,
    EnumeratedType,
    FieldsType,
    IntegerType,
    ListType,
    ReferenceType,
    TaggedType,
    Type,
    TypeAssignment,
)
from ..tagging import OrderOfValue, alternatives
from ..values import enumeration_of
from . import types
from .additions import check_call, has_additions, refuse_skip
from .classes import bind, has_type_parameter
from .components import alternatives_of, check_spelling, fields_of, type_of
from .context import DEEPEST, Context, State, too_deep
from .kept import is_kept, is_left_out, kept_set
from .lacking import readable
from .recursion import find_cuts
from .signatures import signature
from .sizes import items_allowed

Constraints = tuple[Placed, ...]


def definition_of(state: State, env: Env, assignment: TypeAssignment, place: Place) -> Definition:
    """The definition of an assignment, which is made where it is asked for first."""
    key = (env.scope.module.name, assignment.name)
    if Notes(assignment.annotations).has("omit"):
        raise AsnError(
            place,
            f"'{assignment.name}' is not written ('@omit' at {assignment.place})",
            "write '-- @unread' here, or leave the '@omit' out",
        )
    if key in state.opening:
        way = [name for _, name in state.opening[state.opening.index(key) :]] + [assignment.name]
        raise AsnError(
            place,
            f"the type '{assignment.name}' reaches itself: {', '.join(way)}",
            "write '-- @unread' after a component on the way: its octets are kept, and read when they are asked for",
        )
    if key in state.definitions:
        check_instance(state, env, assignment, place)
        return state.definitions[key]
    find_cuts(state.library, env.scope, assignment)
    state.opening.append(key)
    found = assigned(state, env, assignment)
    state.opening.pop()
    state.add(found)
    return found


def assigned(state: State, env: Env, assignment: TypeAssignment) -> Definition:
    """What an assignment defines."""
    notes = Notes(assignment.annotations)
    names = state.names_of(env.scope.module)
    rust = notes.argument("name") or names.of.get(assignment.name, camel(assignment.name))
    context = Context(state, env, env.scope.module.name, rust, notes, [])
    said = names.said(assignment.name)
    if said is not None:
        context.say(assignment.place, said)
    found = define(context, assignment.name, assignment.text, assignment.type)
    if not isinstance(found, Alias):
        found.by_hand = tuple((notes.argument("rust") or "").split("::")) if notes.has("rust") else ()
        found.rust = found.by_hand[-1] if found.by_hand else found.rust
    notes.check_used(f"'{assignment.name}'")
    found.place = assignment.place
    return found


def check_instance(state: State, env: Env, assignment: TypeAssignment, place: Place) -> None:
    """A type whose parameters are classes and sets alone is one type; its instances have to be alike."""
    if not env.bindings:
        return
    known = state.definitions[(env.scope.module.name, assignment.name)]
    scratch = state.scratch()
    scratch.spelled = {}
    if signature(assigned(scratch, env, assignment)) != signature(known):
        raise AsnError(
            place,
            f"this instance of '{assignment.name}' has other types or constraints than one before it",
            "write its type out here; or, where a constraint alone differs, '-- @unchecked' after that type",
        )


# ---- by what stands after '::='


def peel(context: Context, type_: Type) -> tuple[list[TaggedType], list[Env], Type, Constraints, Env]:
    """The tags before a type, each with the names that it is understood by, and what stands after them."""
    tags: list[TaggedType] = []
    envs: list[Env] = []
    constraints: Constraints = ()
    env, followed = context.env, 0
    while True:
        if isinstance(type_, TaggedType):
            tags.append(type_)
            envs.append(env)
            type_ = type_.type
        elif isinstance(type_, ConstrainedType):
            constraints = (*type_.constraints, *constraints)
            type_ = type_.type
        elif isinstance(type_, ReferenceType) and type_.actuals:
            scope, assignment = context.state.library.find_type(env, type_.name, type_.place, type_.module)
            inner = bind(env, scope, assignment, type_)
            if not has_type_parameter(context.state.library, env, assignment, type_):
                return tags, envs, type_, constraints, env
            if followed == DEEPEST:
                raise too_deep(type_.place)
            constraints = placed(env, constraints)
            env, type_, followed = inner, assignment.type, followed + 1
        else:
            return tags, envs, type_, constraints, env


def define(context: Context, name: str, text: str, type_: Type, outer: Constraints = ()) -> Definition:
    """The definition of a type with this name, which remembers what it is made from."""
    found = defined(context, name, text, type_, outer)
    found.origin = Origin(context.state.library, context.env, type_)
    return found


def defined(context: Context, name: str, text: str, type_: Type, outer: Constraints) -> Definition:
    tags, envs, base, constraints, env = peel(context, type_)
    inner = context.within(env)
    found_tags = [types.tag_of(context.within(env), tag) for tag, env in zip(tags, envs)]
    if not isinstance(base, (FieldsType, ChoiceType, ListType, EnumeratedType)) or is_kept(inner, base):
        return alias(context, name, text, type_, outer)
    if isinstance(base, ChoiceType) and len(readable(inner.state.library, env, base)) == 1 and not tags:
        return choice_of_one(inner, name, text, base)
    if any(is_explicit for _, is_explicit in found_tags):
        return behind_tags(inner, name, text, found_tags, base, constraints)
    tag = found_tags[0][0] if found_tags else None
    try:
        return plain(inner, name, text, base, tag, (*constraints, *outer))
    except OrderOfValue as found:
        type_of_set = kept_set(inner, base.place, found.name, [tag for tag, _ in found_tags])
        return Alias(base.place, context.home, name, context.inner, text, context.remarks, type=type_of_set)


def plain(context: Context, name: str, text: str, base: Type, tag: Tag | None, constraints: Constraints) -> Definition:
    """A SEQUENCE, a SET, a CHOICE, a list or an ENUMERATED, with a tag in place of its own if it has one."""
    about = (base.place, context.home, name, context.inner, text, context.remarks)
    if isinstance(base, FieldsType):
        if base.is_instance and tag is None:
            instead = "write an implicit tag before it, where it stands, as '[0] IMPLICIT INSTANCE OF ..'"
            raise AsnError(base.place, "INSTANCE OF with its own tag, [UNIVERSAL 8], is not taken", instead)
        fields, declared, keeps = fields_and_additions(context, base)
        return Struct(*about, is_set=base.is_set, fields=fields, declared=declared, tag=tag, has_additions=keeps)
    if isinstance(base, ChoiceType):
        remark_on_extensions(context, base)
        return Choice(*about, alternatives=alternatives_of(context, base))
    if isinstance(base, ListType):
        never_empty, allowed = items_allowed(context, base, constraints)
        item = types.resolve_type(context.item(), base.item)
        kind = {"is_set": base.is_set, "is_any_order": types.is_any_order(context, base)}
        return List(*about, item=item, **kind, is_never_empty=never_empty, allowed=allowed, tag=tag)
    assert isinstance(base, EnumeratedType)
    why = "a number that has no name is the whole value; INTEGER in its place has all numbers"
    refuse_skip(base.marker_notes, "an ENUMERATED", why)
    values = enumeration_of(context.state.library, context.env, base.named)
    if not all(abs(number) < 2**63 for number in values.values()):
        raise AsnError(base.place, "an ENUMERATED with numbers of 64 bits is not taken", "write INTEGER in its place")
    names = [one.name for one in base.named]
    check_spelling([(one.place, one.name, enumeration_name(one.name, context.inner, names)) for one in base.named])
    named = tuple(Named(*one) for one in values.items())
    return Enumeration(*about, values=named, is_extensible=base.extensible, tag=tag)


def fields_and_additions(context: Context, base: FieldsType) -> tuple[tuple[Field, ...], tuple[Field, ...], bool]:
    """The fields, in the order of their encodings and as they are written, and whether the elements after them are kept."""
    keeps = has_additions(base)
    if base.extensible and not keeps:
        context.remark(base.place, "'...': fields that this module does not have are refused")
    fields, declared = fields_of(context, base)
    if keeps:
        check_call(fields)
    return fields, declared, keeps


def remark_on_extensions(context: Context, base: ChoiceType) -> None:
    """Says of a CHOICE with '...' that alternatives may come."""
    why = "an alternative that the module does not have is the whole value, and nothing of it is known"
    refuse_skip(base.marker_notes, "a CHOICE", f"{why}; ANY in its place keeps any value")
    if base.extensible:
        context.remark(base.place, "'...': alternatives that this module does not have are refused")


def behind_tags(
    context: Context, name: str, text: str, tags: list[tuple[Tag, bool]], base: Type, constraints: Constraints
) -> Alias:
    """A type that is written out after an explicit tag: it gets the name with `Value` after it."""
    rust = context.notes.argument("type") or context.name_within(f"{context.inner}Value")
    inner = replace(context, inner=rust, remarks=[])
    value = define(inner, rust, text, base, constraints)
    context.state.add(value)
    found: Resolved = Use(value)
    for tag, is_explicit in reversed(tags):
        found = Tagged(tag, is_explicit, found)
    return Alias(base.place, context.home, name, context.inner, text, context.remarks, type=found)


def choice_of_one(context: Context, name: str, text: str, base: ChoiceType) -> Alias:
    """A CHOICE of one alternative has its octets and no others (X.690 8.13): a second name of it."""
    remark_on_extensions(context, base)
    (only,) = [part for part in alternatives(context.env, base) if not is_left_out(context, part)]
    notes = Notes(only.annotations)
    inner = replace(context, inner=context.inner + camel(only.name), notes=notes)
    found = type_of(inner, only)
    notes.check_used(f"'{only.name}'")
    return Alias(base.place, context.home, name, context.inner, text, context.remarks, type=found)


def alias(context: Context, name: str, text: str, type_: Type, constraints: Constraints) -> Alias:
    """A second name of a type, with the names of its numbers or bits if it is written with some."""
    base = type_
    outer = constraints
    while isinstance(base, ConstrainedType):
        outer = (*base.constraints, *outer)
        base = base.type
    found = Alias(type_.place, context.home, name, context.inner, text, context.remarks)
    if isinstance(base, (IntegerType, BitStringType)):
        found.type, names = types.numbers(context, base, outer)
        check_spelling([(one.place, one.name, screaming(one.name)) for one in base.named])
        found.numbers, found.bits = names.numbers, names.bits
    else:
        inner = replace(context, inner=f"{context.inner}Value")
        found.type = types.resolve_type(inner, base, outer)
    return found
