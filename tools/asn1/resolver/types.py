"""Types within others: fields, alternatives, items, and what stands after a tag."""

from __future__ import annotations

from dataclasses import replace

from ..bounds import Placed, placed
from ..errors import AsnError
from ..model import Alias, Definition, Leaf, Listed, Resolved, Tag, Tagged, Use, Whole
from ..syntax import (
    AnyType,
    BitStringType,
    ChoiceType,
    ConstrainedType,
    EnumeratedType,
    FieldOfClass,
    FieldsType,
    IntegerType,
    ListType,
    ReferenceType,
    SelectionType,
    SimpleType,
    TagClass,
    TagDefault,
    TaggedType,
    TagMode,
    Type,
)
from ..values import number_of
from . import definitions, leaves
from .classes import base_of, bind, has_type_parameter, is_parameter, is_untagged_choice, meant
from .context import Context
from .kept import ANY_SET, is_kept, kept, kept_sequence
from .lacking import replaced
from .recursion import cut_at, first_tagged
from .sizes import items_allowed
from .subsets import narrowed_name

Constraints = tuple[Placed, ...]


def resolve_type(context: Context, type_: Type, constraints: Constraints = ()) -> Resolved:
    """What a type comes to where it stands."""
    if isinstance(type_, ConstrainedType):
        return resolve_type(context, type_.type, (*type_.constraints, *constraints))
    if isinstance(type_, TaggedType):
        return tagged(context, type_, constraints)
    if isinstance(type_, ReferenceType):
        return reference(context, type_, constraints)
    if isinstance(type_, (FieldOfClass, SelectionType)):
        env, inner = meant(context.state.library, context.env, type_)
        with context.state.within(type_.place):
            return resolve_type(context.within(env), inner, placed(context.env, constraints))
    kept_octets = kept_sequence(context, type_)
    if kept_octets is not None:
        return kept_octets
    if isinstance(type_, ListType) and not (context.names_lists and has_structs(context, type_)):
        return listed(context, type_, constraints)
    if isinstance(type_, SimpleType):
        return leaves.simple(context, type_, constraints)
    if isinstance(type_, AnyType):
        return leaves.any_value(context, type_, constraints)
    if isinstance(type_, (IntegerType, BitStringType)) and not type_.named:
        return numbers(context, type_, constraints)[0]
    return Use(written_out(context, type_, constraints))


def numbers(
    context: Context, type_: IntegerType | BitStringType, constraints: Constraints
) -> tuple[Leaf, Alias]:
    """INTEGER or BIT STRING, and the names as an alias has them."""
    names = Alias(type_.place, context.home, context.inner, context.inner, "")
    if isinstance(type_, IntegerType):
        leaf, names.numbers = leaves.integer(context, type_, constraints)
    else:
        leaf, names.bits = leaves.bit_string(context, type_, constraints)
    return leaf, names


def written_out(context: Context, type_: Type, constraints: Constraints) -> Definition:
    """A type that is written out where it stands, which gets a name of its own."""
    name = context.notes.argument("type") or context.name_within(context.inner)
    remarks: list[str] = []
    inner = replace(context, inner=name, remarks=remarks, names_lists=False)
    found = definitions.define(inner, name, "", type_, constraints)
    context.state.add(found)
    return found


def tagged(context: Context, type_: TaggedType, constraints: Constraints) -> Tagged:
    """A tag before a type."""
    tag, is_explicit = tag_of(context, type_)
    lacks = None if is_explicit or has_tag(context, type_.type) else replaced(context.state.library, context.env, type_.type)
    if lacks is not None:
        return Tagged(tag, is_explicit, kept(context, type_.place, lacks))
    inner = resolve_type(context, type_.type if is_explicit else with_no_tag(type_.type), constraints)
    if not is_explicit and isinstance(inner, Leaf) and inner.whole is Whole.ANY:
        raise AsnError(
            type_.place,
            "'@unread' after an implicit tag is for a SEQUENCE alone",
            "leave it out, or write OCTET STRING, whose contents octets are any",
        )
    return Tagged(tag, is_explicit, inner)


def has_tag(context: Context, type_: Type) -> bool:
    """Whether a tag is the first of a type, with no name of a type before it."""
    env = context.env
    while isinstance(type_, (ConstrainedType, FieldOfClass, SelectionType)):
        if isinstance(type_, ConstrainedType):
            type_ = type_.type
        else:
            env, type_ = meant(context.state.library, env, type_)
    return isinstance(type_, TaggedType)


def with_no_tag(type_: Type) -> Type:
    """A type in which another tag stands in place of its own (X.690 8.14.3): INSTANCE OF is a SEQUENCE then."""
    if isinstance(type_, ConstrainedType):
        return replace(type_, type=with_no_tag(type_.type))
    return replace(type_, is_instance=False) if isinstance(type_, FieldsType) and type_.is_instance else type_


def tag_of(context: Context, type_: TaggedType) -> tuple[Tag, bool]:
    """The tag, and whether it is explicit (31.2.7): an automatic one before a CHOICE or the name of a parameter alone, of whatever
    module the type is."""
    library, env = context.state.library, context.env
    if type_.tag_class is TagClass.UNIVERSAL:
        raise AsnError(type_.place, "a tag of the class UNIVERSAL is X.680's own (31.2.4)", "write another class")
    number = type_.number if isinstance(type_.number, int) else number_of(library, env, type_.number)
    if not 0 <= number < 2**32:
        raise AsnError(type_.place, f"the number {number} of a tag is not taken", "write one from 0 to 4294967295")
    is_choice = is_untagged_choice(library, env, type_.type)
    if type_.mode is TagMode.IMPLICIT and is_choice:
        raise AsnError(
            type_.place,
            "IMPLICIT stands before a CHOICE or an open type with no tag",
            "write EXPLICIT, or leave the word out: such a tag is explicit (X.680 31.2.7, 31.2.9)",
        )
    is_implicit = type_.is_automatic or env.scope.module.tag_default is not TagDefault.EXPLICIT
    is_implicit = is_implicit and not is_choice and not is_parameter(env, type_.type)
    if type_.mode is not None:
        is_implicit = type_.mode is TagMode.IMPLICIT
    return Tag(type_.tag_class.value, number), not is_implicit


def listed(context: Context, type_: ListType, constraints: Constraints) -> Listed:
    """SEQUENCE OF or SET OF."""
    item = resolve_type(context.item(), type_.item)
    is_never_empty, allowed = items_allowed(context, type_, constraints)
    return Listed(item, type_.is_set, is_never_empty, is_any_order(context, type_), allowed)


def has_structs(context: Context, type_: ListType) -> bool:
    """Whether the items of a list are SEQUENCEs, SETs or CHOICEs."""
    return isinstance(base_of(context.state.library, context.env, type_.item)[1], (FieldsType, ChoiceType))


def is_any_order(context: Context, type_: ListType) -> bool:
    """Whether a SET OF stands as BER writes it, with its items in any order."""
    return type_.is_set and context.notes.has("any_order")


def reference(context: Context, type_: ReferenceType, constraints: Constraints) -> Resolved:
    """The name of a type: of a parameter, of one with parameters, or of an assignment."""
    with context.state.within(type_.place):
        return referred(context, type_, constraints)


def referred(context: Context, type_: ReferenceType, constraints: Constraints) -> Resolved:
    library, env = context.state.library, context.env
    if type_.module is None and type_.name in env.bindings:
        binding = env.bindings[type_.name]
        if binding.actual.type is None:
            raise AsnError(type_.place, f"'{type_.name}' stands for no type here", "give a type as the parameter")
        return resolve_type(context.within(binding.env), binding.actual.type, placed(env, constraints))
    if context.notes.has("unread"):
        return unread(context, type_)
    leads_to = cut_at(library, env, type_.place)
    if leads_to is not None:
        return cut(context, type_, "an item", leads_to)
    scope, assignment = library.find_type(env, type_.name, type_.place, type_.module)
    inner = bind(env, scope, assignment, type_)
    if has_type_parameter(library, env, assignment, type_) and not is_written_out(context.within(inner), assignment.type):
        return resolve_type(context.within(inner), assignment.type, placed(env, constraints))
    if has_type_parameter(library, env, assignment, type_):
        found = Use(written_out(context, type_, ()))
    else:
        found = Use(definitions.definition_of(context.state, inner, assignment, type_.place))
    return constrained(context, found, constraints)


def constrained(context: Context, found: Use, constraints: Constraints) -> Resolved:
    """A type that has a name, with constraints after it: the library's type that it is, where they are checked."""
    type_, left = narrowed_name(context, found, constraints)
    for constraint in left:
        leaves.remark_on(context, constraint)
    return type_


def is_written_out(context: Context, type_: Type) -> bool:
    """Whether a type with parameters has parts that are read, so that each of its instances is a type of its own."""
    _, _, base, _, env = definitions.peel(context, type_)
    return isinstance(base, (FieldsType, ChoiceType, ListType, EnumeratedType)) and not is_kept(context.within(env), base)


def unread(context: Context, type_: ReferenceType) -> Leaf:
    """A type that is not read: a SEQUENCE's contents octets are kept, or else any value."""
    base = base_of(context.state.library, context.env, type_)[1]
    if isinstance(base, (FieldsType, ListType)) and not base.is_set:
        return Leaf(Whole.UNREAD_SEQUENCE)
    return Leaf(Whole.ANY, context.notes.has("owned"))


def cut(context: Context, type_: Type, what: str, leads_to: str) -> Leaf | Tagged | Listed:
    """A type that leads back: its contents octets are kept behind its tag, and not read; behind that of a SET, as values of any type."""
    env, base = first_tagged(context.state.library, context.env, type_)
    in_set = isinstance(base, (FieldsType, ListType)) and base.is_set
    words = "the values in it are kept, each as any value, and not checked" if in_set else "its contents octets are kept, and not read"
    said = f"{what} leads back to {leads_to}: {words}"
    context.say(type_.place, said)
    if in_set:
        return ANY_SET
    kept = Leaf(Whole.UNREAD_SEQUENCE)
    return Tagged(tag_of(context.within(env), base)[0], False, kept) if isinstance(base, TaggedType) else kept
