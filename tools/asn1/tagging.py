"""Tags of components: automatic ones (X.680 25.7 to 25.9, 29.2), and whether they are distinct (25.6, 27.3, 29.3)."""

from __future__ import annotations

from dataclasses import replace

from .errors import AsnError
from .model import Field, Presence, Tag
from .properties import tags_of
from .scope import Env
from .syntax import ChoiceType, Component, TagClass, TagDefault, TaggedType, Type


class OrderOfValue(Exception):
    """The place of this component of a SET depends on its value: tags of another stand between its tags."""

    def __init__(self, name: str) -> None:
        super().__init__(name)
        self.name = name


def automatic(components: list[Component]) -> list[Component]:
    """The components with tags from 0, those of the root first, in place of automatic ones that they have (25.7 to 25.9, 29.2)."""
    root = [part for part in components if not part.is_addition]
    additions = [part for part in components if part.is_addition]
    numbers = {id(part): number for number, part in enumerate(root + additions)}
    return [
        replace(part, type=TaggedType(part.place, TagClass.CONTEXT, numbers[id(part)], None, untagged(part.type), True))
        for part in components
    ]


def alternatives(env: Env, type_: ChoiceType) -> list[Component]:
    """The alternatives with automatic tags, if the module gives them some (29.2)."""
    parts = list(type_.alternatives)
    return automatic(parts) if has_automatic_tags(env, parts) else parts


def has_automatic_tags(env: Env, components: list[Component]) -> bool:
    """Whether the components of a type of the module get automatic tags (25.7, 29.2)."""
    return env.scope.module.tag_default is TagDefault.AUTOMATIC and not are_tagged(components)


def untagged(type_: Type) -> Type:
    """A type without its automatic tag."""
    return type_.type if isinstance(type_, TaggedType) and type_.is_automatic else type_


def are_tagged(components: list[Component]) -> bool:
    """Whether any component is written with a tag, so that none gets an automatic one."""
    return any(isinstance(part.type, TaggedType) for part in components)


def shown(tag: Tag | None) -> str:
    return "any tag" if tag is None else f"the tag {tag}"


def clash(first: frozenset[Tag] | None, second: frozenset[Tag] | None) -> tuple[bool, Tag | None]:
    """Whether two types have a tag in common, and which."""
    if first is None or second is None:
        known = second if first is None else first
        return True, min(known) if known else None
    common = first & second
    return (True, min(common)) if common else (False, None)


def check_pair(first: Field, second: Field, rule: str) -> None:
    """Two fields whose tags have to differ."""
    is_clash, tag = clash(tags_of(first.type), tags_of(second.type))
    if is_clash:
        raise AsnError(
            second.place,
            f"'{second.name}' and '{first.name}' are not distinguished: both may begin with {shown(tag)}",
            f"write a tag before one of them, as '[0]' ({rule})",
        )


def check_sequence(fields: tuple[Field, ...]) -> None:
    """25.6: a field that may be absent has none of the tags of those that may follow it."""
    for i, first in enumerate(fields):
        if first.presence is Presence.ALWAYS:
            continue
        for second in fields[i + 1 :]:
            check_pair(first, second, "X.680 25.6")
            if second.presence is Presence.ALWAYS:
                break


def check_all(fields: tuple[Field, ...], rule: str) -> None:
    """29.3 and 27.3: no two alternatives of a CHOICE, and no two components of a SET, have a tag in common."""
    for i, second in enumerate(fields):
        for first in fields[:i]:
            check_pair(first, second, rule)


def in_order_of_tags(fields: tuple[Field, ...]) -> tuple[Field, ...]:
    """The components of a SET as they are encoded (X.690 10.3), if no tag of another stands between those of a CHOICE."""
    known = [(sorted(tags_of(part.type) or []), part) for part in fields]
    known.sort(key=lambda one: one[0][:1])
    for place, (tags, part) in enumerate(known):
        others = known[place + 1][0] if place + 1 < len(known) else []
        if not tags or (others and tags[-1] > others[0]):
            raise OrderOfValue(part.name)
    return tuple(part for _, part in known)
