"""The page of a module's grammar, written from the tree of the module: its tags, its fields and alternatives, their order and
their numbers are those of the text, and no resolver's.

The clause of `laws` says that what is read is what the page says; so an error of the resolver in one of these is one that
the prover refuses.
"""

from __future__ import annotations

from dataclasses import replace

from .. import as_written
from ..as_written import Key, Part, key_of
from ..model import (
    Alias,
    Allowed,
    Choice,
    Definition,
    Enumeration,
    Field,
    Leaf,
    List,
    Listed,
    Resolved,
    ResolvedModule,
    Struct,
    Tagged,
    Use,
    Whole,
    is_within,
)
from ..resolver.classes import follow, is_parameter, meant
from ..resolver.recursion import cut_at
from ..scope import Env, Library
from ..spelling import snake
from ..syntax import (
    ChoiceType,
    ConstrainedType,
    FieldOfClass,
    FieldsType,
    ListType,
    ReferenceType,
    SelectionType,
    TagClass,
    TaggedType,
    TagMode,
    Type,
)
from ..values import number_of
from .alternatives import halves
from .constraints import allowed_term, size_word_of
from .default_page import CLASSES, DefaultTerms
from .names import ADDITIONS, ASN1, CONSTRAINT_WORDS, LISTS, PARSES, WORDS
from .plan import Plan
from .source import Page
from .types import CHARACTERS, closed

# The words of pages and laws, which no grammar may be called: those that are written in small letters.
LIBRARY = frozenset(
    {name for _, name in WORDS.values()}
    | {name for _, _, name in PARSES.values()}
    | set(CLASSES.values())
    | set(CONSTRAINT_WORDS)
    | set("any_of end explicit_encoding field implicit_encoding joined joined_before octets_of one optional parse_of unless_default".split())
)


def word_of(definition: Definition) -> str:
    """The name of a type's grammar."""
    found = snake(definition.rust)
    return f"{found}_" if found in LIBRARY else found


class GrammarPage:
    """The page of one module."""

    def __init__(self, plan: Plan, module: ResolvedModule) -> None:
        self.plan = plan
        self.module = module
        self.library: Library = module.library
        self.page = Page(plan, plan.targets[module.name], f"-- The grammar of {module.name}, in the words of ASN.1.")
        self.leaves: dict[str, str] = {}
        self.defaults = DefaultTerms(self.page, self.library)

    def text(self) -> str:
        """The whole page: the library's types that it names, and each type, after those that it has."""
        definitions = [self.definition(found) for found in self.in_order()]
        for name in sorted(self.leaves):
            self.page.add(self.leaves[name])
        for text in definitions:
            self.page.add(text)
        return self.page.text()

    def in_order(self) -> list[Definition]:
        """Each definition stands after those that it names."""
        found: list[Definition] = []

        def visit(definition: Definition) -> None:
            if definition in found or definition.module != self.module.name:
                return
            for inner in named_in(definition):
                visit(inner)
            found.append(definition)

        for definition in self.module.definitions:
            if not is_within(definition):
                visit(definition)
        return found

    def asn1(self, word: str) -> str:
        return self.page.from_module(ASN1, word)

    # ---- definitions

    def definition(self, definition: Definition) -> str:
        assert definition.origin is not None
        env, type_ = definition.origin.env, definition.origin.type
        term = self.whole(env, type_, definition)
        text = definition.text or f"a type within another: {definition.name}"
        comment = "\n".join(f"-- {line}".rstrip() for line in text.split("\n"))
        name = word_of(definition)
        return f"{comment}\nabbrev pub {name} : {self.asn1('Grammar')}\n{name} =\n    {term}"

    def whole(self, env: Env, type_: Type, definition: Definition) -> str:
        """The grammar of a definition, from its text."""
        if isinstance(definition, Alias):
            assert definition.type is not None
            return self.alias(env, type_, definition)
        if isinstance(type_, ConstrainedType):
            return self.whole(env, type_.type, definition)
        if isinstance(type_, TaggedType):
            return self.tagged(env, type_, self.whole(env, type_.type, definition))
        if isinstance(type_, ReferenceType):
            env, type_ = follow(self.library, env, type_)
            return self.whole(env, type_, definition)
        if isinstance(definition, Struct):
            assert isinstance(type_, FieldsType)
            word = self.asn1("SET" if type_.is_set else "SEQUENCE")
            return f"{word} {self.fields(env, type_, definition)}"
        if isinstance(definition, Choice):
            assert isinstance(type_, ChoiceType)
            types = resolved_parts(definition.alternatives)
            parts = as_written.alternatives(self.library, env, type_)
            return self.choice([self.component(part, types[key_of(part.component)]) for part in parts])
        if isinstance(definition, List):
            assert isinstance(type_, ListType) and definition.item is not None
            return self.items(env, type_, definition.listed)
        assert isinstance(definition, Enumeration)
        self.page.word("tags")
        target, name = self.plan.of(definition), snake(definition.rust)
        page = f"{target.crate}.specs.{target.page}.{definition.rust}"
        words = [self.page.from_module(page, word) for word in (f"number_of_{name}", f"all_of_{name}")]
        return f"{self.asn1('NAMED')} {' '.join(words)} tags.Enumerated"

    def alias(self, env: Env, type_: Type, definition: Alias) -> str:
        """A second name; a CHOICE of one alternative stays a CHOICE, before which a tag is explicit."""
        assert definition.type is not None
        if isinstance(type_, ChoiceType):
            (only,) = as_written.alternatives(self.library, env, type_)
            return f"{self.asn1('CHOICE_OF_ONE')} {closed(self.component(only, definition.type))}"
        return self.term(env, type_, definition.type)

    def tagged(self, env: Env, type_: TaggedType, inner: str) -> str:
        """A tag before a type."""
        mode = TagMode.EXPLICIT if as_written.is_explicit(env, type_) else TagMode.IMPLICIT
        number = type_.number if isinstance(type_.number, int) else number_of(self.library, env, type_.number)
        return f"{self.asn1(mode.value)} {self.asn1(CLASSES[type_.tag_class])} {number} {closed(inner)}"

    # ---- fields and alternatives

    def fields(self, env: Env, type_: FieldsType, definition: Struct) -> str:
        """The fields, one after another."""
        types, lines = resolved_parts(definition.fields), []
        for part in as_written.fields(self.library, env, type_):
            inner = self.component(part, types[key_of(part.component)])
            if part.component.optional or as_written.has_empty_list(self.library, part):
                lines.append(f"{self.asn1('OPTIONAL')} {closed(inner)}")
            elif part.component.default is not None:
                default = self.defaults.default(part, types[key_of(part.component)])
                lines.append(f"{self.asn1('DEFAULT')} ({default}) {closed(inner)}")
            else:
                lines.append(f"{self.asn1('field')} {closed(inner)}")
        end = self.page.from_module(ADDITIONS, "ADDITIONS") if as_written.keeps_additions(type_) else self.asn1("end")
        return "".join(f"\n    ({line}" for line in lines) + f"\n    {end}" + ")" * len(lines)

    def component(self, part: Part, type_: Resolved) -> str:
        """The type of a component, with its automatic tag if the module gives it one (25.7, 29.2)."""
        if cut_at(self.library, part.env, part.component.place):
            return self.kept(as_written.tag_of(self.library, part))
        if part.number is None:
            return self.term(part.env, part.component.type, type_)
        assert isinstance(type_, Tagged)
        inner = self.term(part.env, part.component.type, type_.of)
        mode = TagMode.EXPLICIT if is_parameter(part.env, part.component.type) else TagMode.IMPLICIT
        return f"{self.asn1(mode.value)} {self.asn1('context')} {part.number} {closed(inner)}"

    def kept(self, tag: tuple[int, int]) -> str:
        """The grammar of contents octets that are kept behind a tag, and not read."""
        if tag == (TagClass.UNIVERSAL.value, as_written.SET):
            return self.any_set()
        leaf = self.leaf(Leaf(Whole.UNREAD_SEQUENCE))
        if tag[0] == TagClass.UNIVERSAL.value:
            return leaf
        return f"{self.asn1(TagMode.IMPLICIT.value)} {self.asn1(CLASSES[TagClass(tag[0])])} {tag[1]} {leaf}"

    def any_set(self) -> str:
        """The grammar of a SET whose components are kept, each as any value."""
        return f"{self.page.from_module(LISTS, 'SET_OF_ANY_ORDER')} {closed(self.leaf(Leaf(Whole.ANY)))}"

    def choice(self, alternatives: list[str]) -> str:
        """The alternatives, as a balanced tree."""
        if len(alternatives) == 1:
            return alternatives[0]
        middle = halves(len(alternatives))
        first, other = self.choice(alternatives[:middle]), self.choice(alternatives[middle:])
        return f"{self.asn1('CHOICE')}\n    {closed(first)}\n    {closed(other)}"

    # ---- types within others

    def term(self, env: Env, type_: Type, resolved: Resolved) -> str:
        """The grammar of a type where it stands."""
        if isinstance(type_, ReferenceType) and cut_at(self.library, env, type_.place):
            return self.kept(as_written.first_tag(self.library, env, type_))
        if isinstance(type_, ConstrainedType):
            return self.term(env, type_.type, resolved)
        if isinstance(type_, TaggedType):
            assert isinstance(resolved, Tagged)
            return self.tagged(env, type_, self.term(env, type_.type, resolved.of))
        if isinstance(type_, (FieldOfClass, SelectionType)):
            env, type_ = meant(self.library, env, type_)
            return self.term(env, type_, resolved)
        if isinstance(resolved, Use):
            return self.use(resolved.definition)
        if isinstance(resolved, Leaf):
            return self.leaf(resolved)
        if isinstance(type_, ReferenceType):
            env, type_ = follow(self.library, env, type_)
            return self.term(env, type_, resolved)
        assert isinstance(resolved, Listed)
        if isinstance(type_, FieldsType):
            return self.any_set()
        assert isinstance(type_, ListType)
        return self.items(env, type_, resolved)

    def items(self, env: Env, type_: ListType, listed: Listed) -> str:
        """The grammar of a list."""
        item = closed(self.term(env, type_.item, listed.item))
        found = f"{self.list_word(type_, listed)} {item}"
        if listed.allowed is not None:
            return self.allowed(listed.allowed, "size_in_components", found)
        return f"{self.asn1('NOT_EMPTY')} ({found})" if listed.is_never_empty else found

    def allowed(self, allowed: Allowed, size_word: str, inner: str) -> str:
        """The grammar of a type of which a constraint allows some values."""
        return f"{self.constraint_word('ALLOWED')} {closed(allowed_term(self, allowed, size_word))} {closed(inner)}"

    def list_word(self, type_: ListType, listed: Listed) -> str:
        """The word of a list: whether it is a SET is the text's to say."""
        word = "SET_OF" if type_.is_set else "SEQUENCE_OF"
        return self.page.from_module(LISTS, "SET_OF_ANY_ORDER" if type_.is_set and listed.is_any_order else word)

    def use(self, definition: Definition) -> str:
        """The grammar of a type that has a name, perhaps of another page."""
        name = word_of(definition)
        if definition.module != self.module.name:
            target = self.plan.of(definition)
            self.page.from_module(f"{target.crate}.specs.{target.page}.Grammar", name)
        return name

    def leaf(self, leaf: Leaf) -> str:
        """A type of the library, of which a constraint may allow some values."""
        if leaf.allowed is not None:
            inner = self.leaf(replace(leaf, allowed=None))
            return self.allowed(leaf.allowed, size_word_of(leaf.whole), inner)
        if leaf.whole is Whole.MACHINE_INTEGER:
            width = leaf.width or "u8"
            parse = "signed" if width[0] == "i" else "unsigned"
            tag, module, name = PARSES[parse]
            return self.leaf_word(f"INTEGER_{width}", tag, module, f"{name} {int(width[1:]) // 8}")
        name = leaf.whole.name
        tag, module, parse = PARSES[name]
        if leaf.whole is Whole.OBJECT_IDENTIFIER:
            return self.leaf_word(f"{name}_{leaf.octets}", tag, module, f"{parse} {leaf.octets}")
        if leaf.whole in CHARACTERS:
            parse = f"{parse} {CHARACTERS[leaf.whole][1]}"
        return self.leaf_word(name, tag, module, parse)

    def constraint_word(self, name: str) -> str:
        """A word of the library's constraints."""
        if name in CONSTRAINT_WORDS:
            return self.page.from_module(CONSTRAINT_WORDS[name], name)
        return self.page.word(name)

    def leaf_word(self, name: str, tag: str, module: str, parse: str) -> str:
        """A word of the page for a type of the library."""
        self.page.from_module(module, parse.split()[0])
        argument = f"({parse})" if " " in parse else parse
        if tag:
            self.page.word("tags")
            term = f"{self.asn1('one')} tags.{tag} {argument}"
        else:
            self.page.word("true")
            term = f"{self.asn1('any_of')} (λ t. true) {argument}"
        self.leaves[name] = f"abbrev pub {name} : {self.asn1('Grammar')}\n{name} = {term}"
        return name


def resolved_parts(fields: tuple[Field, ...]) -> dict[Key, Resolved]:
    """The types of fields or alternatives as the resolver has them, by the components of the text."""
    return {key_of(one.component): one.type for one in fields}


def named_in(definition: Definition) -> list[Definition]:
    """The definitions that a definition names."""
    found: list[Definition] = []

    def look(type_: Resolved | None) -> None:
        if isinstance(type_, Use):
            found.append(type_.definition)
        elif isinstance(type_, Listed):
            look(type_.item)
        elif isinstance(type_, Tagged):
            look(type_.of)

    if isinstance(definition, Alias):
        look(definition.type)
    if isinstance(definition, List):
        look(definition.item)
    for part in (*getattr(definition, "fields", ()), *getattr(definition, "alternatives", ())):
        look(part.type)
    return found
