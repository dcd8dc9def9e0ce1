"""A reader of ASN.1 of the tests' own, and the comparison of assignments with those of the standards.

It shares nothing with the compiler's lexer, parser and resolver: an error there is none here.
"""

from __future__ import annotations

import re
from dataclasses import dataclass, field
from pathlib import Path

MODULES = Path(__file__).parent / "modules"
WRITTEN = MODULES.parents[3] / "asn1"

# X.680 12.6.3: a comment ends at the next two hyphens, or with its line.
COMMENT = re.compile(r"--(?:(?!--)[^\n])*(?:--|$)", re.MULTILINE)
NAME = r"[A-Za-z][A-Za-z0-9]*(?:-[A-Za-z0-9]+)*"
WORD = re.compile(rf"&?{NAME}|[0-9]+|::=|\.\.\.|\.\.|\[\[|\]\]|\"[^\"]*\"|'[^']*'[BH]|[^\s]")
RESERVED = ("OBJECT", "IDENTIFIER", "OCTET", "BIT", "STRING", "INTEGER", "SEQUENCE", "SET", "CHOICE", "OF")
# X.660 annex A: the names of the first arcs, which may stand without a number.
FIRST_ARCS = {"itu-t": 0, "ccitt": 0, "iso": 1, "joint-iso-itu-t": 2, "joint-iso-ccitt": 2}

WRITTEN_OUT = "(written out)"

Words = tuple[str, ...]


@dataclass
class Module:
    """A module as words: its assignments by their names, and what it imports from where."""

    name: str
    tags: str
    assignments: dict[str, Words] = field(default_factory=dict)
    imports: dict[str, str] = field(default_factory=dict)
    exports: tuple[str, ...] = ()


def words(text: str) -> Words:
    """The words of a text, without its comments, which annotations are too."""
    return tuple(WORD.findall(COMMENT.sub(" ", text)))


def read(text: str) -> Module:
    """The module that a text has."""
    lines = COMMENT.sub(" ", text).split("\n")
    found = [(word, at == 0) for line in lines for at, word in enumerate(WORD.findall(line))]
    begin = [word for word, _ in found].index("BEGIN")
    end = max(at for at, (word, _) in enumerate(found) if word == "END")
    header = " ".join(word for word, _ in found[:begin])
    tags = re.search(r"(IMPLICIT|EXPLICIT) TAGS", header)
    module = Module(found[0][0], tags.group(1) if tags else "EXPLICIT")
    rest = read_imports(module, found[begin + 1 : end])
    read_assignments(module, rest)
    return module


def read_imports(module: Module, found: list[tuple[str, bool]]) -> list[tuple[str, bool]]:
    """Takes EXPORTS and IMPORTS off the body of a module."""
    for clause in ("EXPORTS", "IMPORTS"):
        if not found or found[0][0] != clause:
            continue
        end = [word for word, _ in found].index(";")
        listed = [word for word, _ in found[1:end]]
        found = found[end + 1 :]
        if clause == "EXPORTS":
            module.exports = tuple(word for word in listed if word != ",")
        else:
            module.imports = imports_of(listed)
    return found


def imports_of(listed: list[str]) -> dict[str, str]:
    """The names that an IMPORTS clause has, with the modules after their FROM."""
    found: dict[str, str] = {}
    symbols: list[str] = []
    at = 0
    while at < len(listed):
        if listed[at] == "FROM":
            found.update(dict.fromkeys(symbols, listed[at + 1]))
            symbols = []
            at = after_identifier(listed, at + 2)
        else:
            symbols += [listed[at]] if re.match(NAME, listed[at]) else []
            at += 1
    return found


def after_identifier(listed: list[str], at: int) -> int:
    """Behind the identifier of a module: in braces, or the name of a value."""
    if listed[at : at + 1] == ["{"]:
        return listed.index("}", at) + 1
    is_value = at < len(listed) and listed[at][0].islower() and listed[at + 1 : at + 2] not in ([","], ["FROM"])
    return at + 1 if is_value else at


def read_assignments(module: Module, found: list[tuple[str, bool]]) -> None:
    """Cuts the body of a module where assignments begin, each with the first word of a line."""
    begins: list[int] = []
    depth = 0
    for at, (word, _) in enumerate(found):
        depth += (word == "{") - (word == "}")
        if word == "::=" and depth == 0:
            begins.append(beginning(found, at))
    assert depth == 0, f"a brace of {module.name} is not closed"
    for start, end in zip(begins, [*begins[1:], len(found)]):
        name = found[start][0]
        assert name not in module.assignments, f"{module.name} assigns {name} twice"
        module.assignments[name] = tuple(word for word, _ in found[start + 1 : end])
    assert not found or begins[0] == 0, f"{module.name} has words before its first assignment"


def beginning(found: list[tuple[str, bool]], at: int) -> int:
    """Where the assignment begins whose `::=` stands here."""
    start = at - 1
    while not found[start][1] or found[start][0] in RESERVED:
        start -= 1
    return start


# ---- what an assignment says


def with_tags(found: Words, default: str) -> Words:
    """The words with IMPLICIT or EXPLICIT after each tag, as the header of the module has it (X.680 31.2.7)."""
    made: list[str] = []
    for at, word in enumerate(found):
        made.append(word)
        is_tag = word == "]" and found[at - 1].isdigit() and "[" in (found[at - 2], found[at - 3])
        if is_tag and found[at + 1] not in ("IMPLICIT", "EXPLICIT"):
            made.append(default)
    return tuple(made)


def replaced(found: Words, old: Words, new: Words) -> Words:
    """The words with others wherever these stand."""
    made: list[str] = []
    at = 0
    while at < len(found):
        if found[at : at + len(old)] == old:
            made += new
            at += len(old)
        else:
            made.append(found[at])
            at += 1
    return tuple(made)


def without_parameters(found: Words, name: str) -> Words:
    """The words without the braces after a name."""
    made: list[str] = []
    at = 0
    while at < len(found):
        made.append(found[at])
        at += 1
        if made[-1] == name and found[at : at + 1] == ("{",):
            depth = 1
            while depth:
                at += 1
                depth += (found[at] == "{") - (found[at] == "}")
            at += 1
    return tuple(made)


@dataclass(frozen=True)
class Library:
    """Modules by their names."""

    modules: dict[str, Module]

    def with_text(self, text: str) -> Library:
        """These modules with one that another text has."""
        module = read(text)
        return Library({**self.modules, module.name: module})

    def find(self, module: str, name: str) -> tuple[str, Words] | None:
        """The assignment of a name, and the module that has it; None where that module is not here."""
        scope = self.modules.get(module)
        if scope is None:
            return None
        if name in scope.assignments:
            return module, with_tags(scope.assignments[name], scope.tags)
        return self.find(scope.imports[name], name) if name in scope.imports else None

    def written_out(self, found: Words, modules: list[str], name: str) -> Words:
        """The words with what a name stands for in its place; the modules grow by that which has the name."""
        meaning = next((one for one in (self.find(module, name) for module in modules) if one is not None), None)
        if meaning is None or name not in found:
            return found
        modules.append(meaning[0])
        return replaced(found, (name,), meaning[1][meaning[1].index("::=") + 1 :])

    def arcs(self, module: str, found: Words) -> tuple[int, ...]:
        """The arcs of an object identifier, of which the words stand in braces."""
        arcs: tuple[int, ...] = ()
        text = " ".join(found).strip("{} ")
        for name, number, alone in re.findall(rf"({NAME})(?: \( ([0-9]+) \))?|([0-9]+)", text):
            if number or alone:
                arcs += (int(number or alone),)
            elif not arcs and name in FIRST_ARCS:
                arcs += (FIRST_ARCS[name],)
            else:
                meaning = self.find(module, name)
                assert meaning is not None and not arcs, f"{module} has no {name}"
                arcs += self.arcs(meaning[0], meaning[1][meaning[1].index("::=") + 1 :])
        return arcs


def library(folder: Path) -> Library:
    """The modules of a folder."""
    modules = [read(file.read_text(encoding="utf-8")) for file in sorted(folder.glob("*.asn1"))]
    return Library({module.name: module for module in modules})


# ---- the comparison


@dataclass(frozen=True)
class Synonym:
    """How an assignment differs from the standard's, with the same octets, and the reason why.

    The words `standard` stand in the standard where `ours` stand here. `WRITTEN_OUT` on one side says that the name
    on the other is written out there: what the name stands for is taken from the text itself.
    """

    standard: str
    ours: str
    reason: str


def with_arcs(library: Library, module: str, found: Words) -> Words:
    """The value of an object identifier with its arcs as numbers; other words as they stand."""
    at = found.index("::=")
    if " ".join(found[:at]) not in ("OBJECT IDENTIFIER", "AttributeType"):
        return found
    return (*found[:at], *map(str, library.arcs(module, found[at + 1 :])))


@dataclass(frozen=True)
class Comparison:
    """The modules of `asn1`, those of the standards, and what is known to differ."""

    ours: Library
    standards: Library
    sources: dict[str, tuple[str, ...]]
    synonyms: dict[tuple[str, str], tuple[Synonym, ...]]
    parameters: dict[str, str]
    own: dict[tuple[str, str], tuple[str, str]]

    def source(self, module: str, name: str) -> str | None:
        """The module of a standard that has the name: the first of the module's sources that assigns it."""
        sources = self.sources[module]
        return next((one for one in sources if name in self.standards.modules[one].assignments), None)

    def both(self, module: str, name: str, source: str, synonyms: tuple[Synonym, ...]) -> tuple[Words, Words]:
        """The words here and in the standard, which are the same where the two say the same."""
        found, meaning = self.ours.find(module, name), self.standards.find(source, name)
        assert found is not None and meaning is not None
        here, there = [found[0]], [meaning[0]]
        ours, standard = found[1], meaning[1]
        for one in synonyms:
            if one.ours == WRITTEN_OUT:
                standard = self.standards.written_out(standard, there, one.standard)
            elif one.standard == WRITTEN_OUT:
                ours = self.ours.written_out(ours, here, one.ours)
            else:
                standard = replaced(standard, words(one.standard), words(one.ours))
        for parameter in self.parameters:
            standard = without_parameters(standard, parameter)
        return with_arcs(self.ours, found[0], ours), with_arcs(self.standards, meaning[0], standard)

    def differs(self, module: str, name: str) -> bool:
        """Whether an assignment differs from what is known of it."""
        if (module, name) in self.own:
            return self.ours.modules[module].assignments[name] != words(self.own[module, name][0])
        source = self.source(module, name)
        if source is None:
            return True
        ours, standard = self.both(module, name, source, self.synonyms.get((module, name), ()))
        return ours != standard

    def assignments(self) -> list[tuple[str, str]]:
        """All assignments that are compared."""
        return [(module, name) for module in self.sources for name in self.ours.modules[module].assignments]

    def differing(self) -> list[tuple[str, str]]:
        """All assignments that differ."""
        return [one for one in self.assignments() if self.differs(*one)]
