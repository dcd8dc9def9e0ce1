"""A reading of modules that goes on after what the compiler refuses, so that one construct does not hide the rest."""

from __future__ import annotations

from dataclasses import dataclass, field, replace
from typing import TypeVar

from ..errors import AsnError, Place
from ..lexer import Kind, Lexer, Token
from ..parser import modules as parser
from ..parser.cursor import Cursor
from ..syntax import Arc, Assignment, Module, TagDefault, TypeAssignment

Found = TypeVar("Found")


@dataclass
class Span:
    """Where an assignment stands, and what the parser says of it, if it is refused."""

    name: str
    first: Place
    last: Place
    is_type: bool  # a type of its own, with no parameters
    error: AsnError | Exception | None = None

    def has(self, place: Place) -> bool:
        """Whether a place is within the assignment."""
        return place.file == self.first.file and self.first <= place <= self.last


@dataclass
class Reading:
    """A module as far as it is understood, its assignments, and what is wrong with what stands around them."""

    module: Module
    spans: list[Span] = field(default_factory=list)
    errors: list[AsnError | Exception] = field(default_factory=list)


class TolerantLexer(Lexer):
    """Passes over what is no lexical item, and keeps the errors."""

    def __init__(self, file: str, text: str) -> None:
        super().__init__(file, text)
        self.errors: list[AsnError] = []

    def item(self) -> None:
        self.passing(super().item)

    def block_comment(self) -> None:
        self.passing(super().block_comment)

    def comment(self, start: int, end: int) -> None:
        try:
            super().comment(start, end)
        except AsnError as error:
            self.errors.append(error)

    def passing(self, take) -> None:  # type: ignore[no-untyped-def]
        """One item, or one character where there is none."""
        try:
            take()
        except AsnError as error:
            self.errors.append(error)
            self.step()

    def step(self) -> None:
        """Passes over a character; an underscore within a name is read as a hyphen."""
        if self.text[self.at] == "_" and self.tokens and self.tokens[-1].end == self.at:
            self.text = f"{self.text[:self.at]}-{self.text[self.at + 1 :]}"
            self.at = self.tokens.pop().start
        else:
            self.at += 1


def header_of(cursor: Cursor) -> tuple[Token, tuple[Arc, ...], TagDefault]:
    """The header of a module, with its BEGIN."""
    found = parser.parse_header(cursor)
    parser.parse_begin(cursor)
    return found


def cursor_of(file: str, text: str) -> tuple[Cursor, list[AsnError]]:
    """The lexical items of a text, and what is none."""
    lexer = TolerantLexer(file, text)
    cursor = Cursor(file, "")
    cursor.text, cursor.tokens = text, lexer.run()
    return cursor, lexer.errors


def readings_of(file: str, text: str) -> list[Reading]:
    """All modules of a file."""
    cursor, errors = cursor_of(file, text)
    found: list[Reading] = []
    while cursor.peek().kind is not Kind.END:
        reading = reading_of(cursor, file, errors)
        if reading is None:
            break
        found.append(reading)
    return found


def reading_of(cursor: Cursor, file: str, lexical: list[AsnError]) -> Reading | None:
    """The module that begins here, or None where no more does."""
    start = cursor.at
    following = next((i for i in range(start, len(cursor.tokens)) if cursor.tokens[i].text == "BEGIN"), None)
    if following is None:
        return None
    errors: list[AsnError | Exception] = []
    header = attempt(cursor, errors, lambda: header_of(cursor))
    if header is None:
        cursor.at = following + 1
    name = header[0] if header else cursor.tokens[start]
    words = [token.text for token in cursor.tokens[start:following]]
    tags = header[2] if header else next((tags for tags in TagDefault if tags.value in words), TagDefault.EXPLICIT)
    exports = heading(cursor, errors, "EXPORTS", lambda: parser.parse_exports(cursor))
    imports = heading(cursor, errors, "IMPORTS", lambda: parser.parse_imports(cursor)) or ()
    module = Module(name.place, name.text, header[1] if header else (), tags, imports, exports, (), file)
    reading = Reading(module, errors=errors)
    assignments: list[Assignment] = []
    while cursor.peek().kind is not Kind.END and not cursor.take("END"):
        take_assignment(cursor, reading, assignments, lexical)
    reading.module = replace(module, assignments=tuple(assignments))
    return reading


def attempt(cursor: Cursor, errors: list[AsnError | Exception], parse) -> Found | None:  # type: ignore[no-untyped-def]
    """What is parsed here, or None after an error."""
    cursor.depth, cursor.collected = 0, [[]]
    try:
        return parse()
    except Exception as error:
        errors.append(error)
        return None


def heading(cursor: Cursor, errors: list[AsnError | Exception], word: str, parse) -> Found | None:  # type: ignore[no-untyped-def]
    """The exports or the imports; after an error what follows their semicolon is next."""
    is_there, before = cursor.sees(word), len(errors)
    found = attempt(cursor, errors, parse)
    if is_there and len(errors) > before:
        while cursor.peek().kind is not Kind.END and not cursor.take(";"):
            cursor.next()
    return found


def take_assignment(cursor: Cursor, reading: Reading, assignments: list[Assignment], lexical: list[AsnError]) -> None:
    """One assignment, or what stands up to the next one."""
    start, errors = cursor.at, []
    first = cursor.peek()
    found = attempt(cursor, errors, lambda: parser.parse_assignment(cursor))
    if found is None:
        cursor.at = following_start(cursor.tokens, start)
    last = cursor.tokens[max(cursor.at - 1, start)]
    is_type = first.kind is Kind.UPPER and cursor.tokens[start + 1].text == "::=" if start + 1 < len(cursor.tokens) else False
    if found is not None:
        is_type = isinstance(found, TypeAssignment) and not found.parameters
    span = Span(first.text, first.place, replace(last.place, column=last.place.column + len(last.text)), is_type)
    within = [error for error in lexical if span.has(error.place)]
    span.error = (errors + within + [None])[0]
    if found is not None and not within:
        assignments.append(found)
    reading.spans.append(span)


def following_start(tokens: list[Token], start: int) -> int:
    """Where the next assignment seems to begin: a name that is first on its line, with '::=' on that line or the next."""
    if tokens[start + 1].text == "MACRO":
        return next((i + 1 for i in range(start, len(tokens)) if tokens[i].text == "END"), len(tokens) - 1)
    for i in range(start + 1, len(tokens)):
        token = tokens[i]
        if token.kind is Kind.END or (token.text == "END" and token.place.line != tokens[i - 1].place.line):
            return i
        if token.kind in (Kind.UPPER, Kind.LOWER) and token.place.line != tokens[i - 1].place.line and is_assigned(tokens, i):
            return i
    return len(tokens) - 1


def is_assigned(tokens: list[Token], at: int) -> bool:
    """Whether '::=' follows a name on its line, or begins the next line."""
    for i in range(at + 1, len(tokens)):
        if tokens[i].place.line != tokens[at].place.line:
            return tokens[i].text == "::=" and tokens[i - 1].place.line == tokens[at].place.line
        if tokens[i].text == "::=":
            return True
    return False
