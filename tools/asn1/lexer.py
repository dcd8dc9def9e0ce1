"""The lexical items of ASN.1 (X.680 clause 12), and the annotations that stand in comments."""

from __future__ import annotations

import re
from dataclasses import dataclass, field
from enum import Enum

from .annotations import ANNOTATION, is_annotations
from .errors import AsnError, Place
from .reading import check_characters


class Kind(Enum):
    """The kinds of lexical items."""

    UPPER = "a name that begins with a capital"  # 12.2: typereference, modulereference, objectclassreference
    LOWER = "a name that begins with a small letter"  # 12.3: identifier, valuereference
    WORD = "a reserved word"  # 12.38
    NUMBER = "a number"  # 12.8
    BITS = "a bstring"  # 12.10
    HEX = "an hstring"  # 12.12
    TEXT = "a cstring"  # 12.14
    FIELD = "the name of a field of a class"  # X.681 7.3, 7.4: &Type, &value
    SYMBOL = "a symbol"  # 12.20 to 12.37
    END = "the end of the file"


@dataclass(frozen=True)
class Annotation:
    """`@name` or `@name(argument)` in a comment."""

    place: Place
    name: str
    argument: str | None


@dataclass
class Token:
    """A lexical item, and the annotations after it on its line."""

    kind: Kind
    text: str
    place: Place
    start: int
    end: int
    annotations: list[Annotation] = field(default_factory=list)

    def __str__(self) -> str:
        return self.kind.value if self.kind is Kind.END else f"'{self.text}'"


# The reserved words of X.680 12.38, and ANY and MACRO, which X.208 reserves.
RESERVED = frozenset(
    """
    ABSENT ALL ANY APPLICATION AUTOMATIC BEGIN BIT BMPString BOOLEAN BY CHARACTER CHOICE CLASS COMPONENT COMPONENTS
    CONSTRAINED CONTAINING DEFAULT DEFINED DEFINITIONS EMBEDDED ENCODED END ENUMERATED EXCEPT EXPLICIT EXPORTS
    EXTENSIBILITY EXTERNAL FALSE FROM GeneralizedTime GeneralString GraphicString IA5String IDENTIFIER IMPLICIT IMPLIED
    IMPORTS INCLUDES INSTANCE INTEGER INTERSECTION ISO646String MACRO MAX MIN MINUS-INFINITY NULL NumericString OBJECT
    ObjectDescriptor OCTET OF OPTIONAL PATTERN PDV PLUS-INFINITY PRESENT PrintableString PRIVATE REAL RELATIVE-OID
    SEQUENCE SET SIZE STRING SYNTAX T61String TAGS TeletexString TRUE TYPE-IDENTIFIER UNION UNIQUE UNIVERSAL
    UniversalString UTCTime UTF8String VideotexString VisibleString WITH
    """.split()
)

NAME = re.compile(r"[A-Za-z][A-Za-z0-9]*(?:-[A-Za-z0-9]+)*")
FIELD_NAME = re.compile(r"&[A-Za-z][A-Za-z0-9]*(?:-[A-Za-z0-9]+)*")
NUMBER = re.compile(r"[0-9]+")
MOST_DIGITS = 1000
QUOTED = re.compile(r"'([0-9A-F\s]*)'([BH])")
TEXT = re.compile(r'"((?:[^"]|"")*)"')
SYMBOLS = ("::=", "...", "..", "[[", "]]", *"{}<>,.()[]-:;=@|!^*")


class Lexer:
    """Cuts the text of a module into lexical items."""

    def __init__(self, file: str, text: str) -> None:
        self.file = file
        self.text = text
        self.at = 0
        self.line_starts = [0] + [found.end() for found in re.finditer(r"\n", text)]
        self.tokens: list[Token] = []

    def place(self, at: int) -> Place:
        """The place of a character."""
        low, high = 0, len(self.line_starts)
        while high - low > 1:
            middle = (low + high) // 2
            if self.line_starts[middle] <= at:
                low = middle
            else:
                high = middle
        return Place(self.file, low + 1, at - self.line_starts[low] + 1)

    def run(self) -> list[Token]:
        """All items, of which the last is the end of the file."""
        while self.at < len(self.text):
            if self.text[self.at].isspace():
                self.at += 1
            elif self.text.startswith("--", self.at):
                self.line_comment()
            elif self.text.startswith("/*", self.at):
                self.block_comment()
            else:
                self.item()
        self.push(Kind.END, "", self.at)
        return self.tokens

    def push(self, kind: Kind, text: str, end: int) -> None:
        self.tokens.append(Token(kind, text, self.place(self.at), self.at, end))
        self.at = end

    def line_comment(self) -> None:
        """12.6.3: a comment from `--` to the end of the line, or to the next `--` on it."""
        start = self.at
        line_end = self.text.find("\n", start)
        line_end = len(self.text) if line_end < 0 else line_end
        again = self.text.find("--", start + 2, line_end)
        end = line_end if again < 0 else again
        self.comment(start + 2, end)
        self.at = end if again < 0 else again + 2

    def block_comment(self) -> None:
        """12.6.4: a comment from `/*` to its `*/`, with others in it."""
        start, depth, at = self.at, 1, self.at + 2
        while depth:
            found = re.compile(r"/\*|\*/").search(self.text, at)
            if found is None:
                raise AsnError(self.place(start), "a comment does not end", "end it with '*/'")
            depth += 1 if found.group() == "/*" else -1
            at = found.end()
        self.comment(start + 2, at - 2)
        self.at = at

    def comment(self, start: int, end: int) -> None:
        """Keeps the annotations of a comment that begins with one, or with what is meant as one."""
        text = self.text[start:end]
        if not is_annotations(text):
            return
        place = self.place(start + len(text) - len(text.lstrip()))
        if not self.tokens or self.tokens[-1].place.line != place.line:
            raise AsnError(
                place,
                "this annotation stands on a line of its own",
                "write it after what it is about, on the same line: 'issuer Name, -- @unread'",
            )
        if ANNOTATION.sub("", text).strip():
            raise AsnError(
                place,
                "a comment that begins with an annotation has annotations alone",
                "write '-- @name' or '-- @name(argument)', several with spaces between them",
            )
        for found in ANNOTATION.finditer(text):
            at = self.place(start + found.start())
            self.tokens[-1].annotations.append(Annotation(at, found.group(1), found.group(2)))

    def item(self) -> None:
        """One item at this place."""
        for kind, pattern in ((Kind.NUMBER, NUMBER), (Kind.FIELD, FIELD_NAME)):
            found = pattern.match(self.text, self.at)
            if found:
                self.number_or_field(kind, found.group(), found.end())
                return
        found = NAME.match(self.text, self.at)
        if found:
            self.name(found.group(), found.end())
            return
        if self.text[self.at] in "'\"":
            self.quoted()
            return
        for symbol in SYMBOLS:
            if self.text.startswith(symbol, self.at):
                self.push(Kind.SYMBOL, symbol, self.at + len(symbol))
                return
        shown = self.text[self.at]
        check_characters(shown, self.place(self.at))
        raise AsnError(
            self.place(self.at),
            f"the character {shown!r} is none of ASN.1's",
            "leave it out (X.680 11.1 lists the characters of a module)",
        )

    def number_or_field(self, kind: Kind, text: str, end: int) -> None:
        if kind is Kind.NUMBER and len(text) > MOST_DIGITS:
            problem = f"a number of {len(text)} digits is not taken"
            raise AsnError(self.place(self.at), problem, f"write one of {MOST_DIGITS} at most")
        if kind is Kind.NUMBER and len(text) > 1 and text[0] == "0":
            shortest = text.lstrip("0") or "0"
            raise AsnError(self.place(self.at), f"the number {text} begins with 0", f"write {shortest} (X.680 12.8)")
        self.push(kind, text, end)

    def name(self, text: str, end: int) -> None:
        """12.2, 12.3: a name has no hyphen at its end and no two in a row."""
        if self.text.startswith("-", end) and not self.text.startswith("--", end):
            raise AsnError(
                self.place(self.at),
                f"the name '{text}-' ends with a hyphen",
                "leave the hyphen out (X.680 12.2.1)",
            )
        kind = Kind.WORD if text in RESERVED else Kind.UPPER if text[0].isupper() else Kind.LOWER
        self.push(kind, text, end)

    def quoted(self) -> None:
        """12.10, 12.12, 12.14: '01'B, '0A'H and \"text\"."""
        found = QUOTED.match(self.text, self.at)
        if found and (found.group(2) == "H" or not set(found.group(1)) - set("01 \t\n")):
            kind = Kind.BITS if found.group(2) == "B" else Kind.HEX
            self.push(kind, "".join(found.group(1).split()), found.end())
            return
        found = TEXT.match(self.text, self.at)
        if found:
            check_characters(found.group(), self.place(self.at))
            self.push(Kind.TEXT, found.group(1).replace('""', '"'), found.end())
            return
        raise AsnError(
            self.place(self.at),
            "this quoted string has no end, or is none of ASN.1's",
            "write '0101'B, '0AFF'H (capitals) or \"text\"",
        )


def tokens_of(file: str, text: str) -> list[Token]:
    """The lexical items of a text."""
    return Lexer(file, text).run()
