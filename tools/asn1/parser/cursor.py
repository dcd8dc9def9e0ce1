"""A place in the lexical items of a module."""

from __future__ import annotations

import re
from collections.abc import Iterator
from contextlib import contextmanager
from typing import NoReturn

from ..annotations import is_annotations
from ..errors import AsnError, Place
from ..lexer import Annotation, Kind, Token, tokens_of
from ..reading import quotable

DEEPEST = 40  # types, or constraints, within one another: what reads and writes them calls itself
QUOTED_AS = {Kind.BITS: "B", Kind.HEX: "H"}
COMMENT = re.compile(r"[ \t]*--([ \t]*@[^\n]*?)(?:--|(?=\n)|\Z)")


class Cursor:
    """The items that are still to come, and the annotations of those that were taken."""

    def __init__(self, file: str, text: str) -> None:
        self.text = text
        self.tokens = tokens_of(file, text)
        self.at = 0
        self.depth = 0
        self.is_extensible = False  # the module has EXTENSIBILITY IMPLIED: '...' stands in each type that has none (13.4)
        self.collected: list[list[Annotation]] = [[]]

    @classmethod
    def over(cls, tokens: tuple[Token, ...], end: Token) -> "Cursor":
        """The items of a group that was taken whole; `end` is the brace that closes it."""
        cursor = cls(end.place.file, "")
        cursor.tokens = [*tokens, end]
        return cursor

    def peek(self, ahead: int = 0) -> Token:
        """The next item, or one further on."""
        return self.tokens[min(self.at + ahead, len(self.tokens) - 1)]

    @property
    def place(self) -> Place:
        return self.peek().place

    def next(self) -> Token:
        """Takes the next item."""
        token = self.peek()
        if token.kind is not Kind.END:
            self.at += 1
        self.collected[-1].extend(token.annotations)
        return token

    def sees(self, *texts: str) -> bool:
        """Whether the next items are these words or symbols."""
        return all(
            self.peek(i).text == text and self.peek(i).kind in (Kind.WORD, Kind.SYMBOL)
            for i, text in enumerate(texts)
        )

    def sees_kind(self, *kinds: Kind) -> bool:
        """Whether the next items are of these kinds."""
        return all(self.peek(i).kind is kind for i, kind in enumerate(kinds))

    def take(self, *texts: str) -> bool:
        """Takes these words or symbols where they are next."""
        if not self.sees(*texts):
            return False
        for _ in texts:
            self.next()
        return True

    def expect(self, text: str, instead: str) -> Token:
        """Takes this word or symbol, which has to be next."""
        if not self.sees(text):
            self.fail(f"{self.peek()} stands where '{text}' is expected", instead)
        return self.next()

    def expect_kind(self, kind: Kind, what: str, instead: str) -> Token:
        """Takes an item of this kind, which has to be next."""
        if self.peek().kind is not kind:
            self.fail(f"{self.peek()} stands where {what} is expected", instead)
        return self.next()

    def fail(self, problem: str, instead: str) -> NoReturn:
        """The error at the next item."""
        raise AsnError(self.place, problem, instead)

    @contextmanager
    def nested(self, what: str, instead: str) -> Iterator[None]:
        """Within a type or a constraint, of which no more than some stand within one another."""
        if self.depth == DEEPEST:
            self.fail(f"more than {DEEPEST} {what} stand within one another here", instead)
        self.depth += 1
        yield
        self.depth -= 1

    @contextmanager
    def collecting(self) -> Iterator[list[Annotation]]:
        """The annotations after the items that are taken within."""
        notes: list[Annotation] = []
        self.collected.append(notes)
        yield notes
        self.collected.pop()

    def balanced(self) -> str:
        """Takes a group in braces or parentheses whole; its text."""
        opening = self.next()
        closing = {"{": "}", "(": ")"}
        stack = [(closing[opening.text], opening)]
        while stack:
            token = self.next()
            if token.kind is Kind.END:
                missing, opened = stack[-1]
                raise AsnError(opened.place, f"this '{opened.text}' is not closed", f"close it with '{missing}'")
            if token.kind is Kind.SYMBOL and token.text in closing:
                stack.append((closing[token.text], token))
            elif token.kind is Kind.SYMBOL and token.text == stack[-1][0]:
                stack.pop()
        return self.text_from(opening)

    def text_from(self, first: Token, quoted_from: int | None = None) -> str:
        """The text from an item to the last one taken, in one line and with no comments; quotes stand from one of them on."""
        start = next(i for i in range(self.at, -1, -1) if self.tokens[i] is first)
        quoted = self.at if quoted_from is None else quoted_from
        taken = [" ".join(token.text.split()) for token in self.tokens[start:quoted]]
        taken += [written(token) for token in self.tokens[quoted : self.at]]
        joined = re.sub(r"(?<=[(\[@]) | (?=[)\],])", "", " ".join(taken))
        return re.sub(r" ?(\.\.?) ?(?=[^.])", r"\1", joined)

    def source_from(self, first: Token) -> str:
        """The lines from an item to the last one taken, as they stand, but with no annotations, and with spaces for tabs."""
        start = self.text.rfind("\n", 0, first.start) + 1
        indent = len(self.text[start : first.start].expandtabs())
        text = quotable(self.text[start : self.tokens[self.at - 1].end]).expandtabs()[indent:]
        text = COMMENT.sub(lambda found: "" if is_annotations(found.group(1)) else found.group(), text)
        lines = re.sub(r"[^\S\n]", " ", text).split("\n")
        rest = [line[min(indent, len(line) - len(line.lstrip())) :].rstrip() for line in lines[1:]]
        return "\n".join([lines[0].rstrip(), *rest])


def written(token: Token) -> str:
    """A lexical item as a module writes it, in one line."""
    text = " ".join(token.text.split())
    if token.kind is Kind.TEXT:
        return '"' + text.replace('"', '""') + '"'
    return f"'{text}'{QUOTED_AS[token.kind]}" if token.kind in QUOTED_AS else text
