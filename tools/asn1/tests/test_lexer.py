"""The lexical items (X.680 12)."""

from __future__ import annotations

import unittest

from ..lexer import Kind, tokens_of


def items(text: str) -> list[tuple[Kind, str]]:
    return [(token.kind, token.text) for token in tokens_of("test.asn1", text)[:-1]]


class Items(unittest.TestCase):
    def test_names_and_words(self) -> None:
        self.assertEqual(
            items("Name a-b SEQUENCE &id &Type SEQUENCE-OF"),
            [
                (Kind.UPPER, "Name"),
                (Kind.LOWER, "a-b"),
                (Kind.WORD, "SEQUENCE"),
                (Kind.FIELD, "&id"),
                (Kind.FIELD, "&Type"),
                (Kind.UPPER, "SEQUENCE-OF"),
            ],
        )

    def test_symbols_are_the_longest(self) -> None:
        self.assertEqual([text for _, text in items("::=...[[]]..[]")], ["::=", "...", "[[", "]]", "..", "[", "]"])

    def test_a_range_of_numbers(self) -> None:
        self.assertEqual([text for _, text in items("(0..255)")], ["(", "0", "..", "255", ")"])

    def test_quoted(self) -> None:
        self.assertEqual(
            items("'0101'B '0A F'H \"a\"\"b\""), [(Kind.BITS, "0101"), (Kind.HEX, "0AF"), (Kind.TEXT, 'a"b')]
        )

    def test_a_comment_ends_at_two_hyphens_or_with_the_line(self) -> None:
        self.assertEqual([text for _, text in items("a -- b -- c -- d\ne")], ["a", "c", "e"])

    def test_comments_within_comments(self) -> None:
        self.assertEqual([text for _, text in items("a /* b /* c */ d -- */ e")], ["a", "e"])

    def test_places(self) -> None:
        places = [(token.place.line, token.place.column) for token in tokens_of("test.asn1", "a\n  bc\n\nd")]
        self.assertEqual(places, [(1, 1), (2, 3), (4, 1), (4, 2)])

    def test_annotations_belong_to_the_item_before_them(self) -> None:
        tokens = tokens_of("test.asn1", "a Name, -- @unread @name(b)\nc")
        found = [(token.text, [(note.name, note.argument) for note in token.annotations]) for token in tokens[:4]]
        self.assertEqual(found, [("a", []), ("Name", []), (",", [("unread", None), ("name", "b")]), ("c", [])])

    def test_an_at_sign_within_a_comment_is_no_annotation(self) -> None:
        self.assertEqual(tokens_of("test.asn1", "a -- see @unread")[0].annotations, [])
