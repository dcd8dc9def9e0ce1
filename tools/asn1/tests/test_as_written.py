"""Pages and laws have the names, the order and the numbers of the text: a resolver that has others writes code that they
contradict, and that the prover then refuses."""

from __future__ import annotations

import re
import unittest
from collections.abc import Callable
from dataclasses import replace
from unittest import mock

from ..model import Field, List, Listed
from ..resolver import definitions as resolver
from ..resolver import types as resolver_types
from ..writer import pages, types
from ..writer.grammar import GrammarPage
from .helpers import module_of
from .test_writer import written

Parts = tuple[Field, ...]


def with_names_of(parts: Parts, order: list[int]) -> Parts:
    """These parts, each with the name in Rattle of another."""
    return tuple(replace(part, rust=parts[i].rust) for part, i in zip(parts, order))


def with_fields(change: Callable[[Parts], Parts]) -> mock._patch:
    """A resolver that has other fields of a SEQUENCE or a SET."""
    right = resolver.fields_of

    def wrong(*arguments: object) -> tuple[Parts, Parts]:
        fields, declared = right(*arguments)  # type: ignore[arg-type]
        return change(fields), declared

    return mock.patch.object(resolver, "fields_of", wrong)


def with_alternatives(change: Callable[[Parts], Parts]) -> mock._patch:
    """A resolver that has other alternatives of a CHOICE."""
    right = resolver.alternatives_of
    return mock.patch.object(resolver, "alternatives_of", lambda *arguments: change(right(*arguments)))


def names_in_octets(files: dict[str, str], type_: str) -> list[str]:
    """The names by which the law of the octets of a type has its fields, in its order."""
    law = files[f"src/test/{type_}.rt"].split(f"pub fn octets_of_{type_}")[1]
    return re.findall(rf"\({type_}_fields\.(\w+) v\)", law)


def names_in_page(files: dict[str, str], page: str) -> list[str]:
    """The names of the page of a type's fields, in the order of their places."""
    found = re.findall(r"^(\w+) v = v\.fields\.list((?:\.rest)*)\.first", files[f"specs/Test/{page}.antt"], re.M)
    return [name for name, _ in sorted(found, key=lambda one: len(one[1]))]


def grammar_of(files: dict[str, str], type_: str) -> str:
    """The grammar of a type, in one line."""
    found = re.search(rf"^{type_} =\s+((?:.|\n )+)", files["specs/Test/Grammar.antt"], re.M)
    assert found is not None
    return " ".join(found[1].split())


class Names(unittest.TestCase):
    """The law of the octets has the names of the fields as the text has them, in its order."""

    BODY = "V ::= SEQUENCE { notBefore INTEGER, notAfter INTEGER, type NULL -- @name(kind)\n }"

    def test_the_law_and_the_page_agree(self) -> None:
        files = written(module_of(self.BODY))
        self.assertEqual(names_in_octets(files, "v"), ["not_before", "not_after", "kind"])
        self.assertEqual(names_in_page(files, "V"), ["not_before", "not_after", "kind"])

    def test_two_fields_of_one_type_that_exchange_their_names_contradict_the_law(self) -> None:
        with with_fields(lambda fields: with_names_of(fields, [1, 0, 2])):
            files = written(module_of(self.BODY))
        self.assertEqual(names_in_octets(files, "v"), ["not_before", "not_after", "kind"])
        self.assertEqual(names_in_page(files, "V"), ["not_after", "not_before", "kind"])

    def test_two_fields_of_one_type_that_change_places_contradict_the_law(self) -> None:
        with with_fields(lambda fields: (fields[1], fields[0], *fields[2:])):
            files = written(module_of(self.BODY))
        self.assertEqual(names_in_octets(files, "v"), ["not_before", "not_after", "kind"])
        self.assertEqual(names_in_page(files, "V"), ["not_after", "not_before", "kind"])

    def test_components_of_stand_in_their_place(self) -> None:
        body = "A ::= SEQUENCE { a NULL, COMPONENTS OF B, c NULL }\nB ::= SEQUENCE { x NULL, y NULL, ..., z NULL OPTIONAL }"
        self.assertEqual(names_in_octets(written(module_of(body)), "a"), ["a", "x", "y", "c"])

    def test_a_set_has_the_order_of_its_tags(self) -> None:
        body = """S ::= SET { a [1] NULL, b T, c [APPLICATION 7] NULL, d U, e [0] NULL, f SET OF NULL }
        T ::= [APPLICATION 3] IMPLICIT INTEGER
        U ::= CHOICE { x BIT STRING }"""
        files = written(module_of(body))
        self.assertEqual(names_in_octets(files, "s"), ["d", "f", "b", "c", "e", "a"])
        self.assertEqual(names_in_page(files, "S"), ["d", "f", "b", "c", "e", "a"])


class Grammars(unittest.TestCase):
    """The page of the grammar has fields, alternatives and numbers as the text has them."""

    def test_fields_stand_in_the_order_of_the_text(self) -> None:
        body = module_of("S ::= SEQUENCE { a NULL, b [0] BOOLEAN OPTIONAL, c UTF8String }")
        expected = "SEQUENCE (field NULL (OPTIONAL (EXPLICIT context 0 BOOLEAN) (field UTF8_STRING end)))"
        with with_fields(lambda fields: tuple(reversed(fields))):
            self.assertEqual(grammar_of(written(body), "s"), expected)
        with with_fields(lambda fields: (*fields, fields[0])):
            self.assertEqual(grammar_of(written(body), "s"), expected)

    def test_a_field_that_the_resolver_lacks_is_missed(self) -> None:
        with with_fields(lambda fields: fields[:-1]), self.assertRaises(KeyError):
            written(module_of("S ::= SEQUENCE { a NULL, b BOOLEAN OPTIONAL }"))

    def test_the_fields_of_a_set_stand_in_the_order_of_tags(self) -> None:
        with with_fields(lambda fields: tuple(reversed(fields))):
            found = grammar_of(written(module_of("S ::= SET { a [1] NULL, b BOOLEAN }")), "s")
        self.assertEqual(found, "SET (field BOOLEAN (field (EXPLICIT context 1 NULL) end))")

    def test_a_choice_in_a_set_stands_where_all_of_its_tags_do(self) -> None:
        body = "A ::= SET { a CHOICE { b NULL, c INTEGER }, d BOOLEAN, e [0] NULL }"
        files = written(module_of(body))
        self.assertEqual(names_in_page(files, "A"), ["d", "a", "e"])
        self.assertEqual(names_in_octets(files, "a"), ["d", "a", "e"])

    def test_alternatives_stand_in_the_order_of_the_text(self) -> None:
        with with_alternatives(lambda parts: (parts[1], parts[0], parts[2])):
            found = grammar_of(written(module_of("C ::= CHOICE { a NULL, b BOOLEAN, c UTF8String }")), "c")
        self.assertEqual(found, "CHOICE (CHOICE NULL BOOLEAN) UTF8_STRING")

    def test_an_alternative_that_the_resolver_lacks_is_missed(self) -> None:
        with with_alternatives(lambda parts: parts[:2]), self.assertRaises(KeyError):
            written(module_of("C ::= CHOICE { a NULL, b BOOLEAN, c UTF8String }"))

    def test_automatic_tags_are_counted_in_the_text(self) -> None:
        body = module_of("S ::= SEQUENCE { a NULL, ..., b NULL OPTIONAL, ..., c NULL }", "AUTOMATIC TAGS")
        expected = grammar_of(written(body), "s")
        with with_fields(lambda fields: tuple(reversed(fields))):
            self.assertEqual(grammar_of(written(body), "s"), expected)

    def test_defaults_are_those_of_the_text(self) -> None:
        body = module_of("S ::= SEQUENCE { a V DEFAULT v2, b [0] INTEGER (0..9) DEFAULT 7 }\nV ::= INTEGER { v1(0), v2(1) }")
        with with_fields(lambda fields: tuple(replace(part, default=5) for part in fields)):
            found = grammar_of(written(body), "s")
        self.assertEqual(re.findall(r"natural_contents (\d+)", found), ["1", "7"])


def list_in_code(files: dict[str, str], type_: str) -> str:
    """The list that the only field of a type is, or that a list with a name holds."""
    found = re.search(r"Fields1<(\w+)<'a, Null>>|items: (\w+)<'a, Null>,", files[f"src/test/{type_}.rt"])
    assert found is not None
    return found[1] or found[2]


class Lists(unittest.TestCase):
    """The page of the grammar says which list it is in a word of its own, so that other code contradicts it."""

    BODY = "A ::= SET OF NULL\nB ::= SEQUENCE OF NULL\nS ::= SEQUENCE { a SET OF NULL }"

    def found(self) -> tuple[str, str]:
        """The words of the three on the page, and their types in the code."""
        files = written(module_of(self.BODY))
        words = [re.findall(r"\w+_OF\w*", grammar_of(files, name))[0] for name in ("a", "b", "s")]
        return " ".join(words), " ".join(list_in_code(files, name) for name in ("a", "b", "s"))

    def test_the_page_and_the_code_agree(self) -> None:
        self.assertEqual(self.found(), ("SET_OF SEQUENCE_OF SET_OF", "SetRef ListRef SetRef"))

    def test_a_page_with_sets_in_any_order_contradicts_the_code(self) -> None:
        right = GrammarPage.list_word

        def wrong(page: GrammarPage, *arguments: object) -> str:
            return right(page, *arguments).replace("SET_OF", "SET_OF_ANY_ORDER")  # type: ignore[arg-type]

        with mock.patch.object(GrammarPage, "list_word", wrong):
            page, code = self.found()
        self.assertEqual(page, "SET_OF_ANY_ORDER SEQUENCE_OF SET_OF_ANY_ORDER")
        self.assertEqual(code, "SetRef ListRef SetRef")

    def test_code_with_another_list_contradicts_the_page(self) -> None:
        for wrong in ("ListRef", "UnorderedSetRef"):
            with self.subTest(wrong), mock.patch.object(types, "list_name", lambda _: wrong):
                with mock.patch.object(pages, "list_name", lambda _: wrong):
                    page, code = self.found()
                self.assertEqual(page, "SET_OF SEQUENCE_OF SET_OF")
                self.assertEqual(code, f"{wrong} {wrong} {wrong}")

    def test_whether_it_is_a_set_is_the_texts_to_say(self) -> None:
        """A resolver that has a SET OF for a SEQUENCE OF, and the other way round, writes code that the page contradicts."""
        listed, plain = resolver_types.listed, resolver.plain

        def wrong_plain(*arguments: object) -> object:
            found = plain(*arguments)  # type: ignore[arg-type]
            if isinstance(found, List):
                found.is_set = not found.is_set
            return found

        def wrong_listed(*arguments: object) -> Listed:
            found = listed(*arguments)  # type: ignore[arg-type]
            return replace(found, is_set=not found.is_set)

        with mock.patch.object(resolver, "plain", wrong_plain), mock.patch.object(resolver_types, "listed", wrong_listed):
            page, code = self.found()
        self.assertEqual(page, "SET_OF SEQUENCE_OF SET_OF")
        self.assertEqual(code, "ListRef SetRef ListRef")

    def test_an_order_that_the_resolver_alone_has_stands_on_the_page(self) -> None:
        """The page has the order from the resolver, as the code has it: both say it, for an eye to see."""
        with mock.patch.object(resolver_types, "is_any_order", lambda _, type_: type_.is_set):
            found = self.found()
        self.assertEqual(found, ("SET_OF_ANY_ORDER SEQUENCE_OF SET_OF_ANY_ORDER", "UnorderedSetRef ListRef UnorderedSetRef"))


class Numbers(unittest.TestCase):
    """The page of an ENUMERATED has the names and the numbers of the text."""

    def numbers(self, body: str, wrong: Callable[[dict[str, int]], dict[str, int]]) -> tuple[str, str]:
        """The numbers on the page, and those in the code."""
        right = resolver.enumeration_of
        with mock.patch.object(resolver, "enumeration_of", lambda *arguments: wrong(right(*arguments))):
            files = written(module_of(body))
        page = re.findall(r"^number_of_e (\w+) = (pos \d+|negsuc \d+)$", files["specs/Test/E.antt"], re.M)
        code = re.findall(r"E::(\w+) => (-?\d+),", files["src/test/e.rt"])
        return ", ".join(" ".join(one) for one in page), ", ".join(" ".join(one) for one in code)

    def test_they_are_counted_in_the_text(self) -> None:
        page, code = self.numbers("E ::= ENUMERATED { a, b }", lambda found: {name: i + 1 for name, i in found.items()})
        self.assertEqual(page, "A pos 0, B pos 1")
        self.assertEqual(code, "A 1, B 2")

    def test_names_that_exchange_their_numbers_contradict_the_page(self) -> None:
        body = "E ::= ENUMERATED { a(3), b(-2) }"
        page, code = self.numbers(body, lambda found: dict(zip(found, reversed(found.values()))))
        self.assertEqual(page, "A pos 3, B negsuc 1")
        self.assertEqual(code, "A -2, B 3")

    def test_both_readers_agree(self) -> None:
        for text in ("a, b(0), c, d(5), ..., e", "a, b, ..., c(3), d", "a, z(25), ..., d", "a, b(3), ..., c(1), d", "a(n), b"):
            with self.subTest(text):
                page, code = self.numbers(f"E ::= ENUMERATED {{ {text} }}\nn INTEGER ::= 0", lambda found: found)
                self.assertEqual(page.replace("pos ", ""), code)


if __name__ == "__main__":
    unittest.main()
