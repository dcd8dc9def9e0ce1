"""Names that are words of Rattle or of its pages, and names that two things would have."""

from __future__ import annotations

import re
import unittest

from ..errors import AsnError
from ..spelling import camel, field, snake, variant
from .helpers import definitions, module_of, refusal, remarks
from .test_writer import written

# Words that a field may be called in ASN.1, and that no name in Rattle's clauses and pages may be.
RESERVED = "data record module open infix abbrev unfoldable ghost requires ensures deriving package mutual new v type in"


def refused(body: str) -> AsnError:
    """The error that a module gets while it is written."""
    try:
        written(module_of(body))
    except AsnError as error:
        return error
    raise AssertionError("the module is taken")


class Fields(unittest.TestCase):
    def test_a_reserved_word_gets_an_underscore(self) -> None:
        names = RESERVED.split()
        files = written(module_of(f"A ::= SEQUENCE {{ {', '.join(f'{name} NULL' for name in names)} }}"))
        source, page = files["src/test/a.rt"], files["specs/Test/A.antt"]
        self.assertEqual(re.findall(r"pub fn (\w+)\(&self\)", source), [f"{name}_" for name in names])
        self.assertEqual(re.findall(r"^abbrev pub (\w+) :", page, re.M), [f"{name}_" for name in names])
        self.assertEqual(re.findall(r"\(a_fields\.(\w+) v\)", source), [f"{name}_" for name in names])

    def test_into_parts_is_one(self) -> None:
        self.assertEqual([field("into-parts"), field("intoParts"), field("into")], ["into_parts_", "into_parts_", "into"])

    def test_no_parameter_is_called_result(self) -> None:
        source = written(module_of("A ::= SEQUENCE { result NULL }"))["src/test/a.rt"]
        self.assertIn("pub fn new(result_: Null) -> A", source)
        self.assertIn("pub fn result(&self) -> Null", source)


    def test_of_names_that_are_spelled_alike_each_but_the_first_has_a_number(self) -> None:
        body = "A ::= SEQUENCE { ab-c NULL, abC SEQUENCE { x NULL }, aBC NULL, ab-c2 NULL }"
        files = written(module_of(body))
        self.assertEqual(re.findall(r"pub fn (\w+)\(&self\)", files["src/test/a.rt"]), ["ab_c", "ab_c3", "abc", "ab_c2"])
        self.assertEqual(re.findall(r"\(a_fields\.(\w+) v\)", files["src/test/a.rt"]), ["ab_c", "ab_c3", "abc", "ab_c2"])
        self.assertIn("src/test/a_ab_c3.rt", files)
        self.assertIn("2:29 'abC' is 'ab_c3', as another is 'ab_c'", remarks(body))

    def test_names_that_are_given_are_not_numbered(self) -> None:
        self.assertEqual(remarks("A ::= SEQUENCE { ab-c NULL, abC NULL -- @name(other)\n}"), [])


class Constants(unittest.TestCase):
    def test_of_names_that_are_spelled_alike_each_but_the_first_has_a_number(self) -> None:
        body = "ab-c OBJECT IDENTIFIER ::= { 1 2 }\nabC OBJECT IDENTIFIER ::= { 1 3 }"
        constants = written(module_of(body))["src/test/constants.rt"]
        self.assertEqual(re.findall(r"pub const (\w+):", constants), ["AB_C", "AB_C_2"])
        self.assertEqual(remarks(body), ["3:1 'abC' is 'AB_C_2', as another is 'AB_C'"])


class Variants(unittest.TestCase):
    def test_of_names_that_are_spelled_alike_each_but_the_first_has_a_number(self) -> None:
        body = "A ::= CHOICE { ab-c NULL, abC SEQUENCE { x NULL } }"
        source = written(module_of(body))["src/test/a.rt"]
        self.assertIn("    AbC(Null),\n", source)
        self.assertIn("    AbC2(AAbC2),\n", source)

    def test_self_and_type_get_an_underscore(self) -> None:
        self.assertEqual([variant("self"), variant("type"), variant("selfSigned")], ["Self_", "Type_", "SelfSigned"])
        source = written(module_of("A ::= CHOICE { self NULL, type BOOLEAN }"))["src/test/a.rt"]
        self.assertIn("    Self_(Null),\n", source)
        self.assertIn("    Type_(bool),\n", source)

    def test_a_name_that_the_page_of_an_enumeration_has(self) -> None:
        page = written(module_of("E ::= ENUMERATED { some, list, names, e, none }"))["specs/Test/E.antt"]
        self.assertEqual(re.findall(r"^number_of_e (\w+) =", page, re.M), ["Some_", "List_", "Names_", "E_", "None"])


class Types(unittest.TestCase):
    def test_a_reserved_word_is_no_file(self) -> None:
        files = written(module_of("Data ::= SEQUENCE { a NULL }\nA ::= SEQUENCE { data Data }"))
        self.assertIn("src/test/data_.rt", files)
        self.assertIn("use crate::test::data_::Data;", files["src/test/a.rt"])
        self.assertIn("abbrev pub data_ : Grammar", files["specs/Test/Grammar.antt"])
        self.assertEqual(snake("Record"), "record_")

    def test_a_word_of_the_page_of_the_grammar_gets_an_underscore(self) -> None:
        for name in ("One", "Application", "Optional", "Tlv", "AnyOf"):
            word = snake(name)
            with self.subTest(name):
                files = written(module_of(f"{name} ::= SEQUENCE {{ a NULL }}"))
                self.assertIn(f"abbrev pub {word}_ : Grammar", files["specs/Test/Grammar.antt"])
                self.assertIn(f"pub fn grammar_of_{word}_()", files[f"src/test/{word}.rt"])
                self.assertIn(f"grammar_of_{word}_", files["src/test/laws.rt"])

    def test_a_file_that_each_module_has_is_no_types(self) -> None:
        for name in ("Laws", "LAWS", "Aliases", "Constants", "Grammar"):
            for type_ in ("SEQUENCE { a NULL }", "NULL"):
                with self.subTest(f"{name} ::= {type_}"):
                    error = refused(f"A ::= NULL\nB ::= {type_} -- @name({camel(name)})")
                    self.assertIn("a file that each module has", error.problem)
                    self.assertEqual((error.place.line, error.place.column), (3, 1))
                    self.assertIn("@name(", error.instead)

    def test_a_type_with_a_name_that_the_files_use_has_a_number(self) -> None:
        for name, own in (("Result", "Result2"), ("SetTag", "SetTag2"), ("Laws", "Laws2"), ("LAWS", "Laws2"), ("Choice", "Choice2")):
            for type_ in ("SEQUENCE { a NULL }", "NULL", "ENUMERATED { a }", "SET OF NULL"):
                with self.subTest(f"{name} ::= {type_}"):
                    body = f"{name} ::= {type_}\nB ::= SEQUENCE {{ b {name} }}"
                    self.assertEqual(sorted(definitions(body)), ["B", own])
                    said = f"'{name}' is '{own}', as what the written files use is '{own[:-1]}'"
                    self.assertIn(f"2:1 {said}", remarks(body))
                    self.assertTrue(any(said in text for text in written(module_of(body)).values()))
        self.assertEqual(sorted(definitions("Result ::= NULL\nResult2 ::= NULL\nRESULT ::= NULL")), ["Result2", "Result3", "Result4"])

    def test_names_that_differ_in_capitals_alone(self) -> None:
        error = refused("Ab ::= SEQUENCE { a NULL }\nB ::= SEQUENCE { a NULL } -- @name(AB)")
        self.assertEqual(error.problem, "the name 'AB' is taken by 'Ab' of 'Ab'")
        self.assertEqual(error.place.line, 3)

    def test_the_name_of_a_half_or_a_holder(self) -> None:
        choice = f"A ::= CHOICE {{ {', '.join(f'a{i} [{i}] B' for i in range(5))} }}\nB ::= SEQUENCE {{ x NULL }}"
        error = refused(f"{choice}\nAFirst ::= NULL")
        self.assertIn("the name 'AFirst' is taken by", error.problem)
        self.assertEqual(error.place.line, 4)
        error = refused("S ::= SEQUENCE { a [3] EXPLICIT L }\nL ::= SEQUENCE { x BMPString }\nExplicit3L ::= NULL")
        self.assertIn("the name 'Explicit3L' is taken by", error.problem)
        self.assertEqual(error.place.line, 4)

    def test_a_list_has_no_holder(self) -> None:
        files = written(module_of("S ::= SEQUENCE { a [3] EXPLICIT L }\nL ::= SEQUENCE OF NULL\nExplicit3L ::= SET OF NULL"))
        self.assertIn("SetRef<'a, Null>", files["src/test/explicit3_l.rt"])


class Spelling(unittest.TestCase):
    def test_names_that_are_spelled_alike(self) -> None:
        for text, names, rust in (
            ("ENUMERATED { abc, aBC }", "'aBC' and 'abc'", "Abc"),
            ("INTEGER { oneTwo(0), one-two(1) }", "'one-two' and 'oneTwo'", "ONE_TWO"),
            ("BIT STRING { oneTwo(0), one-two(1) }", "'one-two' and 'oneTwo'", "ONE_TWO"),
        ):
            with self.subTest(text):
                error = refusal(module_of(f"E ::= {text}"))
                self.assertEqual(error.problem, f"{names} are both '{rust}' in Rattle")
                self.assertEqual(error.place.line, 2)

    def test_types_that_are_spelled_alike_have_numbers(self) -> None:
        body = """ECGI-List ::= SEQUENCE OF ECGIList
            ECGIList ::= SEQUENCE { item SEQUENCE { a NULL }, c ECGI-List2 }
            ECGI-List2 ::= SET OF SEQUENCE { b NULL }
            ECGIlist ::= [1] EXPLICIT SEQUENCE { c NULL }
            ECGIListItem ::= NULL
            ECGIlistValue ::= BOOLEAN"""
        rust = {definition.name: definition.rust for definition in definitions(body).values()}
        self.assertEqual([rust[name] for name in ("ECGI-List", "ECGIList", "ECGI-List2")], ["EcgiList", "EcgiList3", "EcgiList2"])
        self.assertEqual([rust[name] for name in ("ECGIlist", "ECGIListItem")], ["EcgIlist4", "EcgiListItem"])
        self.assertIn("EcgiList3Item", rust)
        said = "'ECGIList' is 'EcgiList3', as another type of the module is 'EcgiList'"
        self.assertIn(f"3:13 {said}", remarks(body))
        files = written(module_of(body))
        self.assertIn(f"/// {said}.", files["src/test/ecgi_list3.rt"])
        self.assertEqual(len({file.lower() for file in files}), len(files))

    def test_a_type_that_is_written_out_gives_way(self) -> None:
        body = "A ::= SEQUENCE { b SEQUENCE { x NULL } }\nAB ::= NULL\nC ::= [1] EXPLICIT SEQUENCE { x NULL }\nCValue ::= NULL"
        self.assertEqual(sorted(definitions(body)), ["A", "AB2", "Ab", "C", "CValue", "CValue2"])

    def test_names_of_an_enumeration_that_differ_in_hyphens(self) -> None:
        files = written(module_of("E ::= ENUMERATED { v-1(3), v1(4), db-3, db3, oneTwo, one-two, one-two-three }"))
        for name, shown in (("v-1", "V_1"), ("v1", "V1"), ("db-3", "Db_3"), ("db3", "Db3")):
            self.assertIn(f"    /// `{name}` (", files["src/test/e.rt"])
            self.assertIn(f"    {shown},\n", files["src/test/e.rt"])
        self.assertIn("E::V_1 => 3", files["src/test/e.rt"])
        self.assertIn("number_of_e V_1 = pos 3", files["specs/Test/E.antt"])
        for shown in ("One_Two", "OneTwo", "OneTwoThree"):
            self.assertIn(f"    {shown},\n", files["src/test/e.rt"])


if __name__ == "__main__":
    unittest.main()
