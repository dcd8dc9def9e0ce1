"""What the tables may not say."""

from __future__ import annotations

import unittest

from ..errors import TableError
from ..tables.checks import checks_of, of_call
from ..tables.reading import structs_of
from ..tables.rules import rules_of
from ..tables.steps import steps_of

FIRST = "certificate | 0 | AlgorithmsAgree | 4.1.1.2, 4.1.2.3 | The algorithms agree | two algorithms\n"
SECOND = "certificate | 1 | IssuerIsNotEmpty | 4.1.2.4 | The issuer is not empty | an empty issuer | C: ISSUER\n"

STEP = "list | 1 | UserCertificates | 6.3.3 (b)(2)(ii) | it has end entities alone\n"

HEAD = "key: Key (RFC 1 2.3) | key\n"
FILE = "    file: keys\n"
READS = FILE + "    reads: all\n"
OUT = "    out: KeyPlaces\n        keyID field an OCTET STRING\n"
NUMBERS = "    numbers:\n        version_number u64 0 for v1\n"
RESULTS = "    results: the version\n"


class Refused(unittest.TestCase):
    """A table that is refused, by its line and its words."""

    def refused(self, read, text: str) -> str:  # type: ignore[no-untyped-def]
        with self.assertRaises(TableError) as caught:
            read("table.txt", text)
        self.assertTrue(str(caught.exception).startswith(f"table.txt:{caught.exception.line}: error: "))
        return f"{caught.exception.line} {caught.exception.problem}"


class Rules(Refused):
    def test_a_table(self) -> None:
        first, second = rules_of("table.txt", f"# rules\n\n{FIRST}{SECOND}")
        self.assertEqual((first.kind, first.bit, first.name, first.section), ("certificate", 0, "AlgorithmsAgree", "4.1.1.2"))
        self.assertEqual((first.sections, first.sentence, first.broken_by), ("4.1.1.2, 4.1.2.3", "The algorithms agree", "two algorithms"))
        self.assertEqual((first.name_in_c, second.name_in_c), (None, "ISSUER"))

    def test_that_each_kind_has_its_own_bits(self) -> None:
        self.assertEqual([rule.bit for rule in rules_of("table.txt", FIRST + SECOND + FIRST.replace("certificate", "list"))], [0, 1, 0])

    def test_what_is_refused(self) -> None:
        for old, new, expected in [
            ("certificate |", "key |", "a rule is of a certificate or of a list"),
            ("| 0 |", "| first |", "the second part is the rule's bit"),
            ("| 0 |", "| 1 |", "the next rule of this kind has bit 0, not 1"),
            ("AlgorithmsAgree", "algorithms_agree", "algorithms_agree is no name of a variant"),
            ("4.1.1.2, 4.1.2.3", "4.1.1.2 4.1.2.3", "4.1.1.2 4.1.2.3 are no sections"),
            ("agree |", "agree. |", "the sentence has no full stop"),
            (" | two algorithms", "", "a rule has six parts, or seven"),
            ("two algorithms", "", "a rule has six parts, or seven"),
            ("two algorithms", "two algorithms | ALGORITHMS", "the seventh part is 'C: ' and a name in capital letters"),
            ("certificate", "    certificate", None),
            ("certificate", "  certificate", "the spaces before a line are a multiple of four"),
        ]:
            with self.subTest(new=new):
                text = FIRST.replace(old, new, 1)
                if expected:
                    self.assertEqual(self.refused(rules_of, f"# a comment\n{text}"), f"2 {expected}")
                else:
                    self.assertEqual(len(rules_of("table.txt", text)), 1)

    def test_one_name_twice(self) -> None:
        text = FIRST + FIRST.replace("| 0 |", "| 1 |")
        self.assertEqual(self.refused(rules_of, text), "2 another rule has the name AlgorithmsAgree")

    def test_a_rule_too_many(self) -> None:
        names = "ABCDEFGHIJKLMNOPQRSTUVWXYZ"
        lines = [f"list | {at} | {names[at % 26] * (1 + at // 26)} | 5.1 | It holds | nothing\n" for at in range(65)]
        self.assertEqual(len(rules_of("table.txt", "".join(lines[:64]))), 64)
        self.assertEqual(self.refused(rules_of, "".join(lines)), "65 a number of 64 bits has no bit for this rule")


class Steps(Refused):
    def test_a_table(self) -> None:
        first, second = steps_of("table.txt", f"# steps\n\n{STEP}answer | 1 | ThisUpdate | 4.4 | it is late\n")
        self.assertEqual((first.kind, first.number, first.name, first.enum), ("list", 1, "UserCertificates", "ListStep"))
        self.assertEqual((first.section, first.phrase), ("6.3.3 (b)(2)(ii)", "it has end entities alone"))
        self.assertEqual((second.number, second.enum, second.section), (1, "OcspStep", "4.4"))

    def test_what_is_refused(self) -> None:
        for old, new, expected in [
            ("list |", "chain |", "a step refuses a certificate, a list or an answer"),
            ("| 1 |", "| one |", "the second part is the step's number"),
            ("| 1 |", "| 0 |", "the next step of this kind has number 1, not 0"),
            ("| 1 |", "| 2 |", "the next step of this kind has number 1, not 2"),
            ("UserCertificates", "user_certificates", "user_certificates is no name of a variant"),
            ("6.3.3 (b)", "section (b)", "section (b)(2)(ii) is no section with a letter or a number"),
            ("(ii)", "(ii", "6.3.3 (b)(2)(ii is no section with a letter or a number"),
            ("alone", "alone.", "the phrase has no full stop"),
            (" | it has end entities alone", "", "a step has five parts"),
            ("alone", "alone | more", "a step has five parts"),
        ]:
            with self.subTest(new=new):
                self.assertEqual(self.refused(steps_of, f"# a comment\n{STEP.replace(old, new, 1)}"), f"2 {expected}")

    def test_one_name_twice(self) -> None:
        self.assertEqual(self.refused(steps_of, STEP + STEP.replace("| 1 |", "| 2 |")), "2 another step has the name UserCertificates")


class Checks(Refused):
    HEAD = "list_status\n    list_at: ListAt | What it says\n"
    FIELDS = "        date_seconds u64 when\n        status_number=status u32 0 or 1\n        reserved u32 0\n"

    def test_a_table(self) -> None:
        (check,) = checks_of("table.txt", self.HEAD + self.FIELDS)
        self.assertEqual((check.call, check.name, check.type, check.sentence, check.size), ("list_status", "list_at", "ListAt", "What it says", 16))
        self.assertEqual([(it.name, it.name_elsewhere, it.type, it.phrase) for it in check.fields], [
            ("date_seconds", "date", "u64", "when"), ("status_number", "status", "u32", "0 or 1"), ("reserved", "reserved", "u32", "0"),
        ])
        self.assertEqual((of_call([check], "list_status"), of_call([check], "check_path")), ([check], []))

    def test_what_is_refused(self) -> None:
        of_a_call = "one of check_path, list_status, revocation_status, ocsp_status stands here, each once"
        for text, expected in [
            (self.HEAD.replace("list_status", "status") + self.FIELDS, f"1 {of_a_call}"),
            ((self.HEAD + self.FIELDS) * 2, f"6 {of_a_call}"),
            (self.HEAD + self.FIELDS + (self.HEAD + self.FIELDS).split("\n", 1)[1], "1 list_status: two structs have one name"),
            (self.HEAD.replace(" | What it says", "") + self.FIELDS, "2 a struct begins with 'NAME: STRUCT | what it is'"),
            (self.HEAD, "2 list_at: it has no fields"),
            (self.HEAD + self.FIELDS + "        reserved u64 0\n", "2 list_at: two fields have one name"),
            (self.HEAD + "        a u32 one\n" + self.FIELDS, "2 list_at: there is a gap before date_seconds"),
            (self.HEAD + self.FIELDS + "        more u32 0\n", "2 list_at: there is a gap after the last field"),
            (self.HEAD + "        date i64 when\n", "3 a field has a name in C, a type (place, u32 or u64) and a phrase"),
            (self.HEAD + "        date u64 when.\n", "3 a phrase has no full stop"),
        ]:
            with self.subTest(expected=expected):
                self.assertEqual(self.refused(checks_of, text), expected)


class Structs(Refused):
    def test_a_table(self) -> None:
        (struct,) = structs_of("table.txt", HEAD + READS + RESULTS + OUT + NUMBERS)
        self.assertEqual((struct.name, struct.type, struct.standard, struct.noun), ("key", "Key", "RFC 1 2.3", "key"))
        self.assertEqual((struct.file, struct.is_front, struct.next, struct.size), ("keys", False, None, 16))
        self.assertEqual(struct.results, "the version")
        self.assertEqual([(it.name, it.name_elsewhere, it.type, it.access, it.phrase) for it in struct.fields], [
            ("key_id", "keyID", "place", "field", "an OCTET STRING"),
            ("version_number", "version", "u64", "", "0 for v1"),
        ])

    def test_a_number_with_another_name_in_der_c(self) -> None:
        (struct,) = structs_of("table.txt", HEAD + READS + RESULTS + OUT + NUMBERS.replace("version_number", "version_number=first"))
        self.assertEqual([(it.name, it.name_elsewhere) for it in struct.numbers], [("version_number", "first")])

    def test_one_that_stands_at_the_front(self) -> None:
        whole = "    whole: Place\n        whole place the whole\n"
        for next_, expected in [
            ("written; the items", ("der_next_key", True, "the items")),
            ("by hand der_next_one", ("der_next_one", False, "")),
        ]:
            text = f"{HEAD}{FILE}    reads: front\n    next: {next_}\n{whole}{OUT.replace('out', 'fields')}"
            (struct,) = structs_of("table.txt", text)
            assert struct.next
            self.assertTrue(struct.is_front)
            self.assertEqual((struct.next.name, struct.next.is_written, struct.next.left), expected)

    def test_heads_and_words_that_are_refused(self) -> None:
        for text, expected in [
            ("key: Key | key\n", "1 a struct begins with 'NAME: TYPE (STANDARD) | what it is'"),
            (READS, "1 this line belongs to none before it"),
            (HEAD + READS + OUT + HEAD + READS + OUT, "6 another struct has the name key"),
            (HEAD + FILE + "    reads: some\n" + OUT, "1 key: 'reads:' says all or front"),
            (HEAD + FILE + OUT, "1 key: 'reads:' says all or front"),
            (HEAD + "    reads: all\n" + OUT, "1 key: 'file:' names the file of the packages, without its ending"),
            (HEAD + FILE + READS + OUT, "1 key: 'file:' names the file of the packages, without its ending"),
            (HEAD + "    all octets\n" + OUT, "2 a word and a colon stand here"),
            (HEAD + READS + "        keyID field an OCTET STRING\n", "3 'reads:' has a text, and no fields"),
        ]:
            with self.subTest(expected=expected):
                self.assertEqual(self.refused(structs_of, text), expected)

    def test_what_is_written_as_a_whole(self) -> None:
        inner = HEAD + "    file: inner\n    reads: all\n"
        self.assertTrue(structs_of("table.txt", inner + "    secret: yes\n" + OUT)[0].is_secret)
        self.assertFalse(structs_of("table.txt", inner + "    next: written; the items\n" + OUT)[0].is_secret)
        for text, expected in [
            (HEAD + READS + "    secret: yes\n" + OUT, "1 key: 'secret:' is said of 'inner' alone"),
            (inner + RESULTS + OUT + NUMBERS, "1 key: 'inner' has messages that are all octets, without numbers"),
        ]:
            with self.subTest(expected=expected):
                self.assertEqual(self.refused(structs_of, text), expected)

    def test_fields_that_are_refused(self) -> None:
        of_a_field = "5 a field has a name in ASN.1, 'field', 'optional' or 'place', and a phrase"
        of_a_number = "7 a number has a name in C, a type (u32, u64 or i64) and a phrase"
        of_a_member = "4 a member has a type of der_c or der_places, and 'numbers' has none"
        head = HEAD + READS + RESULTS
        for text, expected in [
            (HEAD + READS + "    out:\n        keyID field a key\n", of_a_member),
            (HEAD + READS + "    numbers: KeyPlaces\n        a u64 one\n", of_a_member),
            (HEAD + READS + "    out: KeyPlaces\n", "4 out has no fields"),
            (HEAD + READS + OUT.replace(" field", " octets"), of_a_field),
            (HEAD + READS + OUT.replace("keyID", "key_id"), of_a_field),
            (HEAD + READS + OUT.replace(" field", " u64"), of_a_field),
            (HEAD + READS + OUT.replace("STRING", "STRING."), "4 a phrase has no full stop"),
            (HEAD + READS + OUT + NUMBERS.replace(" u64", " place"), of_a_number),
            (HEAD + READS + OUT + NUMBERS.replace("version_number", "versionNumber"), of_a_number),
            (HEAD + READS + OUT + "        keyID place the same\n", "1 key: two fields have one name"),
            (HEAD + READS + RESULTS + NUMBERS, "1 key: it has no places"),
            (HEAD + READS + RESULTS + NUMBERS + OUT, "1 key: numbers stand after the places"),
            (HEAD + READS + OUT + NUMBERS, "1 key: 'results:' says what the numbers are"),
            (HEAD + READS + RESULTS + OUT, "1 key: 'results:' says what the numbers are"),
            (head + OUT + "    numbers:\n        a u32 one\n        b u64 two\n", "1 key: there is a gap before b"),
            (head + OUT + "    numbers:\n        b u64 two\n        a u32 one\n", "1 key: there is a gap after the last field"),
        ]:
            with self.subTest(expected=expected):
                self.assertEqual(self.refused(structs_of, text), expected)

    def test_what_stands_at_the_front_and_is_refused(self) -> None:
        whole = "    whole: Place\n        whole place the whole\n"
        front = HEAD + FILE + "    reads: front\n"
        next_ = "    next: written; the items\n"
        for text, expected in [
            (HEAD + READS + whole + OUT, "1 key: the place 'whole' stands first, at the front alone"),
            (front + next_ + OUT, "1 key: the place 'whole' stands first, at the front alone"),
            (front + whole + OUT, "1 key: 'next:' is said of those at the front"),
            (HEAD + READS + "    next: by hand der_next_key\n" + OUT, "1 key: 'next:' by hand is of those at the front"),
            (front + "    next: written\n" + whole + OUT,
             "1 'next:' says 'written; ' and what is left at first, or 'by hand ' and the name of the call"),
        ]:
            with self.subTest(expected=expected):
                self.assertEqual(self.refused(structs_of, text), expected)
