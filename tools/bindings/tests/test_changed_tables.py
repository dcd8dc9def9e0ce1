"""A change of a table is told of each list that does not follow; then the lists are written, and those of the crates are told."""

from __future__ import annotations

from ..tables.tables import CHECKS, RULES, STEPS, STRUCTS
from .test_lists import (
    BITS, CALLS, CHECKED, FIELDS_IN_GO, FIELDS_IN_PYTHON, FIELDS_IN_RUST, FINDINGS, FUZZED, GO, HEADER, LISTS, LISTS_ANTT, LIST_STEP, LIST_STEPS_ANTT, NUMBERS, NUMBERS_ANTT,
    OCSP_STEP, OCSP_STEPS_ANTT, PAGE, PLACES, PYTHON, REFUSAL, REFUSAL_ANTT, RULES_ANTT, RUST, SAFE, SECTIONS, STEP, STEPS_ANTT, STEPS_IN_GO, STEPS_IN_PYTHON, STEPS_IN_RUST, SYS,
    TEXTS, VERIFY, WORDS, OCSP_STATUS_AT, PATH_AT, RESPONDER_AT,
)
from .tree import TreeTest

LANGUAGES = {HEADER, RUST, GO, PYTHON}
SYNONYM = "list | 3 | NextUpdateIsThere | 5.1.2.5 |"
LAST = (
    "list | 22 | RemoveFromCrlOnlyInDelta | 5.3.1 | removeFromCRL stands in a delta list alone "
    "| an entry with this reason, and no deltaCRLIndicator\n"
)


class ChangedTable(TreeTest):
    """A change of one of the tables."""

    table = RULES

    def assert_told(self, old: str, new: str, written: set[str], compared: set[str]) -> None:
        """Before the lists are written all of these files are told, and afterwards those of the crates alone."""
        self.change(self.table, old, new)
        self.assertEqual(self.files_told(), written | compared)
        self.run_tool()
        status, lines = self.run_tool("--check")
        self.assertEqual((status, {line.split(":")[0] for line in lines}), (1 if compared else 0, compared))


class ChangedRules(ChangedTable):
    def test_another_name(self) -> None:
        compared = {LISTS, LISTS_ANTT, SECTIONS, BITS, FINDINGS}
        self.assert_told(SYNONYM, SYNONYM.replace("IsThere", "Stands"), LANGUAGES | {PAGE}, compared)

    def test_another_section(self) -> None:
        written = {HEADER, RUST, GO, PYTHON, PAGE}
        self.assert_told(SYNONYM, SYNONYM.replace("5.1.2.5", "5.1.2.6"), written, {LISTS, SECTIONS})

    def test_a_second_section(self) -> None:
        self.assert_told(SYNONYM, SYNONYM.replace("5.1.2.5", "5.1.2.5, 5.2"), LANGUAGES, {LISTS})

    def test_another_sentence(self) -> None:
        self.assert_told("| nameConstraints is critical |", "| nameConstraints is not critical |", LANGUAGES, {VERIFY, FINDINGS})

    def test_another_reason(self) -> None:
        self.assert_told("| no nextUpdate\n", "| nextUpdate is absent\n", {PAGE}, set())

    def test_another_name_in_c(self) -> None:
        self.assert_told("C: SERIAL_NUMBER_AT_MOST_20_OCTETS", "C: SERIAL_NUMBER_SHORT", {HEADER}, set())

    def test_another_order(self) -> None:
        lines = self.text(RULES).split("\n")
        at = next(at for at, line in enumerate(lines) if line.startswith("certificate | 1 |"))
        old = "\n".join(lines[at : at + 2]) + "\n"
        new = lines[at + 1].replace("| 2 |", "| 1 |") + "\n" + lines[at].replace("| 1 |", "| 2 |") + "\n"
        self.assert_told(old, new, LANGUAGES | {PAGE}, {VERIFY, RULES_ANTT, SECTIONS, BITS})

    def test_a_rule_less(self) -> None:
        compared = {LISTS, LISTS_ANTT, SECTIONS, BITS, FINDINGS, "docs/C.md"}
        self.assert_told(LAST, "", LANGUAGES | {PAGE}, compared)

    def test_a_rule_more(self) -> None:
        more = LAST + "list | 23 | VersionIs3 | 5.1.2.1 | The version is 3 | version 1\n"
        compared = {LISTS, LISTS_ANTT, SECTIONS, BITS, FINDINGS, "docs/C.md"}
        self.assert_told(LAST, more, LANGUAGES | {PAGE}, compared)

    def test_a_table_that_cannot_be_read(self) -> None:
        line = self.change(RULES, SYNONYM, SYNONYM.replace("| 3 |", "| 4 |"))
        self.assertEqual(self.run_tool(), (1, [f"{RULES}:{line}: error: the next rule of this kind has bit 3, not 4"]))


class ChangedSteps(ChangedTable):
    table = STEPS
    CA = "certificate | 7 | Ca | 6.1.4 (k) | not of version 3, or not a CA's\n"
    LAST_OF_LIST = "list | 12 | NoNewReasons | 6.3.3 (e) | the list has no reason\n"
    LAST = "answer | 5 | NoResponder | 3.2 (4) | the answer names nobody who may sign it (4.2.2.2)\n"
    OF_CHAINS = {HEADER, STEPS_IN_RUST[0], STEPS_IN_GO[0], STEPS_IN_PYTHON[0]}
    OF_STATUS = {HEADER, STEPS_IN_RUST[1], STEPS_IN_GO[1], STEPS_IN_PYTHON[1]}

    def test_another_name(self) -> None:
        compared = {STEP, STEPS_ANTT, REFUSAL, REFUSAL_ANTT, WORDS}
        self.assert_told(self.CA, self.CA.replace("| Ca |", "| IsCa |"), self.OF_CHAINS | {TEXTS}, compared)

    def test_another_section(self) -> None:
        self.assert_told(self.CA, self.CA.replace("(k)", "(l)"), self.OF_CHAINS | {TEXTS}, {STEP, STEPS_ANTT})

    def test_another_phrase(self) -> None:
        self.assert_told(self.LAST_OF_LIST, self.LAST_OF_LIST.replace("no reason", "no reason more"), self.OF_STATUS, set())

    def test_a_step_more_for_lists(self) -> None:
        more = self.LAST_OF_LIST + "list | 13 | ZeroNumber | 5.2.3 | the list has the number 0\n"
        compared = {LIST_STEP, LIST_STEPS_ANTT, NUMBERS, NUMBERS_ANTT}
        self.assert_told(self.LAST_OF_LIST, more, self.OF_STATUS | {TEXTS}, compared)

    def test_a_step_less_for_answers(self) -> None:
        self.assert_told(self.LAST, "", self.OF_STATUS | {TEXTS}, {OCSP_STEP, OCSP_STEPS_ANTT, NUMBERS, NUMBERS_ANTT})

    def test_a_table_that_cannot_be_read(self) -> None:
        line = self.change(STEPS, self.CA, self.CA.replace("| 7 |", "| 8 |"))
        self.assertEqual(self.run_tool(), (1, [f"{STEPS}:{line}: error: the next step of this kind has number 7, not 8"]))


class ChangedChecks(ChangedTable):
    table = CHECKS
    LENGTH = "        key_hash_len u64 how many octets the hash value of the responder's key has\n"
    STATUS = "        cert_status_number=status u32 "

    def test_another_name(self) -> None:
        self.assert_told("        policy_count u64 ", "        count_of_policies u64 ", {HEADER, SYS}, {PATH_AT})

    def test_another_name_in_c(self) -> None:
        self.assert_told(self.STATUS, "        status u32 ", {HEADER}, set())

    def test_another_type(self) -> None:
        self.assert_told(self.LENGTH, self.LENGTH.replace("u64", "place"), {HEADER, SYS}, {OCSP_STATUS_AT})

    def test_another_phrase(self) -> None:
        self.assert_told(self.LENGTH, self.LENGTH.replace("how many", "the count of"), {HEADER, SYS}, set())

    def test_a_struct_less(self) -> None:
        text = self.text(CHECKS)
        old = text[text.index("    responder_at: ") : text.index("    ocsp_status_at: ")]
        self.assert_told(old, "", {HEADER, SYS}, {RESPONDER_AT})

    def test_a_struct_more(self) -> None:
        more = "    key_at: KeyAt | A key\n        key place a SubjectPublicKeyInfo\n    ocsp_status_at: "
        self.assert_told("    ocsp_status_at: ", more, {HEADER, SYS}, {"crates/der_c/src/path"})


class ChangedStructs(TreeTest):
    INNER = {"rust/der-proved/src/inner.rs", "go/der/inner.go", "python/src/derproved/_inner.py"}
    C_OF_PYTHON = {"python/src/derproved/classes.h", "python/src/derproved/message.c", "python/src/derproved/_der.pyi"}
    CMS = ("rust/der-proved/src/cms.rs", "go/der/cms.go")
    PLACES_OF_SIGNER = "crates/der_places/src/cms/signer_info.rt"

    def test_another_name_of_a_place(self) -> None:
        self.change(STRUCTS, "        sid field a CHOICE", "        signerID field a CHOICE")
        self.assertEqual(self.files_told(), {HEADER, SYS, PLACES, PYTHON, *self.CMS, self.PLACES_OF_SIGNER})

    def test_another_access(self) -> None:
        self.change(STRUCTS, "        sid field a CHOICE", "        sid optional a CHOICE")
        self.assertEqual(self.files_told(), {HEADER, PYTHON, *self.CMS})
        self.assertEqual(self.run_tool(), (0, []))

    def test_another_file(self) -> None:
        text = self.text(STRUCTS)
        start = text.index("certificate_list: ")
        self.change(STRUCTS, text[start:], text[start:].replace("file: certificate_list", "file: request", 1))
        self.assertEqual(self.files_told(), {f"{file}.{end}" for file, end in (
            ("rust/der-proved/src/certificate_list", "rs"), ("rust/der-proved/src/request", "rs"),
            ("go/der/certificate_list", "go"), ("go/der/request", "go"))})

    def test_another_order(self) -> None:
        self.change(STRUCTS, "        thisUpdate place a GeneralizedTime\n        nextUpdate place with its explicit tag [0]\n",
                    "        nextUpdate place with its explicit tag [0]\n        thisUpdate place a GeneralizedTime\n")
        self.assertEqual(self.files_told(), {HEADER, SYS, PLACES, "crates/der_places/src/ocsp/single_response.rt"})

    def test_another_number(self) -> None:
        self.change(STRUCTS, "        response_status_number i64", "        response_status_number u64")
        expected = {HEADER, SYS, FIELDS_IN_GO, FIELDS_IN_RUST, "crates/der_c/src/ocsp_response.rt"}
        self.assertEqual(self.files_told(), expected)

    def test_a_field_more_that_is_written(self) -> None:
        self.change(STRUCTS, "        requestorName optional field\n", "        version optional field\n        requestorName optional field\n")
        self.assertEqual(self.files_told(), {FIELDS_IN_GO, FIELDS_IN_PYTHON, FIELDS_IN_RUST})

    def test_a_call_less_that_writes(self) -> None:
        self.change(STRUCTS, "    writes: ocsp_request\n        tbsRequest field\n        optionalSignature optional field\n", "")
        expected = {CHECKED, SYS, SAFE, FIELDS_IN_GO, FIELDS_IN_PYTHON, FIELDS_IN_RUST, "python/src/derproved/writing.c"}
        self.assertEqual(self.files_told(), expected | {"crates/der_c/src/building/ocsp_request.rt"})

    def test_another_member(self) -> None:
        self.change(STRUCTS, "    info: CertificationRequestInfoPlaces", "    tbs: CertificationRequestInfoPlaces")
        self.assertEqual(self.files_told(), {"crates/der_c/src/certification_request.rt"})

    def test_another_sentence(self) -> None:
        self.change(STRUCTS, "        sid field a CHOICE: ", "        sid field one of: ")
        self.assertEqual(self.files_told(), {HEADER, SYS, PYTHON, *self.CMS})

    def test_another_source(self) -> None:
        self.change(STRUCTS, "signer_info: SignerInfo (RFC 5652 5.3)", "signer_info: SignerInfo (RFC 2630 5.3)")
        self.assertEqual(self.files_told(), {HEADER, "docs/C.md"})

    def test_other_results(self) -> None:
        self.change(STRUCTS, "    results: the status\n", "    results: its status\n")
        self.assertEqual(self.files_told(), {"docs/C.md"})

    def test_a_place_more(self) -> None:
        self.change(STRUCTS, "        eContent optional", "        more place what follows\n        eContent optional")
        content = "crates/der_places/src/cms/encapsulated_content_info.rt"
        expected = {HEADER, SYS, PLACES, PYTHON, "python/src/derproved/message.c", "docs/C.md", content}
        self.assertEqual(self.files_told(), expected)

    def test_a_struct_less(self) -> None:
        text = self.text(STRUCTS)
        start = text.index("attribute: Attribute ")
        end = text.index("algorithm_identifier: ")
        self.change(STRUCTS, text[start:end], "")
        expected = {HEADER, CHECKED, CALLS, FUZZED, SYS, SAFE, PLACES, PYTHON, "docs/C.md", "crates/der_c/src/attribute.rt", "crates/der_c/src/next.rt", *self.C_OF_PYTHON}
        self.assertEqual(self.files_told(), expected | {"rust/der-proved/src/attribute.rs", "go/der/attribute.go"})

    def test_a_struct_more(self) -> None:
        more = "key: Key (RFC 1 2.3) | key\n    file: key\n    reads: all\n    out: KeyPlaces\n        octets field an OCTET STRING\n"
        text = self.text(STRUCTS)
        self.change(STRUCTS, text, f"{text}\n{more}")
        expected = {HEADER, CHECKED, CALLS, SYS, SAFE, PLACES, PYTHON, "docs/C.md", "crates/der_c/src", *self.C_OF_PYTHON}
        self.assertEqual(self.files_told(), expected | {"rust/der-proved/src/key.rs", "go/der/key.go"})

    def test_a_struct_less_that_is_written_as_a_whole(self) -> None:
        text = self.text(STRUCTS)
        self.change(STRUCTS, text[text.index("cert_bag: CertBag ") :], "")
        expected = {HEADER, CHECKED, CALLS, FUZZED, SYS, SAFE, PLACES, "docs/C.md", "crates/der_c/src/pkcs12.rt", *self.C_OF_PYTHON}
        self.assertEqual(self.files_told(), expected | self.INNER)

    def test_a_secret(self) -> None:
        self.change(STRUCTS, "cert_bag: CertBag (RFC 7292 4.2.3) | certificate in a bag\n    file: inner\n",
                    "cert_bag: CertBag (RFC 7292 4.2.3) | certificate in a bag\n    file: inner\n    secret: yes\n")
        self.assertEqual(self.files_told(), {"rust/der-proved/src/inner.rs", "go/der/inner.go"})
