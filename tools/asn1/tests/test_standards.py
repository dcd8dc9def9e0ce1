"""The modules of `asn1`, compared word for word with those of the standards, which stand in `tests/modules`."""

from __future__ import annotations

import unittest
from collections.abc import Iterable, Iterator
from dataclasses import replace

from .standards import MODULES, WRITTEN, Comparison, Library, Module, Synonym, Words, library, words
from .synonyms import IMPORTED, NOT_COMPARED, NOT_HERE, OWN, PARAMETERS, SOURCES, SYNONYMS

OURS, STANDARDS = library(WRITTEN), library(MODULES)


def comparison(ours: Library = OURS) -> Comparison:
    """These modules beside those of the standards."""
    return Comparison(ours, STANDARDS, SOURCES, SYNONYMS, PARAMETERS, OWN)


class Assignments(unittest.TestCase):
    """Each assignment is the standard's, word for word or by its synonyms."""

    def test_each_says_what_the_standard_says(self) -> None:
        self.assertEqual(comparison().differing(), [])

    def test_all_modules_are_compared(self) -> None:
        self.assertEqual(sorted(OURS.modules), sorted([*SOURCES, *NOT_COMPARED]))
        self.assertGreaterEqual(len(comparison().assignments()), 385)

    def test_none_is_passed_over_by_the_reader(self) -> None:
        for folder, modules in ((WRITTEN, OURS), (MODULES, STANDARDS)):
            texts = [file.read_text(encoding="utf-8") for file in folder.glob("*.asn1")]
            headers = len(texts)
            self.assertEqual(len(texts), len(modules.modules))
            signs = sum(words(text).count("::=") for text in texts)
            self.assertEqual(signs - headers, sum(len(module.assignments) for module in modules.modules.values()))

    def test_modules_that_hand_names_on_have_names_of_the_standard(self) -> None:
        for module in NOT_COMPARED:
            if module in STANDARDS.modules:
                self.assertEqual(OURS.modules[module].assignments, {})
                self.assertEqual(set(OURS.modules[module].exports), set(OURS.modules[module].imports))
                known = set(STANDARDS.modules[module].assignments)
                self.assertEqual(set(OURS.modules[module].exports) - known, set())

    def test_a_name_that_is_handed_on_says_what_it_says_in_the_standard(self) -> None:
        for module in NOT_COMPARED:
            if module in STANDARDS.modules:
                for name in OURS.modules[module].exports:
                    here, there = comparison().both(module, name, module, synonyms_of(OURS, module, name))
                    self.assertEqual(here, there, name)

    def test_a_name_that_is_imported_says_what_it_says_in_the_standard(self) -> None:
        self.assertEqual(wrong_imports(OURS), [])
        self.assertGreaterEqual(len(list(imported(OURS))), 60)


def wrong_imports(ours: Library) -> list[tuple[str, str]]:
    """The names that modules import, and that say another thing in their standard."""
    found: list[tuple[str, str]] = []
    for module, name, source in imported(ours):
        here, there = comparison(ours).both(module, name, source, synonyms_of(ours, module, name))
        found += [(module, name)] if here != there else []
    return found


def imported(ours: Library) -> Iterator[tuple[str, str, str]]:
    """The names that modules import, each with the first module of their standards that knows it too."""
    for module in SOURCES:
        for name in ours.modules[module].imports:
            source = next((one for one in SOURCES[module] if knows(STANDARDS.modules[one], name)), None)
            if source is not None:
                yield module, name, source


def knows(scope: Module, name: str) -> bool:
    """Whether a module assigns a name, or imports it from a module that is here."""
    return name in scope.assignments or (name in scope.imports and scope.imports[name] not in NOT_HERE)


def synonyms_of(ours: Library, module: str, name: str) -> tuple[Synonym, ...]:
    """How an imported name is the same as in the standard: by itself, or by what holds where it is assigned."""
    if (module, name) in IMPORTED:
        return IMPORTED[module, name]
    found = ours.find(module, name)
    assert found is not None, f"no module here assigns {name}"
    return SYNONYMS.get((found[0], name), ())


class Synonyms(unittest.TestCase):
    """Nothing stands on the lists that is not needed, or has no reason."""

    def test_each_synonym_is_needed(self) -> None:
        for (module, name), synonyms in SYNONYMS.items():
            source = comparison().source(module, name)
            assert source is not None, f"{module} or its standard has no {name}"
            for at, one in enumerate(synonyms):
                with self.subTest(module=module, name=name, synonym=one):
                    here, there = comparison().both(module, name, source, synonyms[:at] + synonyms[at + 1 :])
                    self.assertNotEqual(here, there)

    def test_each_synonym_of_an_imported_name_is_needed(self) -> None:
        known = {(module, name): source for module, name, source in imported(OURS) if (module, name) in IMPORTED}
        self.assertEqual(set(known), set(IMPORTED))
        for (module, name), synonyms in IMPORTED.items():
            for at, one in enumerate(synonyms):
                with self.subTest(module=module, name=name, synonym=one):
                    fewer = synonyms[:at] + synonyms[at + 1 :]
                    here, there = comparison().both(module, name, known[module, name], fewer)
                    self.assertNotEqual(here, there)

    def test_each_name_with_parameters_is_needed(self) -> None:
        for name in PARAMETERS:
            fewer = {one: reason for one, reason in PARAMETERS.items() if one != name}
            self.assertNotEqual(replace(comparison(), parameters=fewer).differing(), [], name)

    def test_each_assignment_of_no_standard_is_there_and_has_no_counterpart(self) -> None:
        for module, name in OWN:
            self.assertIn(name, OURS.modules[module].assignments)
            self.assertIsNone(comparison().source(module, name))

    def test_each_module_of_a_standard_is_used(self) -> None:
        used = {(module, comparison().source(module, name)) for module, name in comparison().assignments()}
        for module, sources in SOURCES.items():
            for source in sources:
                self.assertIn((module, source), used)

    def test_each_module_that_is_not_here_is_imported_from(self) -> None:
        wanted = {source for sources in SOURCES.values() for source in sources}
        froms = {source for name in wanted for source in STANDARDS.modules[name].imports.values()}
        self.assertEqual(set(NOT_HERE) & set(STANDARDS.modules), set())
        self.assertEqual(set(NOT_HERE) - froms, set())

    def test_each_has_a_sentence_as_its_reason(self) -> None:
        reasons = [one.reason for synonyms in (*SYNONYMS.values(), *IMPORTED.values()) for one in synonyms]
        reasons += [*PARAMETERS.values(), *NOT_COMPARED.values(), *NOT_HERE.values()]
        reasons += [reason for _, reason in OWN.values()]
        for reason in reasons:
            self.assertRegex(reason, r"^[A-Z].* .* .*\.$")


# Wrong texts: a file, what stands in it, what stands there wrongly, and the assignments that are to be named.
WRONG_TEXTS = (
    ("certificate", "issuerUniqueID   [1]", "issuerUniqueID   [5]", "TBSCertificate"),
    ("certificate", "Version DEFAULT v1", "Version DEFAULT v2", "TBSCertificate"),
    ("certificate", "notBefore  Time,\n     notAfter   Time", "notAfter   Time,\n     notBefore  Time", "Validity"),
    ("certificate", "BOOLEAN DEFAULT FALSE", "BOOLEAN", "Extension"),
    ("crl", "crlExtensions        [0]", "crlExtensions        [1]", "TBSCertList"),
    ("ocsp", "sigRequired       (5)", "sigRequired       (4)", "OCSPResponseStatus"),
    ("ocsp", "unauthorized      (6)", "unauthorized      (5)", "OCSPResponseStatus"),
    ("ocsp", "revocationReason  [0]", "revocationReason  [1]", "RevokedInfo"),
    ("ocsp", "nextUpdate        [0]", "nextUpdate        [2]", "SingleResponse"),
    ("extension", "keyCertSign             (5)", "keyCertSign             (6)", "KeyUsage"),
    ("extension", "cRLSign                 (6)", "cRLSign                 (5)", "KeyUsage"),
    ("extension", "x400Address               [3]", "x400Address               [5]", "GeneralName"),
    ("extension", "ediPartyName              [5]", "ediPartyName              [3]", "GeneralName"),
    ("extension", "requireExplicitPolicy   [0]", "requireExplicitPolicy   [2]", "PolicyConstraints"),
    ("extension", "inhibitPolicyMapping    [1]", "inhibitPolicyMapping    [3]", "PolicyConstraints"),
    ("extension", "INTEGER (0..MAX) OPTIONAL", "INTEGER (0..MAX)", "BasicConstraints"),
    ("extension", "reasons                 [1]", "reasons                 [3]", "DistributionPoint"),
    ("extension", "indirectCRL                [4]", "indirectCRL                [6]", "IssuingDistributionPoint"),
    ("cms", "signedAttrs         [0] IMPLICIT", "signedAttrs         [0] EXPLICIT", "SignerInfo"),
    ("cms", "unsignedAttrs       [1]", "unsignedAttrs       [2]", "SignerInfo"),
    ("time_stamp", "millis   [0]", "millis   [1]", "Accuracy"),
    ("time_stamp", "micros   [1]", "micros   [0]", "Accuracy"),
)


class WrongTexts(unittest.TestCase):
    """What is written wrongly is named."""

    def named(self, texts: Iterable[str]) -> set[str]:
        ours = OURS
        for text in texts:
            ours = ours.with_text(text)
        return {name for _, name in comparison(ours).differing()}

    def text(self, file: str) -> str:
        return (WRITTEN / f"{file}.asn1").read_text(encoding="utf-8")

    def test_each_is_named(self) -> None:
        for file, right, wrong, name in WRONG_TEXTS:
            with self.subTest(file=file, wrong=wrong):
                text = self.text(file)
                self.assertEqual(text.count(right), 1)
                self.assertEqual(self.named([text.replace(right, wrong)]), {name})

    def test_all_at_once_are_named(self) -> None:
        texts = {file: self.text(file) for file, _, _, _ in WRONG_TEXTS}
        for file, right, wrong, _ in WRONG_TEXTS:
            texts[file] = texts[file].replace(right, wrong)
        self.assertEqual(self.named(texts.values()), {name for _, _, _, name in WRONG_TEXTS})

    def test_another_default_of_tags_is_named(self) -> None:
        for module, ours in OURS.modules.items():
            other = "EXPLICIT" if ours.tags == "IMPLICIT" else "IMPLICIT"
            named = comparison(Library({**OURS.modules, module: replace(ours, tags=other)})).differing()
            bare = {name for name, found in ours.assignments.items() if has_bare_tag(found)}
            if module in SOURCES:
                self.assertEqual(bare - {name for _, name in named}, set(), module)

    def test_an_import_from_another_module_is_named(self) -> None:
        right, wrong = "Version FROM PkixCertificates", "Unknown FROM PkixCertificates\n     Version FROM OCSP-2013-88"
        text = self.text("crl")
        self.assertEqual(text.count(right), 1)
        self.assertEqual(wrong_imports(OURS.with_text(text.replace(right, wrong))), [("PkixRevocation", "Version")])

    def test_no_number_is_another(self) -> None:
        for module, name, ours, found in written():
            for at, word in enumerate(found):
                if word.isdigit():
                    other = (*found[:at], str(int(word) + 1), *found[at + 1 :])
                    with self.subTest(module=module, name=name, at=at):
                        self.assertTrue(self.is_told(module, name, ours, other))

    def test_no_word_of_a_type_is_left_out(self) -> None:
        for module, name, ours, found in written():
            for at, word in enumerate(found):
                if found[0] == "::=" and at and word != ours.tags:
                    with self.subTest(module=module, name=name, at=at, word=word):
                        self.assertTrue(self.is_told(module, name, ours, (*found[:at], *found[at + 1 :])))

    def is_told(self, module: str, name: str, ours: Module, found: Words) -> bool:
        """Whether an assignment is told when it has these words."""
        changed = replace(ours, assignments={**ours.assignments, name: found})
        return comparison(Library({**OURS.modules, module: changed})).differs(module, name)


def has_bare_tag(found: Words) -> bool:
    """Whether a tag stands with neither IMPLICIT nor EXPLICIT behind it."""
    return any(word == "]" and found[at + 1] not in ("IMPLICIT", "EXPLICIT") for at, word in enumerate(found[:-1]))


def written() -> Iterator[tuple[str, str, Module, Words]]:
    """All assignments that are compared, with their modules and words."""
    for module, name in comparison().assignments():
        ours = OURS.modules[module]
        yield module, name, ours, ours.assignments[name]
