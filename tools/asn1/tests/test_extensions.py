"""Extension markers: EXTENSIBILITY IMPLIED (X.680 13.4), and additions that are there in values of one version (25)."""

from __future__ import annotations

import unittest

from ..model import Choice, Enumeration, Presence, Struct
from .helpers import definitions, module_of, remarks, resolved
from .test_writer import grammar, written

BODY = """A ::= SEQUENCE { a NULL, b CHOICE { x NULL, y BOOLEAN } }
B ::= SET { a NULL }
C ::= ENUMERATED { one, two }
D ::= SEQUENCE { a NULL, ..., b INTEGER OPTIONAL }"""


class Implied(unittest.TestCase):
    """A module with EXTENSIBILITY IMPLIED has '...' in each type that has none."""

    def test_it_is_as_if_it_stood_there(self) -> None:
        marked = BODY.replace("x NULL, y BOOLEAN", "x NULL, y BOOLEAN, ...").replace("} }\nB", "}, ... }\nB")
        marked = marked.replace("{ a NULL }", "{ a NULL, ... }").replace("one, two", "one, two, ...")
        for tags in ("", "AUTOMATIC TAGS"):
            said = [text.split(" ", 1)[1] for text in remarks(BODY, f"{tags} EXTENSIBILITY IMPLIED")]
            self.assertEqual(said, [text.split(" ", 1)[1] for text in remarks(marked, tags)])
            self.assertEqual(len([text for text in said if text.startswith("'...'")]), 4)
            self.assertEqual(grammar(BODY, f"{tags} EXTENSIBILITY IMPLIED"), grammar(marked, tags))

    def test_an_enumeration_and_a_choice_have_it_too(self) -> None:
        found = definitions(BODY, "EXTENSIBILITY IMPLIED")
        assert isinstance(found["C"], Enumeration) and isinstance(found["AB"], Choice)
        self.assertTrue(found["C"].is_extensible)

    def test_the_next_module_of_the_file_has_it_not(self) -> None:
        first = module_of("A ::= ENUMERATED { a }", "EXTENSIBILITY IMPLIED", "First")
        found, _ = resolved(first + module_of("A ::= ENUMERATED { a }"))
        kinds = [one for module in found for one in module.definitions if isinstance(one, Enumeration)]
        self.assertEqual([one.is_extensible for one in kinds], [True, False])


class Additions(unittest.TestCase):
    """An addition that is neither OPTIONAL nor DEFAULT is absent from values of older versions, and so read as OPTIONAL."""

    BODY = "A ::= SEQUENCE { a NULL, ..., b INTEGER, [[ c [0] NULL, d [1] NULL OPTIONAL ]], ..., f [3] NULL }"

    def test_it_is_read_as_optional(self) -> None:
        found = definitions(self.BODY)["A"]
        assert isinstance(found, Struct)
        presence = {part.name: part.presence for part in found.fields}
        optional = dict.fromkeys("bcd", Presence.OPTIONAL)
        self.assertEqual(presence, {"a": Presence.ALWAYS, **optional, "f": Presence.ALWAYS})

    def test_a_remark_and_the_documentation_say_so(self) -> None:
        body = "A ::= SEQUENCE { a NULL,\n  ..., b INTEGER }"
        text = "'b' may be absent, as in values of an older version, though it is neither OPTIONAL nor DEFAULT"
        self.assertIn(f"3:8 {text}", remarks(body))
        source = written(module_of(body))["src/test/a.rt"]
        self.assertIn(f"{text[0].upper()}{text[1:]}.", " ".join(source.replace("\n/// ", " ").split("\n")))
        self.assertIn("(OPTIONAL INTEGER end)", grammar(body)["a"])

    def test_an_alternative_is_none(self) -> None:
        self.assertEqual(len(remarks("A ::= CHOICE { a NULL, ..., b INTEGER }")), 1)


if __name__ == "__main__":
    unittest.main()
