"""What a name that is imported stands for (X.680 13.12 to 13.17, 14)."""

from __future__ import annotations

import unittest

from ..model import Struct, Tag, Tagged, Use
from ..properties import tags_of
from .helpers import module_of, refusal, resolved


class Imports(unittest.TestCase):
    """A name that is imported is of the module that stands after FROM (13.16), whatever others have it."""

    ONE = module_of("X ::= SEQUENCE { one NULL }\n n INTEGER ::= 1\n i OBJECT IDENTIFIER ::= { 1 2 1 }", name="One")
    TWO = module_of("X ::= SEQUENCE { two NULL }\n n INTEGER ::= 2\n i OBJECT IDENTIFIER ::= { 1 2 2 }", name="Two")

    def found(self, source: str, *texts: str) -> tuple[str, int, tuple[int, ...]]:
        """The module of X, the number of n and the arcs of i that `Test` imports."""
        body = f"IMPORTS X, n, i FROM {source};\nA ::= SEQUENCE {{ a [n] X }}\n j OBJECT IDENTIFIER ::= {{ i 9 }}"
        modules, _ = resolved(*[module_of(body) if text == "" else text for text in texts])
        test = next(module for module in modules if module.name == "Test")
        part = test.definitions[0]
        assert isinstance(part, Struct) and isinstance(part.fields[0].type, Tagged)
        assert isinstance(part.fields[0].type.of, Use)
        return part.fields[0].type.of.definition.module, part.fields[0].type.tag.number, test.constants[0].arcs

    def test_the_module_after_from_has_it(self) -> None:
        for texts in ((self.ONE, self.TWO, ""), (self.TWO, self.ONE, ""), ("", self.TWO, self.ONE)):
            self.assertEqual(self.found("One", *texts), ("One", 1, (1, 2, 1, 9)))
            self.assertEqual(self.found("Two", *texts), ("Two", 2, (1, 2, 2, 9)))

    def test_a_module_hands_on_what_it_imports(self) -> None:
        names = "X, n, i"
        hands = module_of(f"EXPORTS {names};\nIMPORTS {names} FROM Two;", name="Hands")
        self.assertEqual(self.found("Hands", self.ONE, self.TWO, hands, ""), ("Two", 2, (1, 2, 2, 9)))

    def test_a_module_with_no_exports_hands_on_all_that_it_imports(self) -> None:
        for exports in ("", "EXPORTS ALL;"):
            hands = module_of(f"{exports} IMPORTS X, n, i FROM Two;\nY ::= X", name="Hands")
            again = module_of(f"{exports} IMPORTS X, n, i FROM Hands;", name="Again")
            self.assertEqual(self.found("Again", again, hands, self.ONE, self.TWO, ""), ("Two", 2, (1, 2, 2, 9)))

    def test_a_name_from_two_modules_has_one_of_them_before_it(self) -> None:
        imports = "IMPORTS X, n, i FROM One X, n, i FROM Two;\n"
        body = "A ::= SEQUENCE { a [0] One.X, b [Two.n] Two.X }\n j OBJECT IDENTIFIER ::= { Two.i 9 }"
        modules, _ = resolved(self.ONE, self.TWO, module_of(imports + body))
        assert isinstance(struct := modules[2].definitions[0], Struct)
        kinds = [part.type.of for part in struct.fields if isinstance(part.type, Tagged)]
        self.assertEqual([kind.definition.module for kind in kinds if isinstance(kind, Use)], ["One", "Two"])
        self.assertEqual((modules[2].constants[0].arcs, tags_of(struct.fields[1].type)), ((1, 2, 2, 9), frozenset([Tag(2, 2)])))
        error = refusal(self.ONE, self.TWO, module_of(f"{imports}A ::= SEQUENCE {{ a X }}"))
        self.assertEqual((error.place.line, error.place.column), (3, 20))
        self.assertIn("'X' is imported from One and Two, which assign it differently", error.problem)
        self.assertIn("write 'One.X'", error.instead)

    def test_two_modules_may_hand_on_one_name(self) -> None:
        hands = module_of("IMPORTS X, n, i FROM One;", name="Hands")
        body = "IMPORTS X FROM One X FROM Hands X FROM One;\nA ::= SEQUENCE { a X }"
        found, _ = resolved(self.ONE, hands, module_of(body))
        part = found[2].definitions[0]
        assert isinstance(part, Struct) and isinstance(part.fields[0].type, Use)
        self.assertEqual(part.fields[0].type.definition.module, "One")

    def test_a_module_that_imports_a_name_twice_hands_on_neither(self) -> None:
        hands = module_of("IMPORTS X FROM One X FROM Two;", name="Hands")
        error = refusal(self.ONE, self.TWO, hands, module_of("IMPORTS X FROM Hands;\nA ::= X"))
        self.assertIn("the module 'Hands' imports 'X' from One and Two, and so hands on none", error.problem)

    def test_a_name_that_is_assigned_too_is_the_modules_own(self) -> None:
        body = "IMPORTS X FROM One;\nA ::= SEQUENCE { a X, b One.X }\nX ::= SEQUENCE { own NULL }"
        found, _ = resolved(self.ONE, module_of(body))
        part = next(one for one in found[1].definitions if one.rust == "A")
        assert isinstance(part, Struct)
        kinds = [one.type.definition.module for one in part.fields if isinstance(one.type, Use)]
        self.assertEqual(kinds, ["Test", "One"])

    def test_a_name_of_the_module_itself_is_its_own(self) -> None:
        body = "A ::= SEQUENCE { a X }\nX ::= SEQUENCE { own NULL }"
        found, _ = resolved(self.ONE, self.TWO, module_of(body))
        part = next(one for one in found[2].definitions if one.rust == "A")
        assert isinstance(part, Struct) and isinstance(part.fields[0].type, Use)
        self.assertEqual(part.fields[0].type.definition.module, "Test")


if __name__ == "__main__":
    unittest.main()
