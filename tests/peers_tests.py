#!/usr/bin/env python3
"""Tests of what tests/peers.py does beside the peer: the clauses that octets break, spoilt octets, and which answers are told.

    python3 tests/peers_tests.py"""
import contextlib
import io
import random
import sys
import unittest
from collections import Counter

sys.dont_write_bytecode = True
import peers  # first: it says where the compiler is
from lib import peer_clauses, peer_mutants
from asn1.model import Use
from asn1.parser import parse_modules

MODULE = """Test DEFINITIONS IMPLICIT TAGS ::= BEGIN
All ::= SEQUENCE { a BOOLEAN DEFAULT FALSE, n INTEGER (-5..300) OPTIONAL, s [0] UTF8String (SIZE (1..2)) OPTIONAL, i OBJECT IDENTIFIER OPTIONAL,
    l [1] SET OF INTEGER OPTIONAL, c [2] Either OPTIONAL, t GeneralizedTime OPTIONAL, b BIT STRING { one(0) } OPTIONAL, any [3] ANY OPTIONAL, j [4] OBJECT IDENTIFIER OPTIONAL, d [5] SEQUENCE OF NULL DEFAULT {} }
Either ::= CHOICE { x [0] NULL, e [1] ENUMERATED { zero, one } }
Open ::= SEQUENCE { a INTEGER (0..5, ...) }
Round ::= SEQUENCE { a [0] Round OPTIONAL }
Plain ::= SEQUENCE { a INTEGER (0..5) }
END
"""
# Octets, and the beginning of the clause that they break as an All.
ROWS = [
    ("3000", None),
    ("30030101ff", None),
    ("3003010100", "X.690 11.5"),
    ("3003010101", "X.690 11.1"),
    ("300401020000", "X.690 8.2.1"),
    ("308100", "X.690 10.1"),
    ("30800000", "X.690 10.1"),
    ("1000", "X.690 8.9.1"),
    ("3100", "X.690 8.1.2"),
    ("300000", "X.690 8.1.1"),
    ("3001", "X.690 8.1.1"),
    ("3002ff", "X.690 8.1"),
    ("30040202012c", None),
    ("30040202012d", "X.680 51"),
    ("300402020005", "X.690 8.3.2"),
    ("30020200", "X.690 8.3.1"),
    ("30048002c3a9", None),
    ("30038001c3", "X.690 8.23.10"),
    ("30058003616263", "X.680 51"),
    ("3004a0020c00", "X.690 10.2"),
    ("300406022a03", None),
    ("30020600", "X.690 8.19.2"),
    ("3008a106020101020102", None),
    ("3008a106020102020101", "X.690 11.6"),
    ("3004a2028000", None),
    ("3005a203810102", "X.680 20"),
    ("3004a2028200", "X.690 8.1.2"),
    ("3006a20480008000", "X.690 8.14.2"),
    ("3011180f32303234303232393030303030305a", None),
    ("3011180f32303233303232393030303030305a", "X.690 11.7"),
    ("301318113230323430323239303030303030" + "2e355a", "X.690 11.7"),
    ("300403020780", None),
    ("3004030206c1", "X.690 11.2.1"),
    ("300403020640", None),
    ("300403020600", "X.690 11.2.2"),
    ("300403020880", "X.690 8.6.2"),
    ("3004a3020500", None),
    ("3002a300", "X.690 8.14.2"),
    ("30050500010100", "X.690 8.9.2"),
    ("3004a5020500", None),
    ("3002a500", "X.690 11.5"),
]


def types():
    (tree,) = parse_modules("test.asn1", MODULE)
    (resolved,) = peers.resolve([tree])[0]
    return peers.named_types(tree, resolved)


class Clauses(unittest.TestCase):
    def test_the_first_clause_that_is_broken_is_found(self):
        all_of = Use(types()["All"])
        for digits, clause in ROWS:
            with self.subTest(digits):
                found = peer_clauses.broken(all_of, bytes.fromhex(digits))
                self.assertTrue((found or "none").startswith(clause or "none"), found)

    def test_a_part_that_is_kept_as_it_is_is_found(self):
        found = types()
        rows = [("All", True, False), ("Either", False, False), ("Open", False, False), ("Round", True, True)]
        for name, *wanted in rows:
            self.assertEqual([peer_clauses.has_unread(found[name], it, set()) for it in (peer_clauses.UNREAD, peer_clauses.UNREAD_SEQUENCE)], wanted)

    def test_arcs_that_do_not_end_or_begin_with_80_are_none(self):
        all_of = Use(types()["All"])
        rows = [("30040602802a", True), ("300406022a80", True), ("300406022a03", False), ("3004a3020500", False)]
        for digits, is_so in [*rows, ("3006a30406022a80", True), ("30048402802a", True), ("300484022a03", False)]:
            self.assertEqual(peer_clauses.has_no_arcs(all_of, bytes.fromhex(digits)), is_so, digits)


class Mutants(unittest.TestCase):
    octets = bytes.fromhex("30120201050401aa300a0c02c3a9a1040402" + "0102")

    def test_mutants_differ_from_the_octets_and_are_the_same_again(self):
        lots = [peer_mutants.mutants(self.octets, random.Random(seed)) for seed in range(20)]
        self.assertEqual(lots, [peer_mutants.mutants(self.octets, random.Random(seed)) for seed in range(20)])
        self.assertFalse(any(self.octets in lot or b"" in lot for lot in lots))
        self.assertGreater(len({it for lot in lots for it in lot}), 100)

    def test_an_element_is_put_with_the_lengths_of_what_holds_it(self):
        inner = peer_mutants.elements(self.octets)[-1]
        found = peer_mutants.put(self.octets, inner.start, inner.end, b"\x04\x81\x80" + bytes(128))
        self.assertEqual(found[:3] + found[9:12], bytes.fromhex("308193" + "30818a"))
        self.assertEqual(len(peer_mutants.elements(found)), len(peer_mutants.elements(self.octets)))


class Answers(unittest.TestCase):
    # The type, octets, the answer here, the peer's, and the kind.
    rows = [
        ("All", "30030101ff", "same", "same", "taken by both"),
        ("All", "3003010101", "refused 8", "same", "refused here alone"),
        ("All", "3003010101", "refused 8", "refused why", "refused by both"),
        ("All", "3003010101", "same", "same", "unexplained"),
        ("All", "30030101ff", "refused 8", "same", "unexplained"),
        ("All", "30030101ff", "other 3000", "same", "unexplained"),
        ("All", "30030101ff", "same", "refused why", "unexplained"),
        ("All", "30030101ff", "no type", "refused why", "unexplained"),
        ("All", "300406022a80", "same", "refused why", "taken here alone"),
        ("Open", "3003020106", "same", "refused why", "taken here alone"),
        ("All", "3005a303300105", "same", "refused why", "taken here alone"),
        ("Round", "3006a00430020500", "same", "refused why", "taken here alone"),
        ("Plain", "3003020105", "same", "refused why", "unexplained"),
        ("All", "3006a30430020500", "same", "refused why", "unexplained"),
        ("All", "3006a30430020500", "refused 4", "rest 2", "unexplained"),
    ]

    def test_an_answer_that_no_clause_explains_fails(self):
        one = peers.Protocol("test", "Test", types=types())
        for name, digits, here, there, kind in self.rows:
            with self.subTest(digits), contextlib.redirect_stdout(io.StringIO()) as said:
                one.kinds.clear()
                failed = peers.compare([(one, name, bytes.fromhex(digits))], [here], [there], Counter())
                self.assertEqual(list(one.kinds), [kind])
                self.assertEqual((failed, "FAILED" in said.getvalue()), (int(kind == "unexplained"), kind == "unexplained"))


if __name__ == "__main__":
    unittest.main()
