"""The calls that write messages, of the table of structs."""

from __future__ import annotations

import unittest

from ..errors import TableError
from ..tables.reading import structs_of
from ..tables.structs import Writing

HEAD = """key: Key (RFC 1 2.3) | key
    file: key
    reads: all
    results: the version
    fields: KeyPlaces
        keyID field an OCTET STRING
        more optional a SEQUENCE OF
    numbers:
        version_number u64 0 for v1
        date_seconds u64 in seconds
        status i64 0 or 1
"""


def writings(text: str) -> tuple[Writing, ...]:
    return structs_of("table.txt", HEAD + text)[0].writings


class Writings(unittest.TestCase):
    def test_the_message_itself(self) -> None:
        (it,) = writings("    writes: key\n        version_number version\n        keyID field\n        more optional items 30 a0\n")
        self.assertEqual((it.name, it.type, it.standard, it.noun, it.struct), ("key", "Key", "RFC 1 2.3", "key", "key"))
        found = [(part.name, part.name_in_asn1, part.is_optional, part.kind, part.identifiers) for part in it.parts]
        self.assertEqual(found, [
            ("version", "version", False, "version", ()),
            ("key_id", "keyID", False, "field", ()),
            ("more", "more", True, "items", (0x30, 0xA0)),
        ])

    def test_a_part_of_it(self) -> None:
        (it,) = writings("    writes: key_body = KeyBody (RFC 1 2.4) | body of a key\n        date_seconds optional moment\n")
        self.assertEqual((it.name, it.type, it.standard, it.noun, it.struct), ("key_body", "KeyBody", "RFC 1 2.4", "body of a key", "key"))
        self.assertEqual([(part.name, part.is_optional) for part in it.parts], [("date", True)])

    def test_what_is_refused(self) -> None:
        of_a_field = "13 a field that is written has its name, how it is taken, and the identifier octets of items"
        of_a_call = "12 'writes:' has NAME = TYPE (STANDARD) | what it is, or the name of the struct alone"
        for lines, expected in [
            ("writes: key", "12 'writes:' has the fields that the call takes"),
            ("writes: body\n        keyID field", of_a_call),
            ("writes: key = Key (RFC 1 2.3) | key\n        keyID field", of_a_call),
            ("writes: key\n        keyID", of_a_field),
            ("writes: key\n        keyID octets", of_a_field),
            ("writes: key\n        keyID field 30", of_a_field),
            ("writes: key\n        more items", of_a_field),
            ("writes: key\n        other field", "13 key has no field other"),
            ("writes: key\n        keyID moment", "13 keyID is not taken as moment"),
            ("writes: key\n        date_seconds flag", "13 date_seconds is not taken as flag"),
            ("writes: key\n        status optional number", "13 status is always there"),
            ("writes: key\n        keyID field\n        keyID field", "12 key: a field is written twice"),
            ("writes: key\n        keyID field\n    writes: key\n        more field", "1 key: another call that writes has this name"),
        ]:
            with self.subTest(lines=lines):
                with self.assertRaises(TableError) as caught:
                    writings(f"    {lines}\n")
                self.assertEqual(f"{caught.exception.line} {caught.exception.problem}", expected)
