"""Messages with changed octets, read for DER_FUZZ_SECONDS seconds: each class reads fields within the octets, or raises Error with
a number and a position within them. The messages are those of the PEM files that DER_TEST_FILES names, and the system's."""

import os
import random
import time
import unittest

import derproved
from test_derproved import KEY, blocks

LABELS = ["CERTIFICATE", "X509 CRL", "CERTIFICATE REQUEST", "OCSP RESPONSE", "CMS", "PRIVATE KEY", "PUBLIC KEY"]
CLASSES = [it for it in vars(derproved).values() if isinstance(it, type) and issubclass(it, derproved._der.Message)]
SECONDS = float(os.environ.get("DER_FUZZ_SECONDS", "2"))


def changed(octets: bytes, numbers: random.Random) -> bytes:
    """One to four octets are others, or the octets are cut, or a part of them stands twice."""
    found = bytearray(octets)
    for _ in range(numbers.randrange(1, 5)):
        at = numbers.randrange(len(found))
        change = numbers.randrange(8)
        if change == 0:
            del found[at + 1 :]
        elif change == 1:
            found += found[at:]
        else:
            found[at] = numbers.randrange(256) if change > 3 else found[at] ^ 1 << numbers.randrange(8)
    return bytes(found)


class ChangedOctets(unittest.TestCase):
    def read(self, read: type, octets: bytes) -> int:
        """All fields of a message, if it is read; how many there are."""
        try:
            message = read(octets)
        except derproved.Error as error:
            self.assertIn(error.number, range(2, 17))
            self.assertLessEqual(error.position or 0, len(octets))
            return 0
        self.assertTrue(octets.startswith(bytes(message)))
        return sum(self.use(getattr(message, name), octets) for name, it in vars(read).items() if isinstance(it, derproved._der.Field))

    def use(self, field: object, octets: bytes) -> int:
        """A field: its octets are some of the message's; the items of a list of a message that was read are read, too."""
        if isinstance(field, memoryview):
            self.assertIn(bytes(field), octets)
        elif isinstance(field, derproved._der.Items):
            for item in field:
                self.assertIn(bytes(item), octets)
        return 1

    def test_changed_octets(self) -> None:
        seeds = [octets for label in LABELS for octets in blocks(label)] or [KEY]
        numbers, end, count, fields = random.Random(690), time.monotonic() + SECONDS, 0, 0
        while time.monotonic() < end:
            octets = changed(numbers.choice(seeds), numbers)
            fields += sum(self.read(read, octets) for read in CLASSES)
            count += 1
        self.assertGreater(fields, 0)
        print(f"{count} changed messages of {len(seeds)}, {fields} fields")


if __name__ == "__main__":
    unittest.main()
