#!/usr/bin/env python3
"""Prints 20,000 lines for derview, of the type whose name is given: bool, any or octets."""
import random
import sys

from messages import tlv

COUNT = 20_000
numbers = random.Random(1)


def value(name):
    if name == "bool":
        return tlv(1, numbers.choice([b"\x00", b"\xff"]))
    if name == "octets":
        return tlv(4, numbers.randbytes(numbers.randrange(48)))
    tag = numbers.choice([0x02, 0x04, 0x80])
    return tlv(tag, bytes([numbers.randrange(1, 127)]) + numbers.randbytes(numbers.randrange(20)))


for _ in range(COUNT):
    print(sys.argv[1], value(sys.argv[1]).hex())
