"""Files that are cut short, and files of which one octet is another."""

import os

from ..reader import pem

FILES_OF_A_KIND = 7
CUTS, CHANGES = 3, 7
# A file of more octets is not spoilt: its many places are like those of others.
MOST = 6000


def chosen(shop):
    """Some of the files of each kind, that were made as they should be."""
    of_kinds = {}
    for made in shop.made:
        if not made.refused and os.path.getsize(made.path) < MOST:
            of_kinds.setdefault(made.kind, []).append(made)
    for files in of_kinds.values():
        yield from shop.random.sample(files, min(FILES_OF_A_KIND, len(files)))


def spoilt(shop, octets):
    """What is about each, and the octets."""
    for at in {0, 1, len(octets) - 1, *(shop.random.randrange(len(octets)) for _ in range(CUTS))}:
        yield f"cut at {at}", octets[:at]
    for _ in range(CHANGES):
        at = shop.random.randrange(len(octets))
        other = octets[at] ^ shop.pick((1, 2, 4, 8, 16, 32, 64, 128, 0x80, shop.random.randrange(1, 256)))
        yield f"octet {at} is {other:02x}", octets[:at] + bytes([other]) + octets[at + 1 :]


def files(shop):
    """The path, the kind, the octets and what is about each."""
    number = 0
    for made in chosen(shop):
        with open(made.path, "rb") as file:
            octets = pem.blocks(file.read())[0][1]
        for words, other in spoilt(shop, octets):
            number += 1
            path = shop.path(shop.write(f"spoilt-{number}", other))
            yield path, made.kind, other, f"{os.path.basename(made.path)} ({made.about}), {words}"
