"""Object identifiers as text, with the names that the modules of the standards give them."""

from .names import NAMES, SHORT

# Stands behind what is shown of a value whose contents octets are none of its type: no text that is shown has this character.
IRREGULAR = "\0"


def arcs(octets):
    """The arcs in dotted form (X.690 8.19); none where the octets stand for none, or one takes more than 64 bits."""
    found, arc, begins = [], 0, True
    for octet in octets:
        if begins and octet == 0x80:
            return None
        arc, begins = arc << 7 | octet & 0x7F, octet < 0x80
        if arc >= 1 << 64:
            return None
        if begins:
            found.append(arc)
            arc = 0
    if not begins or not found:
        return None
    root = min(found[0] // 40, 2)
    return ".".join(map(str, [root, found[0] - 40 * root, *found[1:]]))


def is_identifier(octets):
    """Whether each number ends, and is in the fewest octets (X.690 8.19.2)."""
    begins = [at for at in range(len(octets)) if at == 0 or octets[at - 1] < 0x80]
    return bool(octets) and octets[-1] < 0x80 and all(octets[at] != 0x80 for at in begins)


def dotted(octets):
    return arcs(octets) or f"#{octets.hex()}{'' if is_identifier(octets) else IRREGULAR}"


def named(octets):
    """The dotted form, and the name in brackets where there is one."""
    text = dotted(octets)
    name = NAMES.get(text) or SHORT.get(text)
    return f"{text} ({name})" if name else text


def short(octets):
    """What an attribute of a name is called (RFC 4514 section 3)."""
    text = dotted(octets)
    return SHORT.get(text, text)
