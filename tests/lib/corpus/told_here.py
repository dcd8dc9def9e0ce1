"""What derproved says of octets, as plain values."""

import derproved
from derproved import _text, contents


def refused(call, octets):
    """The number of the first fault of octets; or None, where they are read."""
    try:
        call(octets)
    except derproved.Error as error:
        return error.number
    return None


def identifier(encoding):
    """An OBJECT IDENTIFIER with dots."""
    return _text.dotted(bytes(contents(encoding)))


def integer(encoding):
    """The number of an INTEGER of any length."""
    return int.from_bytes(contents(encoding), signed=True)


def attributes(name):
    """The type and the value of each attribute of a Name."""
    return [(identifier(it.type), bytes(it.value)) for it in derproved.name_attributes(name)]
