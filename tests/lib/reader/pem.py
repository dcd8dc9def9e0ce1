"""PEM text (RFC 7468): its blocks, each with its label and its octets."""

import base64
import re

BLOCK = re.compile(rb"-----BEGIN ([^\n-]*)-----[ \t]*\r?\n(.*?)-----END \1-----", re.DOTALL)


def is_text(octets):
    """Whether a file is PEM text: each message begins with a SEQUENCE, or as ECParameters with an identifier."""
    return b"-----BEGIN " in octets and octets[:1] != b"\x30"


def blocks(octets):
    """The blocks; of DER the one, with no label."""
    if not is_text(octets):
        return [(None, octets)]
    found = BLOCK.findall(octets)
    return [(label.decode(), base64.b64decode(text.partition(b"\n\n")[2] if b": " in text else text)) for label, text in found]
