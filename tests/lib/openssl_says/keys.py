"""Keys, by `pkey`."""

import re

from . import asking
from .asking import Compared, ask, hexadecimal, values
from .certificates import BITS_OF_ORDER


def lines_after(label, text):
    found = re.search(rf"^{label}:\s*\n((?:\s+[0-9a-f:]+\n)*)", text, re.MULTILINE)
    return hexadecimal(found[1].split()) if found else None


def public(file, fields):
    compared, text = Compared(), ask("pkey", "-pubin", "-in", file, "-inform", asking.form_of(file), "-noout", "-text_pub")
    key = values(fields, "key")[0]
    bits = re.search(r"Public-Key: \((\d+) bit", text)
    if bits and re.match(r"\d+ bits", key) and "DH" not in text:
        ours = key.split(" ")[0]
        compared.same("the bits of the key", BITS_OF_ORDER.get(ours, ours), bits[1])
    octets = lines_after("pub", text) or lines_after("Modulus", text)
    if octets and "P:" not in text and "DH" not in text:
        compared.same("key", key.split(" ")[-1], octets.removeprefix("00") if "modulus" in key else octets)
    return compared


def rsa(file, fields):
    """The modulus and the exponent of a key of RSA."""
    is_private = bool(values(fields, "privateExponent"))
    words = ["-traditional", "-text"] if is_private else ["-RSAPublicKey_in", "-text"]
    compared, text = Compared(), ask("rsa", "-in", file, "-inform", asking.form_of(file), "-noout", *words)
    modulus = lines_after("modulus" if is_private else "Modulus", text)
    compared.same("modulus", values(fields, "modulus")[0].split(", ")[-1], modulus.removeprefix("00"))
    exponent = re.search(r"xponent: (\d+) ", text)
    compared.same("public exponent", values(fields, "public exponent")[0], exponent[1])
    primes = re.search(r"(\d+) primes", text)
    compared.same("other primes", int((values(fields, "other primes") or ["0"])[0]) + 2, int(primes[1]) if primes else 2)
    return compared


def curve(file, fields):
    """The public key of a key of an elliptic curve, and its curve."""
    compared, text = Compared(), ask("ec", "-in", file, "-inform", asking.form_of(file), "-noout", "-text")
    key = values(fields, "public key")
    if key:
        compared.same("public key", key[0].split(", ")[-1], lines_after("pub", text))
    # openssl reads no key of which the curve is known from elsewhere.
    if "implicit" not in values(fields, "curve"):
        compared.same("a curve by its name", "parameters of its own" not in values(fields, "curve"), "ASN1 OID:" in text)
    return compared
