"""Rows of keys, of encrypted ones and of parameters: RFC 5208, 5958, 5915, 8017, 8018, 3279, SEC 1 and PKCS #3."""

from . import texts, values
from .identifiers import arcs, named
from .messages import Rows, add_algorithm, add_attributes, add_key, algorithm_of, algorithm_text
from .octets import Refused, refuse_unless

PBES2, PBKDF2 = "1.2.840.113549.1.5.13", "1.2.840.113549.1.5.12"
MOST = 0xFFFFFFFF


def public_key(message):
    rows = Rows()
    add_key(rows, message.has(0x30))
    return rows.found


def add_secret(rows, name, encoding):
    """Of what is secret, how many contents octets it has."""
    rows.add(encoding, name, f"{encoding.end - encoding.contents_begin} octets, not shown")


def add_plain_version(rows, encoding):
    rows.add(encoding, "version", str(values.number(encoding, 0, values.MOST_OF_VERSION)))


def add_public_bits(rows, fields, tag):
    held = fields.option(tag)
    if held:
        bits = held.only(0x03) if tag == 0xA1 else held
        rows.add(held, "public key", texts.bits_and_digits(bits))


def private_key(message):
    """PrivateKeyInfo and OneAsymmetricKey (RFC 5958 section 2)."""
    rows, fields = Rows(), message.fields()
    add_plain_version(rows, fields.take(0x02))
    add_algorithm(rows, "key algorithm", fields.take(0x30))
    add_secret(rows, "privateKey", fields.take(0x04))
    attributes = fields.option(0xA0)
    if attributes:
        add_attributes(rows, "attribute", attributes)
    add_public_bits(rows, fields, 0x81)
    fields.close()
    return rows.found


def rsa_numbers(rows, fields):
    modulus, exponent = fields.take(0x02), fields.take(0x02)
    octets = values.natural(modulus)
    rows.add(modulus, "modulus", f"{texts.bits_of(octets)} bits, {octets.hex()}")
    rows.add(exponent, "public exponent", texts.decimal(values.natural(exponent)))


def rsa_public_key(message):
    rows, fields = Rows(), message.fields()
    rsa_numbers(rows, fields)
    fields.close()
    return rows.found


def rsa_private_key(message):
    rows, fields = Rows(), message.fields()
    add_plain_version(rows, fields.take(0x02))
    rsa_numbers(rows, fields)
    for name in "privateExponent prime1 prime2 exponent1 exponent2 coefficient".split():
        secret = fields.take(0x02)
        values.natural(secret)
        add_secret(rows, name, secret)
    primes = fields.option(0x30)
    if primes:
        found = primes.fields().rest(0x30)
        refuse_unless(found, "a list with no prime")
        for prime in found:
            numbers = prime.fields()
            for _ in range(3):
                values.natural(numbers.take(0x02))
            numbers.close()
        rows.add(primes, "other primes", str(len(found)))
    fields.close()
    return rows.found


def ec_private_key(message):
    """RFC 5915 section 3."""
    rows, fields = Rows(), message.fields()
    add_plain_version(rows, fields.take(0x02))
    add_secret(rows, "privateKey", fields.take(0x04))
    curve = fields.option(0xA0)
    if curve:
        inner = curve.fields()
        held = inner.take(0x05, 0x06, 0x30)
        inner.close()
        found = ec_parameters(held)
        rows.add(curve, "curve", "parameters of its own" if held.tag == 0x30 else found[0][3])
    add_public_bits(rows, fields, 0xA1)
    fields.close()
    return rows.found


def cipher(encoding):
    """An algorithm of encryption, whose parameters are shown by their tag."""
    kind, parameters = algorithm_of(encoding)
    return named(kind) + (f", {texts.any_value(parameters)}" if parameters is not None else "")


def has_salt_and_count(kind):
    """PBES1 (RFC 8018 appendix A.3) and the algorithms of PKCS #12 (RFC 7292 appendix C)."""
    root, _, last = kind.rpartition(".")
    return root == "1.2.840.113549.1.5" and int(last) <= 11 or root == "1.2.840.113549.1.12.1"


def parameters_of(encoding):
    """The second field of an AlgorithmIdentifier."""
    fields = encoding.fields()
    fields.next()
    return fields.next()


def add_encryption(rows, encoding):
    """What encrypts, and its parameters where these are of a password: fields that are ANY in the standard, so that what is none of
    them is malformed."""
    octets = algorithm_of(encoding)[0]
    kind = arcs(octets) or ""
    if kind != PBES2 and not has_salt_and_count(kind):
        rows.add(encoding, "encryption algorithm", cipher(encoding))
        return
    rows.add(encoding, "encryption algorithm", named(octets))
    found = Rows()
    try:
        fields = parameters_of(encoding).has(0x30).fields()
        (add_scheme if kind == PBES2 else add_salt_and_count)(found, fields)
        fields.close()
    except Refused:
        found.found = []
        found.add(encoding, "parameters", "<malformed>")
    rows.found += found.found


def add_scheme(rows, fields):
    derivation, scheme = fields.take(0x30), fields.take(0x30)
    add_derivation(rows, derivation)
    rows.add(scheme, "cipher", cipher(scheme))


def add_salt_and_count(rows, fields):
    salt, count = fields.take(0x04), fields.take(0x02)
    rows.add(salt, "salt", texts.count_and_digits(salt.contents))
    rows.add(count, "iterations", str(values.number(count, 0, MOST)))


def add_derivation(rows, encoding):
    """A function that makes a key of a password: PBKDF2 by its parameters (RFC 8018 appendix A.2)."""
    if arcs(algorithm_of(encoding)[0]) != PBKDF2:
        rows.add(encoding, "key derivation", algorithm_text(encoding))
        return
    rows.add(encoding, "key derivation", named(algorithm_of(encoding)[0]))
    fields = parameters_of(encoding).has(0x30).fields()
    add_salt_and_count(rows, fields)
    length, function = fields.option(0x02), fields.option(0x30)
    fields.close()
    if length:
        rows.add(length, "key length", str(values.number(length, 0, MOST)))
    rows.add(function, "pseudorandom function", algorithm_text(function) if function else "1.2.840.113549.2.7 (hmacWithSHA1)")


def add_encrypted(rows, fields):
    add_encryption(rows, fields.take(0x30))
    key = fields.take(0x04)
    rows.add(key, "encrypted key", f"{len(key.contents)} octets")
    fields.close()


def encrypted_key(message):
    """RFC 5958 section 3."""
    rows = Rows()
    add_encrypted(rows, message.fields())
    return rows.found


def number_text(octets):
    """A number: in decimal up to 16 octets, else its bits and its digits."""
    return f"{texts.bits_of(octets)} bits, {octets.hex()}" if len(octets) > 16 else texts.decimal(octets)


def add_numbers(rows, fields, names):
    for name in names.split():
        number = fields.take(0x02)
        rows.add(number, name, number_text(values.natural(number)))


def dsa_parameters(message):
    rows, fields = Rows(), message.fields()
    add_numbers(rows, fields, "p q g")
    fields.close()
    return rows.found


def dh_parameters(message):
    rows, fields = Rows(), message.fields()
    add_numbers(rows, fields, "prime base")
    length = fields.option(0x02)
    if length:
        rows.add(length, "length of a private value", str(values.number(length, 0, MOST)))
    fields.close()
    return rows.found


def x942_parameters(message):
    rows, fields = Rows(), message.fields()
    add_numbers(rows, fields, "p g q")
    factor, validation = fields.option(0x02), fields.option(0x30)
    if factor:
        rows.add(factor, "j", number_text(values.natural(factor)))
    if validation:
        inner = validation.fields()
        seed = inner.take(0x03)
        rows.add(seed, "seed", texts.bits_and_digits(seed))
        add_numbers(rows, inner, "pgenCounter")
        inner.close()
    fields.close()
    return rows.found


def signed_text(octets):
    if octets[0] >= 0x80:
        return texts.serial(octets)
    return number_text(octets[1:] if len(octets) > 1 and octets[0] == 0 else octets)


def ec_parameters(message):
    """A name (RFC 5480 section 2.1.1), or a curve that is written out (SEC 1 section C.2)."""
    rows = Rows()
    if message.tag == 0x05:
        values.null(message)
        rows.add(message, "curve", "implicit")
        return rows.found
    if message.tag == 0x06:
        rows.add(message, "curve", named(values.identifier(message)))
        return rows.found
    fields = message.has(0x30).fields()
    add_plain_version(rows, fields.take(0x02))
    field = fields.take(0x30).fields()
    kind, parameters = field.take(0x06), field.next()
    field.close()
    rows.add(kind, "field", named(values.identifier(kind)))
    rows.add(parameters, "parameters of the field", texts.any_value(parameters))
    add_curve(rows, fields.take(0x30).fields())
    base, order = fields.take(0x04), fields.take(0x02)
    rows.add(base, "base", texts.count_and_digits(base.contents))
    rows.add(order, "order", signed_text(values.integer(order)))
    cofactor, digest = fields.option(0x02), fields.option(0x30)
    fields.close()
    if cofactor:
        rows.add(cofactor, "cofactor", signed_text(values.integer(cofactor)))
    if digest:
        add_algorithm(rows, "hash algorithm", digest)
    return rows.found


def add_curve(rows, fields):
    for name in "ab":
        element = fields.take(0x04)
        rows.add(element, name, texts.count_and_digits(element.contents))
    seed = fields.option(0x03)
    if seed:
        rows.add(seed, "seed", texts.bits_and_digits(seed))
    fields.close()
