"""Signatures of certificates and of lists of revoked certificates (RFC 5280 6.1.3 (a)(1), 6.3.3 (g)), by `cryptography`, with the parameters
of DSA that a key inherits (6.1.4 (f))."""

from cryptography.exceptions import InvalidSignature
from cryptography.hazmat.primitives import hashes, serialization
from cryptography.hazmat.primitives.asymmetric import dsa, ec, padding

from .octets import sequence, tlv
from .reader.octets import message_of

DSA = bytes.fromhex("2a8648ce380401")
HASHES = {
    bytes.fromhex("2a864886f70d010105"): hashes.SHA1, bytes.fromhex("2a864886f70d01010b"): hashes.SHA256,
    bytes.fromhex("2a8648ce380403"): hashes.SHA1, bytes.fromhex("608648016503040302"): hashes.SHA256,
    bytes.fromhex("2a8648ce040302"): hashes.SHA256, bytes.fromhex("2a8648ce3d040302"): hashes.SHA256,
}


class Key:
    """A public key, with the parameters that it inherits if it has none of its own (6.1.4 (d) to (f))."""

    def __init__(self, encoding, before=None):
        fields = encoding.fields()
        algorithm = fields.take(0x30).fields()
        self.kind = algorithm.take(6).whole
        parameters = None if algorithm.is_empty() else algorithm.next().whole
        is_absent = parameters is None or parameters == b"\x05\x00"
        inherits = is_absent and before is not None and before.kind == self.kind
        self.parameters = before.parameters if inherits else parameters
        self.octets = sequence(sequence(self.kind, self.parameters or b""), tlv(3, fields.take(3).contents))

    def verifies(self, signed, algorithm, signature):
        """Whether the key verifies a signature, a BIT STRING's contents octets; `algorithm` is an AlgorithmIdentifier."""
        kind = message_of(algorithm).fields().take(6).contents
        if kind not in HASHES:
            return False
        key, digest = serialization.load_der_public_key(self.octets), HASHES[kind]()
        try:
            if isinstance(key, dsa.DSAPublicKey):
                key.verify(signature[1:], signed, digest)
            elif isinstance(key, ec.EllipticCurvePublicKey):
                key.verify(signature[1:], signed, ec.ECDSA(digest))
            else:
                key.verify(signature[1:], signed, padding.PKCS1v15(), digest)
        except InvalidSignature:
            return False
        return True


def keys_of(anchor, path):
    """The keys of an anchor and of the certificates of a path, each with what it inherits."""
    keys = []
    for certificate in [anchor, *path]:
        keys.append(Key(certificate.key, keys[-1] if keys else None))
    return keys


def first_bad(anchor, path):
    """The number of the first certificate of a path whose signature does not verify, or nothing."""
    for number, (certificate, key) in enumerate(zip(path, keys_of(anchor, path)), 1):
        if not key.verifies(certificate.signed, certificate.algorithm, certificate.signature):
            return number
    return None
