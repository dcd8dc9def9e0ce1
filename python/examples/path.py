"""Validates a chain of certificates, by the signatures of `cryptography` (42 or later): path.py SECONDS ANCHOR CERTIFICATE..,
files in DER, from the certificate that is trusted to that of the end, at a moment in seconds from 1970. Whether a certificate
is revoked is not asked."""

import sys
from datetime import datetime, timezone
from pathlib import Path

from cryptography import x509
from cryptography.exceptions import InvalidSignature
from cryptography.hazmat.primitives.asymmetric import ec, rsa
from cryptography.hazmat.primitives.serialization import load_der_public_key

import derproved


def verify(one: derproved.Verification, octets: bytes) -> None:
    """Verifies the signature of a certificate, or raises InvalidSignature."""
    key, certificate = load_der_public_key(one.working_key), x509.load_der_x509_certificate(octets)
    how = certificate.signature_algorithm_parameters
    if isinstance(key, rsa.RSAPublicKey):
        key.verify(one.signature_octets, one.signed, how, certificate.signature_hash_algorithm)
    elif isinstance(key, ec.EllipticCurvePublicKey):
        key.verify(one.signature_octets, one.signed, how)
    else:
        key.verify(one.signature_octets, one.signed)


def told(moment: str, anchor: str, *names: str) -> str:
    """What is said of a chain."""
    trusted = derproved.Certificate(Path(anchor).read_bytes())
    chain = [Path(name).read_bytes() for name in names]
    try:
        path = derproved.check_path(
            chain,
            moment=datetime.fromtimestamp(int(moment), timezone.utc),
            anchor_name=trusted.subject,
            anchor_key=trusted.subject_public_key_info,
        )
    except derproved.PathError as error:
        return f"refused {error.index} {error.step.section}" if error.step else f"refused: {error}"
    for index, (one, octets) in enumerate(zip(path.verifications, chain)):
        try:
            verify(one, octets)
        except InvalidSignature:
            return f"refused {index} 6.1.3 (a)(1)"
    return "valid"


if __name__ == "__main__":
    text = told(*sys.argv[1:])
    print(text)
    sys.exit(text != "valid")
