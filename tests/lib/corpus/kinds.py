"""The kind of octets without a label: the first that derproved or asn1crypto reads them as."""

import derproved

from .beside_asn1crypto import there_refused
from .told_here import refused

KINDS = ("Certificate CertificateList CertificationRequest OcspResponse OcspRequest ContentInfo Pfx PrivateKeyInfo "
         "EncryptedPrivateKeyInfo RsaPrivateKey EcPrivateKey SubjectPublicKeyInfo TimeStampReq TimeStampResp RsaPublicKey").split()


def kind_of(octets):
    """The kind, or None."""
    for reads in (lambda it: refused(getattr(derproved, it), octets) is None, lambda it: there_refused(it, octets) is None):
        found = next(filter(reads, KINDS), None)
        if found:
            return found
    return None
