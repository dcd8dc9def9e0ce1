"""The kinds of messages, as certview calls them, and who reads each."""

from . import cms, keys, messages, ocsp, pkcs12, stamps
from .octets import message_of

READERS = {
    "certificate": messages.certificate,
    "list of revoked certificates": messages.revocation_list,
    "certification request": messages.request,
    "public key": keys.public_key,
    "private key": keys.private_key,
    "private key of RSA": keys.rsa_private_key,
    "public key of RSA": keys.rsa_public_key,
    "private key of an elliptic curve": keys.ec_private_key,
    "encrypted private key": keys.encrypted_key,
    "parameters of an elliptic curve": keys.ec_parameters,
    "parameters of DSA": keys.dsa_parameters,
    "parameters of Diffie-Hellman": keys.dh_parameters,
    "parameters of Diffie-Hellman (X9.42)": keys.x942_parameters,
    "OCSP request": ocsp.request,
    "OCSP response": ocsp.response,
    "CMS message": cms.message,
    "time stamp query": stamps.query,
    "time stamp reply": stamps.reply,
    "PKCS #12 file": pkcs12.file,
}


def rows_of(kind, octets):
    """The rows of these octets: the place, the name and the value of each field. Refused where they are of another kind."""
    message = message_of(octets)
    if kind != "parameters of an elliptic curve":
        message.has(0x30)
    return READERS[kind](message)
