"""What openssl says, by the kind of a message."""

from . import certificates, keys, messages, places

OF_KINDS = {
    "certificate": certificates.certificate,
    "certification request": certificates.request,
    "list of revoked certificates": certificates.revocation_list,
    "public key": keys.public,
    "private key of RSA": keys.rsa,
    "public key of RSA": keys.rsa,
    "private key of an elliptic curve": keys.curve,
    "OCSP request": messages.ocsp_request,
    "OCSP response": messages.ocsp_response,
    "CMS message": messages.cms,
    "time stamp query": messages.query,
    "time stamp reply": messages.reply,
    "PKCS #12 file": messages.pkcs12,
}


def compare(file, message, kind):
    """The places of its fields, and what is printed of its kind."""
    compared = places.compare(file, message)
    if kind in OF_KINDS and message["kind"] == kind:
        try:
            other = OF_KINDS[kind](file, message["fields"])
        except (AttributeError, IndexError, KeyError, TypeError, ValueError) as error:
            compared.wrong.append(f"openssl does not say what is looked for: {error!r}")
            return compared
        compared.count += other.count
        compared.wrong += other.wrong
    return compared
