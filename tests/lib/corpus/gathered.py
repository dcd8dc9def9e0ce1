"""The messages in archives: PEM blocks in any file, files that are one encoding, and messages of S/MIME in base64; each once."""

import base64
import binascii
import io
import re
import subprocess
import tarfile

PEM = re.compile(rb"-----BEGIN ([A-Z0-9 ]+)-----([^-]*?)-----END \1-----")
MIME = re.compile(rb"Content-Transfer-Encoding: base64[^\n]*\n(?:[A-Z][^\n]*\n|[ \t][^\n]*\n)*\r?\n((?:[A-Za-z0-9+/=]+\r?\n)+)", re.I)
MOST = 1 << 22

# What a label says of the octets (RFC 7468).
KINDS = {
    "CERTIFICATE": "Certificate",
    "X509 CERTIFICATE": "Certificate",
    "TRUSTED CERTIFICATE": "Certificate",
    "X509 CRL": "CertificateList",
    "CERTIFICATE REQUEST": "CertificationRequest",
    "NEW CERTIFICATE REQUEST": "CertificationRequest",
    "PKCS7": "ContentInfo",
    "CMS": "ContentInfo",
    "PRIVATE KEY": "PrivateKeyInfo",
    "ENCRYPTED PRIVATE KEY": "EncryptedPrivateKeyInfo",
    "RSA PRIVATE KEY": "RsaPrivateKey",
    "RSA PUBLIC KEY": "RsaPublicKey",
    "EC PRIVATE KEY": "EcPrivateKey",
    "PUBLIC KEY": "SubjectPublicKeyInfo",
    "OCSP RESPONSE": "OcspResponse",
}


def files_of(archive):
    """The name and the octets of each file of an archive."""
    if archive.endswith(".deb"):
        packed = subprocess.run(["dpkg-deb", "--fsys-tarfile", archive], capture_output=True, check=True).stdout
        opened = tarfile.open(fileobj=io.BytesIO(packed))
    else:
        opened = tarfile.open(archive)
    with opened:
        for member in opened:
            if member.isfile() and member.size < MOST:
                yield member.name, opened.extractfile(member).read()


def decoded(text):
    """The octets of base64, which may stand in the strings of a program in C."""
    plain = re.sub(rb'\\[nr]|["\\;,]|\s', b"", text)
    try:
        return base64.b64decode(plain, validate=True)
    except binascii.Error:
        return b""


def first_length(octets):
    """The length of the SEQUENCE at the front; 0 if there is none, or its length is indefinite."""
    if len(octets) < 2 or octets[0] != 0x30:
        return 0
    count = octets[1] - 0x80
    if count < 0:
        return 2 + octets[1]
    return 2 + count + int.from_bytes(octets[2 : 2 + count]) if 1 <= count <= 4 else 0


def is_whole(octets):
    """Whether the octets are one SEQUENCE, also one of indefinite length, as a message in BER may be."""
    return octets[:2] == b"\x30\x80" and octets[-2:] == b"\0\0" or first_length(octets) == len(octets) > 2


def messages_in(octets):
    """The kind of each message in a file, where a label says it, else None; and its octets."""
    if is_whole(octets):
        yield None, octets
        return
    for label, text in PEM.findall(octets):
        found = decoded(text)
        if label == b"TRUSTED CERTIFICATE":  # behind the certificate stands what OpenSSL trusts it for
            found = found[: first_length(found)]
        if found and label.decode() in KINDS:
            yield KINDS[label.decode()], found
    for text in MIME.findall(octets):
        found = decoded(text)
        if is_whole(found):
            yield "ContentInfo", found


def gather(archives):
    """The messages of archives by name, in their order, each once: kind or None, octets, where it was found."""
    seen = set()
    for name, files in archives.items():
        for archive in files:
            for file, octets in files_of(archive):
                for kind, message in messages_in(octets):
                    if message not in seen:
                        seen.add(message)
                        yield kind, message, f"{name}: {file}"
