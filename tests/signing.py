#!/usr/bin/env python3
"""Signs, by openssl, what der_examples builds to be signed: a self-signed certificate and a request, for keys of Ed25519, of
P-256 and of RSA; openssl then verifies each, and says what it has.

The octets come from a program of the folder signing, which `rt try` builds (that needs a C compiler). The last line counts."""

import subprocess
import sys
import tempfile

sys.dont_write_bytecode = True
from lib import programs
from lib.octets import sequence, tlv
from lib.trials import Trials

USES = "der_asn1_types der_build der_examples der_pkix der_verify hex"
KEYS = {
    "ed25519": (["-algorithm", "ed25519"], "300506032b6570"),
    "p256": (["-algorithm", "EC", "-pkeyopt", "ec_paramgen_curve:P-256"], "300a06082a8648ce3d040302"),
    "rsa": (["-algorithm", "RSA", "-pkeyopt", "rsa_keygen_bits:2048"], "300d06092a864886f70d01010b0500"),
}
WANTED = {
    "certificate": [
        "issuer=C = SE, O = Barley, CN = Mill",
        "subject=C = SE, O = Barley, CN = Mill",
        "serial=054A",
        "notBefore=Jan  1 00:00:00 2026 GMT",
        "notAfter=Jan  1 00:00:00 2050 GMT",
        "X509v3 Basic Constraints: critical",
        "CA:TRUE",
    ],
    "request": ["subject=C = SE, O = Barley, CN = Mill", "DNS:barley.example"],
}


def openssl(*words, given=None):
    """What openssl answers on standard output."""
    ran = subprocess.run(["openssl", *words], input=given, stdout=subprocess.PIPE, stderr=subprocess.PIPE, check=False)
    if ran.returncode:
        raise RuntimeError(f"openssl {' '.join(words)}: {ran.stderr.decode(errors='replace')}")
    return ran.stdout


def public_octets(kind, key):
    """The octets of a public key that der_build takes: an RSAPublicKey, or what the BIT STRING has."""
    if kind == "rsa":
        return openssl("rsa", "-in", key, "-RSAPublicKey_out", "-outform", "DER")
    return openssl("pkey", "-in", key, "-pubout", "-outform", "DER")[-(32 if kind == "ed25519" else 65) :]


def signed(kind, key, octets, folder):
    """The message: what is signed, the algorithm, and the signature of openssl."""
    file = f"{folder}/to-sign"
    with open(file, "wb") as opened:
        opened.write(octets)
    words = ["pkeyutl", "-sign", "-rawin", "-in", file, "-inkey", key]
    signature = openssl(*words, *([] if kind == "ed25519" else ["-digest", "sha256"]))
    return sequence(octets, bytes.fromhex(KEYS[kind][1]), tlv(0x03, b"\0", signature))


def told(what, file):
    """What openssl says of a message that it has verified."""
    if what == "request":
        return openssl("req", "-in", file, "-inform", "DER", "-verify", "-noout", "-subject", "-text")
    pem = f"{file}.pem"
    openssl("x509", "-in", file, "-inform", "DER", "-out", pem)
    # (a self-signed certificate's own signature is checked with this word alone)
    openssl("verify", "-check_ss_sig", "-CAfile", pem, pem)
    return openssl("x509", "-in", pem, "-noout", "-issuer", "-subject", "-serial", "-dates", "-text")


def tried(program, what, kind, folder):
    """What is wrong with a message of this kind of key: none where openssl verifies it, and says what is wanted."""
    key, file = f"{folder}/key", f"{folder}/message"
    openssl("genpkey", *KEYS[kind][0], "-out", key)
    line = f"{what} {kind} {public_octets(kind, key).hex()}\n".encode()
    ran = subprocess.run([program], input=line, stdout=subprocess.PIPE, stderr=subprocess.PIPE, check=False)
    if ran.returncode:
        return [f"refused: {ran.stderr.decode(errors='replace')}"]
    with open(file, "wb") as opened:
        opened.write(signed(kind, key, bytes.fromhex(ran.stdout.decode()), folder))
    text = told(what, file).decode(errors="replace")
    return [f"no {it!r} in {text}" for it in WANTED[what] if it not in text]


def main():
    trials = Trials("signing")
    with tempfile.TemporaryDirectory(prefix="signing-") as folder:
        program = f"{folder}/program"
        programs.build("signing", program, f"{programs.TESTS}/signing", USES)
        for what in WANTED:
            for kind in KEYS:
                try:
                    wrong = tried(program, what, kind, folder)
                except RuntimeError as error:
                    wrong = [str(error)]
                trials.count(f"{what} {kind}", "; ".join(wrong)[:2000])
    return trials.end()


if __name__ == "__main__":
    sys.exit(main())
