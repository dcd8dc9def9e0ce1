#!/usr/bin/env python3
"""Makes the messages that are measured, in the folder that is given: bench/inputs.py FOLDER

Each file has messages, each after its length in four octets. What is there already is not made again.

    system      the certificates that the system trusts
    leaves      1,000 certificates of servers, by openssl, half with keys on P-256, half of RSA; names by their number
    revoked-N   a list of N revoked certificates
    signed      100 messages with SignedData, by openssl, each with one certificate
    status      100 answers about the status of one certificate, by openssl"""

import base64
import os
import re
import subprocess
import sys

import messages

LEAVES = 1_000
SIGNED = 100
EXTENSIONS = """[leaf]
basicConstraints=critical,CA:FALSE
keyUsage=critical,digitalSignature
extendedKeyUsage=serverAuth,clientAuth
subjectKeyIdentifier=hash
authorityKeyIdentifier=keyid
certificatePolicies=2.23.140.1.2.1,1.3.6.1.4.1.44947.1.1.1
authorityInfoAccess=OCSP;URI:http://ocsp.barley.example,caIssuers;URI:http://certs.barley.example/i7.crt
crlDistributionPoints=URI:http://crl.barley.example/i7-{0}.crl
subjectAltName=DNS:host{0}.example.org,DNS:www.host{0}.example.org,DNS:mail.host{0}.example.org
"""


def openssl(folder, *words):
    subprocess.run(["openssl", *words], cwd=folder, check=True, stdout=subprocess.DEVNULL, stderr=subprocess.DEVNULL)


def read(path):
    with open(path, "rb") as file:
        return file.read()


def put(path, all_messages):
    with open(path + ".new", "wb") as file:
        for it in all_messages:
            file.write(len(it).to_bytes(4, "big") + it)
    os.rename(path + ".new", path)


def system():
    found = []
    path = "/etc/ssl/certs/ca-certificates.crt"
    if os.path.exists(path):
        for text in re.findall("-----BEGIN CERTIFICATE-----(.*?)-----END", read(path).decode(), re.S):
            found.append(base64.b64decode(text))
    return found


def make_keys(room):
    """The key and certificate of who signs, and the keys of the leaves."""
    openssl(room, "ecparam", "-name", "prime256v1", "-genkey", "-noout", "-out", "ca.key")
    name = "/C=DE/O=Barley Trust Services GmbH/CN=Barley Intermediate CA 7"
    openssl(room, "req", "-x509", "-new", "-key", "ca.key", "-days", "3650", "-subj", name, "-out", "ca.pem")
    for number in range(4):
        openssl(room, "ecparam", "-name", "prime256v1", "-genkey", "-noout", "-out", f"{number}.key")
        openssl(room, "genrsa", "-out", f"{number + 4}.key", "2048")


def leaf(room, number):
    with open(f"{room}/leaf.cnf", "w") as file:
        file.write(EXTENSIONS.format(number))
    name = f"/C=DE/ST=Hessen/L=Frankfurt am Main/O=Example {number} AG/CN=host{number}.example.org"
    openssl(room, "req", "-new", "-key", f"{number % 8}.key", "-subj", name, "-out", "leaf.csr")
    serial = f"0x{0x5000000000000000_0000000000000000 + number * 0x9E3779B97F4A7C15:032x}"
    signer = ["-CA", "ca.pem", "-CAkey", "ca.key", "-set_serial", serial, "-days", "397", "-sha256"]
    extensions = ["-extfile", "leaf.cnf", "-extensions", "leaf"]
    openssl(room, "x509", "-req", "-in", "leaf.csr", *signer, *extensions, "-out", f"{number}.pem")
    openssl(room, "x509", "-in", f"{number}.pem", "-outform", "DER", "-out", "leaf.der")
    return read(f"{room}/leaf.der")


def signed(room, number):
    with open(f"{room}/content", "w") as file:
        file.write(f"message {number}: barley, malt and hops\n")
    signer = ["-signer", f"{number}.pem", "-inkey", f"{number % 8}.key", "-md", "sha256", "-nosmimecap"]
    openssl(room, "cms", "-sign", "-binary", "-nodetach", "-in", "content", *signer, "-outform", "DER", "-out", "signed.der")
    return read(f"{room}/signed.der")


def status(room, number):
    with open(f"{room}/index.txt", "w") as file:
        serial = 0x5000000000000000_0000000000000000 + number * 0x9E3779B97F4A7C15
        file.write(f"V\t491231235959Z\t\t{serial:032X}\tunknown\t/CN=host{number}.example.org\n")
    openssl(room, "ocsp", "-issuer", "ca.pem", "-cert", f"{number}.pem", "-reqout", "request.der", "-no_nonce")
    signer = ["-rsigner", "ca.pem", "-rkey", "ca.key", "-ndays", "7"]
    openssl(room, "ocsp", "-index", "index.txt", "-CA", "ca.pem", *signer, "-reqin", "request.der", "-respout", "status.der")
    return read(f"{room}/status.der")


def main(folder):
    room = f"{folder}/keys"
    os.makedirs(room, exist_ok=True)
    wanted = {"system": system}
    wanted["leaves"] = lambda: [leaf(room, number) for number in range(LEAVES)]
    for count in (1_000, 10_000, 100_000, 1_000_000):
        wanted[f"revoked-{count}"] = lambda count=count: [messages.revoked(count)]
    wanted["signed"] = lambda: [signed(room, number) for number in range(SIGNED)]
    wanted["status"] = lambda: [status(room, number) for number in range(SIGNED)]
    if not os.path.exists(f"{folder}/leaves"):
        make_keys(room)
    for name, make in wanted.items():
        if os.path.exists(f"{folder}/{name}"):
            continue
        try:
            put(f"{folder}/{name}", make())
        except (OSError, subprocess.CalledProcessError) as fault:
            print(f"inputs: {name} was not made: {fault}")


if __name__ == "__main__":
    main(sys.argv[1])
