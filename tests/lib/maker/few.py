"""One file or a few of each kind that openssl writes, as its commands write them with its own configuration."""

import os
import re
import subprocess

from ..reader import pem
from .keys import PASSWORD
from .workshop import Made

REQUEST = """
[req]
distinguished_name = name
req_extensions = extensions
attributes = attributes
prompt = no
string_mask = utf8only
[name]
C = SE
O = Barley Works
CN = mill.example
[extensions]
subjectAltName = DNS:mill.example, IP:192.0.2.7
keyUsage = critical, digitalSignature
[attributes]
challengePassword = secret words
unstructuredName = old mill
[stamping]
extendedKeyUsage = critical, timeStamping
[tsa]
default_tsa = stamps
[stamps]
serial = number
signer_digest = sha256
default_policy = 1.2.3.4
other_policies = 1.2.3.5
digests = sha256
accuracy = secs:1, millisecs:500, microsecs:100
ordering = yes
tsa_name = yes
"""

INDEX = """V\t360101000000Z\t\t2B02\tunknown\t/C=SE/O=Barley/CN=leaf
R\t360101000000Z\t260101020304Z,keyCompromise\t77\tunknown\t/CN=gone
"""

GIVEN = {"request.cnf": REQUEST, "index.txt": INDEX, "text": "some content", "number": "09\n"}
COMMANDS = f"""
ecparam -name prime256v1 -genkey -noout -out ec.key
genpkey -algorithm ED25519 -out ed.key
req -new -key ec.key -config request.cnf -outform DER -out request.der
req -new -key ec.key -config request.cnf -newhdr -out request.pem
pkcs8 -topk8 -in ed.key -v2 aes-256-cbc -v2prf hmacWithSHA512 -iter 4096 -passout {PASSWORD} -outform DER -out pbes2.der
pkcs8 -topk8 -in ed.key -v1 PBE-SHA1-3DES -iter 3000 -passout {PASSWORD} -outform DER -out pbe.der
pkcs8 -topk8 -in ed.key -passout {PASSWORD} -out encrypted.pem
req -x509 -newkey rsa:2048 -nodes -keyout ca.key -out ca.pem -subj /C=SE/O=Barley/CN=root -days 3650 -set_serial 0x4a01
req -new -key ec.key -subj /C=SE/O=Barley/CN=leaf -out leaf.csr
x509 -req -in leaf.csr -CA ca.pem -CAkey ca.key -set_serial 0x2b02 -days 90 -extfile request.cnf -extensions stamping -out leaf.pem
ocsp -issuer ca.pem -cert leaf.pem -serial 0x77 -reqout ask.der
ocsp -index index.txt -rsigner ca.pem -rkey ca.key -CA ca.pem -reqin ask.der -respout answer.der -ndays 7
cms -sign -in text -signer leaf.pem -inkey ec.key -certfile ca.pem -outform DER -nodetach -binary -out signed.der
cms -sign -in text -signer leaf.pem -inkey ec.key -outform PEM -out signed.pem
cms -encrypt -in text -aes256 -outform DER -out enveloped.der ca.pem
cms -encrypt -in text -aes128 -outform DER -out agreed.der leaf.pem
cms -encrypt -in text -aes128 -pwri_password xx -outform DER -out password.der
cms -encrypt -in text -aes128 -secretkey 000102030405060708090a0b0c0d0e0f -secretkeyid c0ffee -outform DER -out keyed.der
cms -EncryptedData_encrypt -in text -aes128 -secretkey 000102030405060708090a0b0c0d0e0f -outform DER -out encrypted.der
cms -digest_create -in text -md sha256 -outform DER -out digested.der
crl2pkcs7 -nocrl -certfile ca.pem -certfile leaf.pem -outform DER -out bundle.der
crl2pkcs7 -nocrl -certfile ca.pem -out bundle.pem
ts -query -data text -sha256 -cert -tspolicy 1.2.3.4 -out query.der
ts -reply -queryfile query.der -signer leaf.pem -inkey ec.key -config request.cnf -section stamps -out reply.der
ts -query -data text -sha1 -no_nonce -out refused.query
ts -reply -queryfile refused.query -signer leaf.pem -inkey ec.key -config request.cnf -section stamps -out refused.der
pkcs12 -export -in leaf.pem -inkey ec.key -name leaf -passout {PASSWORD} -out file.p12
pkcs12 -export -in leaf.pem -inkey ec.key -name leaf -passout {PASSWORD} -keypbe NONE -certpbe NONE -certfile ca.pem -out open.p12
ecparam -name secp384r1 -out curve.pem
ecparam -name secp256k1 -param_enc explicit -outform DER -out curve.der
dsaparam -out dsa.pem 1024
dsaparam -in dsa.pem -outform DER -out dsa.der
genpkey -paramfile dsa.pem -out dsa.key
pkey -in dsa.key -traditional -out dsa_key.pem
x509 -in ca.pem -trustout -addtrust serverAuth -addreject emailProtection -setalias mill -out trusted.pem
dhparam -out dh.pem 512
genpkey -genparam -algorithm DHX -pkeyopt dh_rfc5114:2 -out dhx.pem
"""

# The files that are shown, by their kinds.
KINDS = {
    "certificate": "ca.pem leaf.pem",
    "certification request": "request.der request.pem",
    "encrypted private key": "pbes2.der pbe.der encrypted.pem",
    "OCSP request": "ask.der",
    "OCSP response": "answer.der",
    "CMS message": "signed.der signed.pem enveloped.der agreed.der password.der keyed.der encrypted.der digested.der bundle.der bundle.pem",
    "time stamp query": "query.der refused.query",
    "time stamp reply": "reply.der refused.der",
    "PKCS #12 file": "file.p12 open.p12",
    "parameters of an elliptic curve": "curve.pem curve.der",
    "parameters of DSA": "dsa.pem dsa.der",
    "parameters of Diffie-Hellman": "dh.pem",
    "parameters of Diffie-Hellman (X9.42)": "dhx.pem",
}
# Those of which the reader reads no such kind, or less than there is: openssl alone is compared.
UNREAD = {"private key of DSA": "dsa_key.pem dsa_key.der", "certificate": "trusted.pem"}


def make(shop):
    """Makes all, each command after those whose files it takes."""
    for name, text in GIVEN.items():
        shop.write(name, text)
    for words in COMMANDS.strip().splitlines():
        name = re.findall(r"-(?:req|resp)?out (\S+)", words)[-1]
        ran = subprocess.run(["openssl", *words.split()], cwd=shop.folder, capture_output=True, text=True, timeout=120)
        if not os.path.isfile(shop.path(name)):
            raise RuntimeError(f"openssl {words}: {ran.stdout}{ran.stderr}")
    with open(shop.path("dsa_key.pem"), "rb") as file:
        shop.write("dsa_key.der", pem.blocks(file.read())[0][1])


def listed(shop, kinds):
    """The files of these kinds."""
    return [Made(shop.path(name), kind, "one of its kind") for kind, names in kinds.items() for name in names.split()]
