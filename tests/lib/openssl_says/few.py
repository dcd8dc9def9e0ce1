"""What openssl says of the files of maker/few.py, field by field, where the comparisons of each kind do not ask for it."""

import os
import re
import subprocess

from ..maker.keys import PASSWORD
from ..reader import pem
from .asking import Compared, date, serial, values
from .messages import count_and_digits


def counted(digits):
    return count_and_digits(digits.lower().replace(":", ""))


def in_bits(digits):
    """A number as certview shows a long one: its bits, and its digits."""
    digits = digits.lower()
    return f"{int(digits, 16).bit_length()} bits, {digits}"


def numbers_of(text):
    """The INTEGERs that openssl finds."""
    return re.findall("INTEGER +:([0-9A-F]+)", text)


class Shown:
    """The fields of a file, beside what is wanted of them."""

    def __init__(self, name, message, compared):
        self.name, self.message, self.compared = name, message, compared

    def all(self, label):
        return values(self.message["fields"], label)

    def has(self, label, *wanted):
        self.same(label, self.all(label), list(wanted))

    def same(self, what, given, wanted):
        self.compared.same(f"{self.name}: {what}", given, wanted)


class Few:
    """The files in a folder, and the message of each."""

    def __init__(self, folder, messages):
        self.folder, self.messages, self.compared = folder, messages, Compared()

    def shown(self, name):
        return Shown(name, self.messages[name], self.compared)

    def openssl(self, words):
        ran = subprocess.run(["openssl", *words.split()], cwd=self.folder, capture_output=True, text=True, timeout=120)
        return ran.stdout + ran.stderr

    def block(self, name):
        """The octets of PEM text."""
        with open(f"{self.folder}/{name}", "rb") as file:
            return pem.blocks(file.read())[0][1]

    def strings(self, name):
        """The OCTET STRINGs of a file, as openssl finds them."""
        return re.findall(r"OCTET STRING +\[HEX DUMP\]:([0-9A-F]+)", self.openssl(f"asn1parse -in {name} -inform DER"))


def request(few):
    shown = few.shown("request.der")
    said = few.openssl("req -in request.der -inform DER -noout -text")
    texts = dict(re.findall(r"(challengePassword|unstructuredName) +:(.*)", said))
    wanted = [f"1.2.840.113549.1.9.2 (unstructuredName), {texts['unstructuredName']}"]
    wanted.append(f"1.2.840.113549.1.9.7 (challengePassword), {texts['challengePassword']}")
    shown.has("attribute", *wanted, "1.2.840.113549.1.9.14 (extensionRequest)")
    host, address = re.search(r"DNS:(\S+), IP Address:(\S+)", said).groups()
    wanted = f"2.5.29.17 (subjectAltName), 22 octets, host {host}, address {address}"
    shown.has("extension", wanted, "2.5.29.15 (keyUsage), critical, 4 octets, digitalSignature")


def encrypted_keys(few):
    shown = few.shown("pbes2.der")
    salt, first, key = few.strings("pbes2.der")
    shown.has("encryption algorithm", "1.2.840.113549.1.5.13 (PBES2)")
    shown.has("key derivation", "1.2.840.113549.1.5.12 (PBKDF2)")
    shown.has("salt", counted(salt))
    shown.has("iterations", "4096")
    shown.has("pseudorandom function", "1.2.840.113549.2.11 (hmacWithSHA512)")
    shown.has("cipher", f"2.16.840.1.101.3.4.1.42 (aes256-CBC), {first.lower()}")
    shown.has("encrypted key", f"{len(key) // 2} octets")
    shown = few.shown("pbe.der")
    salt, key = few.strings("pbe.der")
    shown.has("encryption algorithm", "1.2.840.113549.1.12.1.3 (pbeWithSHAAnd3-KeyTripleDES-CBC)")
    shown.has("salt", counted(salt))
    shown.has("iterations", "3000")
    shown.has("encrypted key", f"{len(key) // 2} octets")


def statuses(few):
    asked, shown = few.shown("ask.der"), few.shown("answer.der")
    said = few.openssl("ocsp -reqin ask.der -respin answer.der -noverify -text -no_nonce")
    of_request, said = said.split("OCSP Response Data:")
    said = said.split("Certificate:\n")[0]
    for of, where in ((asked, of_request), (shown, said)):
        nonce = re.search(r"OCSP Nonce: \n\s+0410(.*)", where)[1].lower()
        of.has("extension", f"1.3.6.1.5.5.7.48.1.2 (ocspNonce), 18 octets, {nonce}")
    shown.has("responder", re.search("Responder Id: (.*)", said)[1].replace(" = ", "="))
    shown.has("certificate", "4a:01, C=SE, O=Barley, CN=root")


def messages(few):
    shown = few.shown("signed.der")
    said = few.openssl("cms -cmsout -print -in signed.der -inform DER")
    content, held = re.search(r"contentType: .*\(([\d.]+)\)", said), re.search(r"eContentType: .*\(([\d.]+)\)", said)
    shown.has("content type", f"{content[1]} (signedData)", f"{held[1]} (data)")
    shown.has("content", "12 octets")
    serials = [serial(f"{int(number, 0):x}") for number in re.findall(r"serialNumber: (\w+)", said)]
    shown.has("certificate", f"{serials[0]}, C=SE, O=Barley, CN=leaf", f"{serials[1]}, C=SE, O=Barley, CN=root")
    shown.has("signer", f"{serials[-1]}, C=SE, O=Barley, CN=root")
    time = date(re.search("UTCTIME:(.*)", said)[1])
    shown.same("the signing time", f"1.2.840.113549.1.9.5 (signingTime), {time}" in shown.all("signed attribute"), True)
    shown.has("digest algorithm", *["2.16.840.1.101.3.4.2.1 (sha256)"] * 2)
    few.shown("digested.der").has("digest", counted(few.openssl("dgst -sha256 -r text").split()[0]))
    said = few.openssl("pkcs7 -in bundle.der -inform DER -print_certs -noout")
    subjects = [name.replace(" = ", "=") for name in re.findall("subject=(.*)", said)]
    few.shown("bundle.der").has("certificate", f"4a:01, {subjects[0]}", f"2b:02, {subjects[1]}")


def recipients(few):
    kinds = {
        "enveloped.der": ["2.16.840.1.101.3.4.1.42 (aes256-CBC)", "4a:01, C=SE, O=Barley, CN=root"],
        "agreed.der": ["2.16.840.1.101.3.4.1.2 (aes128-CBC)", "2b:02, C=SE, O=Barley, CN=root"],
        "password.der": ["2.16.840.1.101.3.4.1.2 (aes128-CBC)", "with a password"],
        "keyed.der": ["2.16.840.1.101.3.4.1.2 (aes128-CBC)"],
        "encrypted.der": ["2.16.840.1.101.3.4.1.2 (aes128-CBC)"],
    }
    for name, (cipher, *people) in kinds.items():
        shown = few.shown(name)
        shown.has("recipient", *people)
        shown.has("encryption algorithm", f"{cipher}, {few.strings(name)[-1].lower()}")
        shown.has("encrypted content", "16 octets")
    few.shown("keyed.der").has("recipient with the key", "3 octets, c0ffee")
    shown = few.shown("password.der")
    shown.has("iterations", "2048")
    shown.has("pseudorandom function", "1.2.840.113549.2.7 (hmacWithSHA1)")


def stamps(few):
    said = few.openssl("ts -query -in query.der -text")
    shown = few.shown("query.der")
    shown.has("version", re.search("Version: (.*)", said)[1])
    shown.has("digest", counted(few.openssl("dgst -sha256 -r text").split()[0]))
    shown.has("policy", re.search("Policy OID: (.*)", said)[1])
    said = few.openssl("ts -reply -in reply.der -text")
    shown = few.shown("reply.der")
    shown.has("policy", re.search("Policy OID: (.*)", said)[1])
    parts = [int(number, 0) for number in re.search("Accuracy: (.*) seconds, (.*) millis, (.*) micros", said).groups()]
    shown.has("accuracy", "{} s, {} ms, {} us".format(*parts))
    name = re.search("TSA: DirName:/(.*)", said)[1].replace("/", ", ")
    shown.has("authority", f"directory {name}")
    said = few.openssl("ts -reply -in refused.der -text")
    shown = few.shown("refused.der")
    shown.has("failure", "badAlg" if "unrecognized or unsupported algorithm" in said else said)


def files(few):
    shown = few.shown("file.p12")
    said = few.openssl(f"pkcs12 -in file.p12 -info -noout -passin {PASSWORD}")
    rounds = re.findall(r"Iteration (\d+)", said)
    shown.has("iterations", rounds[1], rounds[2], rounds[0])
    shown.has("encryption algorithm", *["1.2.840.113549.1.5.13 (PBES2)"] * said.count("PBES2"))
    shown.has("bag", "1.2.840.113549.1.12.10.1.2 (pkcs8ShroudedKeyBag)")
    shown = few.shown("open.p12")
    said = few.openssl(f"pkcs12 -in open.p12 -passin {PASSWORD} -nodes -nokeys")
    subjects = [name.replace(" = ", "=") for name in re.findall("subject=(.*)", said)]
    shown.has("certificate", f"2b:02, {subjects[0]}", f"4a:01, {subjects[1]}")
    friendly = re.search("friendlyName: (.*)", said)[1]
    identifier = re.search("localKeyID: (.*)", said)[1].replace(" ", "").lower()
    wanted = [f"1.2.840.113549.1.9.20 (friendlyName), {friendly}", f"1.2.840.113549.1.9.21 (localKeyID), {identifier}"]
    shown.has("attribute", *wanted * 2)


def numbers(shown, said, names):
    """Numbers that stand in openssl's text below their names."""
    for label, name in names.items():
        digits = re.sub("[^0-9a-f]", "", re.search(rf"(?m)^\s*{name}: *\n([0-9a-f:\s]+)", said)[1])
        number = int(digits, 16)
        shown.has(label, in_bits(f"{number:x}".zfill((number.bit_length() + 7) // 8 * 2)))


def parameters(few):
    said = few.openssl("ecparam -in curve.pem -noout -text")
    few.shown("curve.pem").has("curve", f"1.3.132.0.34 ({re.search('ASN1 OID: (.*)', said)[1]})")
    said = few.openssl("ecparam -in curve.der -inform DER -noout -text -conv_form uncompressed")
    number = lambda name: re.sub("[^0-9a-f]", "", re.search(rf"{name}:\s+([0-9a-f:\s]+)", said)[1])
    shown = few.shown("curve.der")
    shown.has("base", counted(number(r"Generator \(\w+\)")))
    shown.has("order", f"256 bits, {number('Order')[2:]}")
    shown.has("parameters of the field", f"0x{number('Prime')[2:]}")
    numbers(few.shown("dsa.der"), few.openssl("dsaparam -in dsa.pem -noout -text"), {"p": "P", "q": "Q", "g": "G"})
    shown = few.shown("dhx.pem")
    for label, digits in zip(("p", "g", "q"), numbers_of(few.openssl("asn1parse -in dhx.pem"))):
        shown.has(label, in_bits(digits))
    shown = few.shown("dh.pem")
    said = few.openssl("dhparam -in dh.pem -noout -text")
    numbers(shown, said, {"prime": "P"})
    shown.has("base", re.search(r"G: +(\d+)", said)[1])


def key_of_dsa(few):
    """A key of DSA alone, in DER and as PEM text: its numbers are those that openssl finds, but for the private one."""
    said = numbers_of(few.openssl("asn1parse -in dsa_key.pem"))
    for name in ("dsa_key.pem", "dsa_key.der"):
        shown = few.shown(name)
        size = os.path.getsize(f"{few.folder}/dsa_key.der")
        whole = [shown.message[it] for it in ("kind", "offset", "length")]
        shown.same("the title", whole, ["private key of DSA", 0, size])
        shown.has("version", "0")
        for label, digits in zip(("p", "q", "g", "public key"), said[1:]):
            shown.has(label, in_bits(digits))
        is_shown = any(said[5].lower() in field["value"] for field in shown.message["fields"])
        shown.same("the private number", is_shown, False)


def trusted(few):
    """A certificate that is trusted has the fields of the certificate, and those of its settings."""
    shown, alone = few.shown("trusted.pem"), few.shown("ca.pem")
    fields = alone.message["fields"]
    shown.same("the certificate", shown.message["fields"][: len(fields)], fields)
    whole = [[it.message[name] for name in ("kind", "offset", "length")] for it in (shown, alone)]
    shown.same("the title", *whole)
    said = few.openssl("x509 -in trusted.pem -noout -text")
    shown.has("alias", re.search("Alias: (.*)", said)[1])
    uses = {"TLS Web Server Authentication": "1.3.6.1.5.5.7.3.1 (serverAuth)", "E-mail Protection": "1.3.6.1.5.5.7.3.4 (emailProtection)"}
    for label, title in (("trusted use", "Trusted Uses"), ("rejected use", "Rejected Uses")):
        shown.has(label, uses[re.search(rf"{title}:\n +(.*)", said)[1]])
    shown.has("trust settings", f"{len(few.block('trusted.pem')) - len(few.block('ca.pem'))} octets")


PARTS = (request, encrypted_keys, statuses, messages, recipients, stamps, files, parameters, key_of_dsa, trusted)


def compare(folder, found):
    """Each part of the files in a folder, whose messages are given by the names of their files."""
    few = Few(folder, found)
    for part in PARTS:
        try:
            part(few)
        except (AttributeError, IndexError, KeyError, TypeError, ValueError) as error:
            few.compared.wrong.append(f"{part.__name__}: openssl said something else than is looked for: {error!r}")
    return few.compared
