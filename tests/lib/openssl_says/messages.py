"""Messages of OCSP, CMS and time stamps, and files of PKCS #12, by `ocsp`, `cms`, `ts` and `pkcs12`."""

import re

from . import asking
from .asking import Compared, after, ask, date, dumped, names_of, serial, values
from .certificates import algorithm, named, signature
from .places import IDENTIFIER
from ..maker.keys import PASSWORD

DUMP = r"((?: *[0-9a-f]{4,} - .*\n)*)"


def count_and_digits(octets):
    return f"{len(octets) // 2} octets, {octets}"


def ocsp(text, fields):
    """What is alike in requests and responses: the certificates, and who signed."""
    compared, text = Compared(), text.replace("\\\n", "")
    for label, theirs in (("hash of issuer's name", "Issuer Name Hash:"), ("hash of issuer's key", "Issuer Key Hash:")):
        compared.same(label, values(fields, label), [count_and_digits(it.lower()) for it in after(theirs, text)])
    compared.same("hash algorithm", [named(it) for it in values(fields, "hash algorithm")], [algorithm(it) for it in after("Hash Algorithm:", text)])
    own = text.partition("\nCertificate:\n")[0]
    compared.same("serial number", values(fields, "serial number"), [serial(it) for it in after("Serial Number:", own)])
    compared.same("version", values(fields, "version"), [it.split(" ")[0] for it in after("Version:", own)])
    compared.same("the certificates", len(values(fields, "certificate")), text.count("\nCertificate:\n"))
    kinds = re.findall(r"^    Signature Algorithm: (.*)$", own, re.MULTILINE)
    compared.same("signature algorithm", [named(it) for it in values(fields, "signature algorithm")], list(map(algorithm, kinds)))
    if kinds:
        compared.same("signature", values(fields, "signature")[0].split(", ")[-1], signature(own))
    nonces = [it.split(", ")[-1] for it in values(fields, "extension") if "(ocspNonce)" in it]
    said = re.findall(r"OCSP Nonce: \n +([0-9A-F]+)", text)
    compared.same("nonce", nonces, [it[4:].lower() for it in said])
    return compared


def ocsp_request(file, fields):
    return ocsp(ask("ocsp", "-reqin", file, "-req_text"), fields)


def responder(text):
    """The name of a responder, without the quotes and spaces that openssl sets."""
    return re.sub(r"\W", "", text)


def ocsp_response(file, fields):
    text = ask("ocsp", "-respin", file, "-resp_text", "-noverify", with_errors=True)
    status = re.search(r"OCSP Response Status: (\w+)", text) or re.search(r"Responder Error: (\w+)", text)
    if not values(fields, "produced at"):
        compared = Compared()
        compared.same("status", values(fields, "status")[0].lower(), status[1].lower())
        return compared
    compared, own = ocsp(text, fields), text.partition("\nCertificate:\n")[0]
    statuses = values(fields, "status")
    compared.same("status", statuses[0], status[1])
    said = [it.split("    Cert Status: ")[1] for it in re.split(r"(?=    Cert Status: )", own)[1:]]
    theirs = []
    for one in said:
        when, why = after("Revocation Time:", one), after("Revocation Reason:", one)
        theirs.append(", ".join([one.split("\n")[0], *map(date, when), *(it.split(" ")[0] for it in why)]).lower())
    compared.same("the statuses", [it.lower() for it in statuses[1:]], theirs)
    for label, words in (("produced at", "Produced At:"), ("this update", "This Update:"), ("next update", "Next Update:")):
        compared.same(label, values(fields, label), [date(it) for it in after(words, own)])
    who = after("Responder Id:", own)[0]
    ours = values(fields, "responder") or [values(fields, "hash of responder's key")[0].split(", ")[-1].upper()]
    compared.same("responder", responder(ours[0]), responder(who))
    return compared


# The fields that have an identifier, in the order in which `cms -print` says them.
IDENTIFIED = ("content type", "digest algorithm", "signature algorithm", "key encryption", "encryption algorithm", "key algorithm",
              "key derivation", "signed attribute", "unsigned attribute", "unprotected attribute", "MAC algorithm",
              "authenticated attribute", "unauthenticated attribute")
WORDS = r"^ *(?:algorithm|contentType|eContentType|object): .*\(([\d.]+)\) *$"


def without_certificates(text):
    """What is printed, but for the certificates and the lists that a message carries."""
    how = re.MULTILINE | re.DOTALL
    text = re.sub(r"^    certificates:.*?(?=^    (?:crls|signerInfos):)", "", text, flags=how)
    return re.sub(r"^    crls:.*?(?=^    signerInfos:)", "", text, flags=how)


def cms(file, fields):
    compared = Compared()
    whole = ask("cms", "-cmsout", "-print", "-noout", "-in", file, "-inform", asking.form_of(file))
    text = without_certificates(whole)
    compared.same("the certificates", len(values(fields, "certificate")), len(re.findall(r"^ +d\.certificate:", whole, re.MULTILINE)))
    compared.same("the lists", len(values(fields, "list of revoked certificates")), len(re.findall(r"^ +d\.crl:", whole, re.MULTILINE)))
    if values(fields, "policy"):
        return compared
    ours = [IDENTIFIER.match(it["value"])[0] for it in fields if it["name"] in IDENTIFIED]
    said = re.findall(WORDS, text, re.MULTILINE)
    if "authEnvelopedData" not in text:
        compared.same("the identifiers", ours, said)
    if values(fields, "version"):
        compared.same("versions", values(fields, "version"), re.findall(r"^ +version: (\d+)", text, re.MULTILINE))
    compare_people(compared, fields, text)
    signatures = re.findall(rf"^ +signature: *\n{DUMP}", text, re.MULTILINE)
    compared.same("the signatures", values(fields, "signature"), [count_and_digits(dumped(it)) for it in signatures])
    return compared


def compare_people(compared, fields, text):
    """Signers and recipients: by the serial number and the issuer, or by the key."""
    ours = [it["value"] for it in fields if it["name"] in ("signer", "recipient") and it["value"] != "with a password"]
    said = re.findall(
        rf"issuer: (.*)\n +serialNumber: (\S+)|d\.(?:subjectKeyIdentifier|rKeyId): *\n(?: +subjectKeyIdentifier: *\n)?{DUMP}", text
    )
    theirs = []
    for issuer, number, key in said:
        number = f"{int(number, 0):x}" if number else ""
        theirs.append(f"key {':'.join(re.findall('..', dumped(key)))}" if key else f"{serial(number)}, {issuer}")
    if values(fields, "content type")[0].endswith("(authEnvelopedData)"):
        return
    compared.same("who signs or receives", ours, theirs)
    keys = [it for it in values(fields, "recipient with the key")]
    said = re.findall(rf"keyIdentifier: *\n{DUMP} +date:", text.replace("subjectKeyIdentifier", ""))
    compared.same("who has a key", keys, [count_and_digits(dumped(it)) for it in said])


def stamped(compared, fields, text):
    """What is alike in a query and in a stamp."""
    compared.same("digest", values(fields, "digest")[-1:], [count_and_digits(dumped(text))])
    policy = after("Policy OID:", text)[0]
    compared.same("policy", [IDENTIFIER.match(it)[0] for it in values(fields, "policy")], [] if policy == "unspecified" else [policy])
    nonce = after("Nonce:", text)[0]
    compared.same("nonce", values(fields, "nonce"), [] if nonce == "unspecified" else [serial(nonce)])
    kind = [it for it in fields if it["name"] == "digest algorithm"]
    compared.same("digest algorithm", [algorithm(after("Hash Algorithm:", text)[0])], [named(kind[0 if len(kind) == 1 else 1]["value"])])


def query(file, fields):
    compared, text = Compared(), ask("ts", "-query", "-in", file, "-text")
    stamped(compared, fields, text)
    compared.same("with certificate", values(fields, "with certificate"), after("Certificate required:", text))
    return compared


STATUSES = {
    "granted": "Granted.", "grantedWithMods": "Granted with modifications.", "rejection": "Rejected.", "waiting": "Waiting.",
    "revocationWarning": "Revocation warning.", "revocationNotification": "Revoked.",
}


def reply(file, fields):
    compared, text = Compared(), ask("ts", "-reply", "-in", file, "-text")
    front, _, stamp = text.partition("TST info:")
    # openssl reads no reply that grants and has no token.
    if not values(fields, "content type") and values(fields, "status")[0].startswith("granted"):
        return compared
    compared.same("status", STATUSES[values(fields, "status")[0]], after("Status:", front)[0])
    said = after("Status description:", front)
    compared.same("status text", (values(fields, "status text") or ["unspecified"])[0], said[0])
    if not values(fields, "time"):
        return compared
    stamped(compared, fields, stamp)
    compared.same("time", values(fields, "time"), [date(it) for it in after("Time stamp:", stamp)])
    compared.same("serial number", values(fields, "serial number"), [serial(it) for it in after("Serial number:", stamp)])
    compared.same("in order", values(fields, "in order"), after("Ordering:", stamp))
    parts = [int(it, 16) if it else 0 for it in re.findall(r"(?:(?:0x)?([0-9A-F]+)|unspecified) (?:seconds|millis|micros)", after("Accuracy:", stamp)[0])]
    ours = re.findall(r"\d+", values(fields, "accuracy")[0]) if values(fields, "accuracy") else []
    compared.same("accuracy", list(map(int, ours)), parts)
    return compared


BAGS = {
    "Certificate bag": "certBag", "Key bag": "keyBag", "Shrouded Keybag": "pkcs8ShroudedKeyBag", "Secret bag": "secretBag",
    "Safe Contents bag": "safeContentsBag", "unsupported bag type: crlBag": "crlBag",
}


def pkcs12(file, fields):
    """What openssl prints of a file; it looks into what is encrypted, too."""
    compared, text = Compared(), ask("pkcs12", "-in", file, "-info", "-noout", "-nomacver", "-passin", PASSWORD, with_errors=True)
    mac = re.search(r"MAC: (\S+), Iteration (\d+)\nMAC length: (\d+), salt length: (\d+)", text)
    ours = values(fields, "MAC algorithm")
    compared.same("a MAC", bool(ours), bool(mac))
    if mac and ours:
        compared.same("MAC algorithm", named(ours[0]), algorithm(mac[1]))
        compared.same("iterations", values(fields, "iterations")[-1], mac[2])
        compared.same("MAC", values(fields, "MAC")[0].split(" ")[0], mac[3])
        compared.same("salt", values(fields, "salt")[-1].split(" ")[0], mac[4])
    # What is encrypted has a type of its own behind that of its message.
    kinds = [names_of(it) for it in values(fields, "content type")[1:]]
    kinds = [it for at, it in enumerate(kinds) if at == 0 or kinds[at - 1] != "encryptedData"]
    said = re.findall(r"^PKCS7 (Data|Encrypted data)", text, re.MULTILINE)
    compared.same("the contents", kinds, [{"Data": "data", "Encrypted data": "encryptedData"}[it] for it in said])
    plain = re.sub(r"^PKCS7 Encrypted data.*\n(?:(?:Certificate bag|Key bag|Shrouded).*\n)*", "", text, flags=re.MULTILINE)
    bags = [names_of(it) for it in values(fields, "bag")]
    said = re.findall(rf"({'|'.join(BAGS)})", plain)
    compared.same("the bags", bags, [BAGS[it] for it in said])
    return compared
