"""Certificates, requests and lists, by `x509`, `req` and `crl`."""

import re

from . import asking
from . import extensions as extension_values
from .asking import Compared, after, ask, date, hexadecimal, latin, name, names_of, serial, values
from ..reader.names import NAMES

# Algorithms that openssl calls otherwise than their standards do, by openssl's names in small letters with dashes.
ALGORITHMS = {
    "rsassapss": "rsassa-pss", "rsa-sha3-256": "rsassa-pkcs1-v1-5-with-sha3-256", "rsa-sha3-512": "rsassa-pkcs1-v1-5-with-sha3-512",
    "dsawithsha1": "dsa-with-sha1", "dsaencryption": "id-dsa", "x9.42 dh": "dhpublicnumber",
}
EXTENSIONS = {
    "X509v3 Subject Directory Attributes": 9, "X509v3 Subject Key Identifier": 14, "X509v3 Key Usage": 15,
    "X509v3 Private Key Usage Period": 16, "X509v3 Subject Alternative Name": 17, "X509v3 Issuer Alternative Name": 18,
    "X509v3 Basic Constraints": 19, "X509v3 CRL Number": 20, "X509v3 CRL Reason Code": 21, "Hold Instruction Code": 23,
    "Invalidity Date": 24, "X509v3 Delta CRL Indicator": 27, "X509v3 Issuing Distribution Point": 28,
    "X509v3 Certificate Issuer": 29, "X509v3 Name Constraints": 30, "X509v3 CRL Distribution Points": 31,
    "X509v3 Certificate Policies": 32, "X509v3 Policy Mappings": 33, "X509v3 Authority Key Identifier": 35,
    "X509v3 Policy Constraints": 36, "X509v3 Extended Key Usage": 37, "X509v3 Freshest CRL": 46, "X509v3 Inhibit Any Policy": 54,
}
OTHERS = {
    "Authority Information Access": "authorityInfoAccess", "Subject Information Access": "subjectInfoAccess", "TLS Feature": "tlsFeature",
    "OCSP No Check": "ocspNoCheck", "Acceptable OCSP Responses": "acceptableResponses", "Netscape Comment": "netscapeComment", "Netscape Base Url": "netscapeBaseUrl",
    "Netscape Revocation Url": "netscapeRevocationUrl", "Netscape CA Revocation Url": "netscapeCaRevocationUrl",
    "Netscape Renewal Url": "netscapeRenewalUrl", "Netscape CA Policy Url": "netscapeCaPolicyUrl",
    "Netscape SSL Server Name": "netscapeSslServerName", "Netscape Cert Type": "netscapeCertType", "qcStatements": "qcStatements",
    "X509v3 No Revocation Available": "noRevAvail", "CT Precertificate SCTs": "signedCertificateTimestamps", "CT Precertificate Poison": "precertificatePoison",
    "sbgp-ipAddrBlock": "ipAddrBlocks", "sbgp-autonomousSysNum": "autonomousSysIds", "Proxy Certificate Information": "proxyCertInfo",
}
# openssl says the bits of the order of a curve, certview those of an element of its field (README of certview, "Numbers").
BITS_OF_ORDER = {"283": "281"}


def algorithm(text):
    """The name of an algorithm, in small letters with dashes."""
    text = text.strip().replace("_", "-").lower()
    return ALGORITHMS.get(text, text)


def extension_kind(text):
    if text in EXTENSIONS:
        return NAMES[f"2.5.29.{EXTENSIONS[text]}"]
    return OTHERS.get(text, text)


def extensions(text, label):
    """The extensions that stand after a label: the name, whether it is critical, and its lines."""
    begin = re.search(rf"^( *){label}:? *\n", text, re.MULTILINE)
    if not begin:
        return []
    found, margin = [], " " * (len(begin[1]) + 4)
    for line in text[begin.end() :].split("\n"):
        if line.strip() and not line.startswith(margin):
            break
        header = re.fullmatch(rf"{margin}(\S.*?):( critical)? *", line)
        if header:
            found.append((header[1], bool(header[2]), []))
        elif found:
            found[-1][2].append(line.strip())
    return found


def compare_extensions(compared, shown, found):
    """Their number, their names, whether they are critical, and what openssl says of some."""
    kinds = [names_of(it) for it in shown]
    compared.same("the extensions", kinds, [dotted_or(extension_kind(it), kind) for (it, _, _), kind in zip(found, kinds)] + [it[0] for it in found[len(kinds) :]])
    for value, (label, is_critical, lines) in zip(shown, found):
        compared.same(f"critical of {label}", ", critical, " in value, is_critical)
        extension_values.compare(compared, value, label, lines)


def dotted_or(theirs, ours):
    """openssl's name of an extension; it has none of some that certview knows, and says them by their arcs."""
    return ours if NAMES.get(theirs) == ours else theirs


def signature(text):
    """The octets of the signature, which ends the text; of DSA openssl says the two numbers that it has."""
    end = text.rpartition("Signature Algorithm:")[2]
    numbers = re.search(r"\s+r:\s*\n((?:\s+[0-9a-f:]+\n)*)\s+s:\s*\n((?:\s+[0-9a-f:]+\n?)*)", end)
    if not numbers:
        return hexadecimal(re.findall(r"^\s+((?:[0-9a-f]{2}:)*[0-9a-f]{2}:?)$", end, re.MULTILINE))
    both = "".join(f"02{len(it) // 2:02x}{it}" for it in (hexadecimal(one.split()) for one in numbers.groups()))
    return f"30{len(both) // 2:02x}{both}"


def compare_signature(compared, fields, text):
    value = values(fields, "signature")[-1]
    compared.same("signature", value.split(", ")[-1], signature(text))
    kinds = [algorithm(it) for it in after("Signature Algorithm:", text)]
    compared.same("signature algorithm", [named(it) for it in values(fields, "signature algorithm")], kinds)


def named(value):
    return algorithm(names_of(value))


def compare_key(compared, fields, text):
    """The algorithm of a key, its bits, and the octets of it where openssl prints these."""
    kind = after("Public Key Algorithm:", text)
    if not kind:
        return
    ours = named(values(fields, "key algorithm")[0])
    compared.same("key algorithm", ours, algorithm(kind[0]))
    key = values(fields, "key")[0]
    bits = re.search(r"Public-Key: \((\d+) bit", text)
    if bits and re.match(r"\d+ bits", key) and ours not in ("dhkeyagreement", "dhpublicnumber"):
        ours_in_bits = key.split(" ")[0]
        compared.same("the bits of the key", BITS_OF_ORDER.get(ours_in_bits, ours_in_bits), bits[1])
    octets = re.search(r"(?:pub|Modulus):\s*\n((?:\s+[0-9a-f:]+\n)*)", text)
    if octets and ours not in ("id-dsa", "dhkeyagreement", "dhpublicnumber"):
        theirs = hexadecimal(octets[1].split())
        compared.same("key", key.split(" ")[-1], theirs.removeprefix("00") if "modulus" in key else theirs)


def certificate(file, fields):
    compared = Compared()
    text = ask("x509", "-in", file, "-inform", asking.form_of(file), "-noout", "-serial", "-subject", "-issuer", "-dates", "-text", "-certopt", "ext_dump", *asking.NAMES)
    compared.same("version", values(fields, "version")[0], re.search(r"Version: (\d+)", text)[1])
    compared.same("serial number", values(fields, "serial number")[0], serial(after("serial=", text)[0]))
    for label, theirs in (("not before", "notBefore="), ("not after", "notAfter=")):
        compared.same(label, values(fields, label)[0], date(after(theirs, text)[0]))
    for label in ("subject", "issuer"):
        compared.same(label, latin(values(fields, label)[0]), name(re.search(rf"^{label}=(.*)$", text, re.MULTILINE)[1]))
    compare_key(compared, fields, text)
    compare_signature(compared, fields, text)
    compare_extensions(compared, values(fields, "extension"), extensions(text, "X509v3 extensions"))
    return compared


def request(file, fields):
    compared = Compared()
    text = ask("req", "-in", file, "-inform", asking.form_of(file), "-noout", "-subject", "-text", "-reqopt", "ext_dump", *asking.NAMES)
    compared.same("version", values(fields, "version")[0], re.search(r"Version: (\d+)", text)[1])
    compared.same("subject", latin(values(fields, "subject")[0]), name(re.search(r"^subject=(.*)$", text, re.MULTILINE)[1]))
    compare_key(compared, fields, text)
    compare_signature(compared, fields, text)
    compare_extensions(compared, values(fields, "extension"), extensions(text, "Requested Extensions"))
    for kind in ("challengePassword", "unstructuredName"):
        ours = [it.split("), ", 1)[-1] for it in values(fields, "attribute") if f"({kind})" in it]
        found = re.findall(rf"^ +{kind} *:(.*)$", text, re.MULTILINE)
        # openssl prints the octets of a TeletexString as they are, and none of a BMPString.
        if all(it.isascii() and "unable to print" not in it for it in found):
            compared.same(kind, [it.replace("\\,", ",") for it in ours], found)
    return compared


def revocation_list(file, fields):
    compared = Compared()
    text = ask("crl", "-in", file, "-inform", asking.form_of(file), "-noout", "-issuer", "-text", *asking.NAMES)
    front, _, entries = text.partition("\nRevoked Certificates:\n")
    compared.same("version", values(fields, "version")[0], re.search(r"Version (\d+)", text)[1])
    compared.same("issuer", latin(values(fields, "issuer")[0]), name(re.search(r"^issuer=(.*)$", text, re.MULTILINE)[1]))
    compared.same("this update", values(fields, "this update")[0], date(after("Last Update:", text)[0]))
    compared.same("next update", (values(fields, "next update") or ["NONE"])[0], date(after("Next Update:", text)[0]))
    compare_signature(compared, fields, text)
    compare_extensions(compared, values(fields, "extension"), extensions(front, "CRL extensions"))
    found = re.split(r"^    Serial Number: ", entries, flags=re.MULTILINE)[1:]
    revoked = values(fields, "revoked")
    compared.same("the number of entries", len(revoked), len(found))
    for ours, theirs in zip(revoked, found):
        number, when = ours.split(", ")[:2]
        compared.same("a revoked one", (number, when), (serial(theirs.split("\n")[0]), date(after("Revocation Date:", theirs)[0])))
        reason = re.search(r"\(cRLReasons\)(?:, critical)?, \d+ octets, (\w+)", ours)
        said = after("X509v3 CRL Reason Code:", theirs)
        compared.same("a reason", reason and reason[1], extension_values.REASONS[theirs.split("Reason Code:")[1].split("\n")[1].strip()] if said else None)
    return compared
