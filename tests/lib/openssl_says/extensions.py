"""What openssl says of the values of extensions, in certview's words: each function answers both, to be alike.

`parts` are the parts of what certview shows of a value, `lines` what openssl prints below its name."""

import ipaddress
import re

from .asking import date
from .places import IDENTIFIER, identifiers

USAGES = {
    "Digital Signature": "digitalSignature", "Non Repudiation": "nonRepudiation", "Key Encipherment": "keyEncipherment",
    "Data Encipherment": "dataEncipherment", "Key Agreement": "keyAgreement", "Certificate Sign": "keyCertSign", "CRL Sign": "cRLSign",
    "Encipher Only": "encipherOnly", "Decipher Only": "decipherOnly",
}
REASONS = {
    "Unspecified": "unspecified", "Unused": "unused", "Key Compromise": "keyCompromise", "CA Compromise": "cACompromise",
    "Affiliation Changed": "affiliationChanged", "Superseded": "superseded", "Cessation Of Operation": "cessationOfOperation",
    "Certificate Hold": "certificateHold", "Remove From CRL": "removeFromCRL", "Privilege Withdrawn": "privilegeWithdrawn",
    "AA Compromise": "aACompromise",
}
TYPES = {
    "SSL Client": "sslClient", "SSL Server": "sslServer", "S/MIME": "smime", "Object Signing": "objectSigning", "Unused": "reserved",
    "SSL CA": "sslCA", "S/MIME CA": "smimeCA", "Object Signing CA": "objectSigningCA",
}
FEATURES = {"status_request": "5", "status_request_v2": "17"}
KINDS = {
    "URI": "resource", "DNS": "host", "email": "mail", "IP Address": "address", "IP": "address", "Registered ID": "identifier",
    "DirName": "directory", "othername": "other",
}
# The kinds of names of which openssl prints the value in a form of its own: the kind alone is compared.
KINDS_ALONE = ("directory", "other")


def unescaped(text):
    return re.sub(r"\\([^0-9a-f])", r"\1", text)


def dotted(text):
    return identifiers().get(text, text)


def address(text):
    """An address, or one with a mask, with no zeros left out."""
    return "/".join(str(ipaddress.ip_address(it)).replace("::ffff:", "mapped ") for it in text.split("/"))


def general(text):
    """A GeneralName of openssl's: its kind, and its value where that is compared."""
    kind, _, value = text.partition(":")
    kind = KINDS[kind]
    if kind in KINDS_ALONE:
        return kind
    return f"{kind} {address(value) if kind == 'address' else dotted(value) if kind == 'identifier' else value}"


def own_general(text):
    """The same of certview's."""
    kind, _, value = text.partition(" ")
    if kind in KINDS_ALONE:
        return kind
    value = unescaped(value)
    return f"{kind} {address(value) if kind == 'address' else IDENTIFIER.match(value)[0] if kind == 'identifier' else value}"


def names_in(parts):
    """The names among parts; the attributes of a directory's name that follow its first are parts of it."""
    return [own_general(it) for it in parts if it.partition(" ")[0] in KINDS.values()]


def names(parts, lines):
    return names_in(parts), [general(it) for it in re.split(r", (?=[A-Za-z ]+:)", lines[0])]


def listed(names_of_bits):
    return lambda parts, lines: (parts, [names_of_bits[it] for it in lines[0].split(", ")])


def purposes(parts, lines):
    return [IDENTIFIER.match(it)[0] for it in parts], [dotted(it) for it in ", ".join(filter(None, lines)).split(", ")]


def features(parts, lines):
    return parts, [FEATURES.get(it, it) for it in lines[0].split(", ")]


def text(parts, lines):
    return unescaped(", ".join(parts)), lines[0]


def policy_constraints(parts, lines):
    words = {"Require Explicit Policy": "explicit policy after", "Inhibit Policy Mapping": "no mapping after"}
    return parts, [" ".join((words[label], number)) for label, number in (it.split(":") for it in lines[0].split(", "))]


def mappings(parts, lines):
    found = [re.fullmatch(r"issuer's (\S+).* is subject's (\S+).*", it).groups() for it in parts]
    return found, [tuple(map(dotted, it.split(":"))) for it in lines[0].split(", ")]


def period(parts, lines):
    said = [it.split(": ", 1) for it in lines[0].split(", ")]
    return parts, [f"{label.lower()} {date(when)}" for label, when in said]


def access(parts, lines):
    """The methods, each with its name."""
    found = [re.match(r"([\d.]+)(?: \([^)]*\))? (.*)", it) for it in parts]
    ours = [(it[1], own_general(it[2])) for it in found if it and it[2].partition(" ")[0] in KINDS.values()]
    return ours, [(dotted(method), general(name)) for method, name in (it.split(" - ", 1) for it in lines if it)]


def points(parts, lines):
    """The places that are no directory's, and the reasons."""
    found = re.findall(r"(?:^|\s)(URI|DNS):(\S*?)(?=Only |Reasons:|\s|$)", "\n".join(lines))
    reasons = [REASONS[it] for line in lines for it in line.split(", ") if it in REASONS]
    ours = [it for it in names_in(parts) if it.startswith(("resource", "host"))]
    own_reasons = [it.split(" ")[-1] for it in parts if it in REASONS.values()]
    return (ours, own_reasons), ([f"{KINDS[kind]} {value}" for kind, value in found], reasons)


def policies(parts, lines):
    """The policies, where each says how it certifies, and the texts for users."""
    found = ", ".join(parts)
    kinds = [dotted(it.removeprefix("Policy: ")) for it in lines if it.startswith("Policy: ")]
    ours = [re.match(r"[\d.]+", it)[0] for it in parts if re.match(r"\d+\.\d+", it)]
    ways = [it.removeprefix("CPS: ") for it in lines if it.startswith("CPS: ")]
    return (ours, re.findall(r"\(cps\) (\S+?)(?=,|$| with)", found)), (kinds, ways)


def name_constraints(parts, lines):
    """The names that are permitted, and those that are not."""
    theirs, word = [], ""
    for line in filter(None, lines):
        if line in ("Permitted:", "Excluded:"):
            word = line[:-1].lower()
        else:
            theirs.append(f"{word} {general(line)}")
    found = [it.partition(" ") for it in parts if it.startswith(("permitted ", "excluded "))]
    return [f"{word} {own_general(name)}" for word, _, name in found], theirs


def authority_key(parts, lines):
    """The key and the serial number."""
    key = [it.removeprefix("keyid:").lower() for it in lines if re.fullmatch(r"(?:keyid:)?(?:[0-9A-F]{2}:)+[0-9A-F]{2}", it)]
    number = [it.removeprefix("serial:").lower() for it in lines if it.startswith("serial:")]
    ours = [it for it in parts if re.fullmatch(r"(?:[0-9a-f]{2}:)+[0-9a-f]{2}", it)]
    own_number = [it.removeprefix("serial number ") for it in parts if it.startswith("serial number ")]
    return (ours, own_number), (key, number)


def stamps(parts, lines):
    """The log and the time of each."""
    whole = "".join(lines)
    logs = [it.replace(" ", "").lower() for it in re.findall(r"Log ID\s*: ([0-9A-F: ]+?)(?=Timestamp)", whole)]
    moments = [date(it) for it in re.findall(r"Timestamp : (\w+ +\d+ [\d:.]+ \d+ GMT)", whole)]
    found = [re.match(r"v1 of log (\S+) (\S+ \S+ UTC)", it).groups() for it in parts]
    return found, list(zip(logs, moments))


READERS = {
    "X509v3 Subject Key Identifier": lambda parts, lines: (parts[0].upper(), lines[0]),
    "X509v3 Authority Key Identifier": authority_key,
    "X509v3 Key Usage": listed(USAGES),
    "X509v3 Extended Key Usage": purposes,
    "Acceptable OCSP Responses": purposes,
    "X509v3 CRL Reason Code": listed(REASONS),
    "Netscape Cert Type": listed(TYPES),
    "X509v3 Subject Alternative Name": names,
    "X509v3 Issuer Alternative Name": names,
    "Authority Information Access": access,
    "Subject Information Access": access,
    "X509v3 CRL Distribution Points": points,
    "X509v3 Freshest CRL": points,
    "X509v3 Issuing Distribution Point": points,
    "X509v3 Certificate Policies": policies,
    "X509v3 Policy Mappings": mappings,
    "X509v3 Policy Constraints": policy_constraints,
    "X509v3 Name Constraints": name_constraints,
    "X509v3 Private Key Usage Period": period,
    "TLS Feature": features,
    "CT Precertificate SCTs": stamps,
    **{f"Netscape {it}": text for it in ("Comment", "Base Url", "Revocation Url", "CA Revocation Url", "Renewal Url", "CA Policy Url", "SSL Server Name")},
}


def compare(compared, value, label, lines):
    """A value of an extension that openssl prints by its parts."""
    said = value.split(" octets, ", 1)[-1]
    if label == "X509v3 Basic Constraints":
        path = re.search(r"pathlen:(\d+)", lines[0])
        theirs = "CA" if lines[0].startswith("CA:TRUE") else "no CA"
        compared.same(label, said, theirs + (f", path length {path[1]}" if path else ""))
    elif label in ("X509v3 CRL Number", "X509v3 Inhibit Any Policy"):
        compared.same(label, int(said, 0), int(lines[0], 0))
    elif label == "Invalidity Date":
        compared.same(label, said, date(lines[0]))
    elif label in READERS and "malformed (" not in said:
        compared.same(label, *READERS[label](re.split(r"(?<!\\), ", said), lines))
