"""Why two readers differ: a clause for each difference, and how it is seen in the octets, or in the words of the other reader."""

import re

from asn1crypto import core

from . import faults
from .beside_asn1crypto import items, there_refused
from .differences import HERE_REFUSED, INSIDE_REFUSED, THERE_REFUSED
from .schema import EXTENSIONS, PEERS

# Of octets that derproved alone refuses, by the words of the independent reader: the clause.
CLAUSES = {
    "a BOOLEAN of another octet": "X.690 11.1: TRUE is FF",
    "a length in more octets than it needs": "X.690 10.1: a length has the fewest octets",
    "a length that is indefinite or too long": "X.690 10.1: a length is definite",
    "an INTEGER in more octets than it needs": "X.690 8.3.2: an INTEGER has the fewest octets",
    "an INTEGER with no octets": "X.690 8.3.1: an INTEGER has octets",
    "unused bits that are not zero": "X.690 11.2.1: unused bits are zero",
    "a BIT STRING that says no bits": "X.690 8.6.2: the first octet is the number of unused bits",
    "another form of a UTCTime": "RFC 5280 4.1.2.5.1: a UTCTime has seconds and Z",
    "another form of a GeneralizedTime": "RFC 5280 4.1.2.5.2: a GeneralizedTime has seconds and Z",
    "a day that there is not": "X.680 46, 47: a day of the calendar",
    "a time of day that there is not": "X.680 46, 47: a time of the day",
    "the other form of a universal tag": "X.690 10.2: a string is primitive",
    "a universal tag that is not known": "docs/FORMAT.md: the universal tags that are known",
    "characters that the string type": "X.680 41: the characters of a string type",
    "octets that are no UTF-8": "X.680 41: the characters of a UTF8String",
    "an IA5String with other octets": "X.680 41: the characters of an IA5String",
    "a NULL with octets": "X.690 8.8.2: a NULL has no octets",
    "the octets end": "X.690 8.1.1: an encoding has the octets that its length says",
    "octets are left over": "X.690 8.1.1: an encoding has no octets after its length",
}


def class_of(kind):
    """The class of asn1crypto for a kind of difference."""
    of = EXTENSIONS.get(kind.removeprefix("extension "), "") if kind.startswith("extension ") else kind
    return PEERS.get(of.lstrip("*<"))


def numbers(octets):
    return [it.native for it in core.SequenceOf.load(octets, spec=core.Integer)]


def is_absent(kind, octets, *path):
    """Whether a field is absent, by asn1crypto."""
    value = PEERS[kind].load(octets)
    for name in path:
        value = value[name]
    return isinstance(value, core.Void)


def has_empty_list(kind, octets):
    """Whether a list that has one item at least has none: extensions, or subtrees."""
    if kind == "NameConstraints":
        found = PEERS[kind].load(octets)
        return any(not isinstance(it, core.Void) and not items(it) for it in (found["permitted_subtrees"], found["excluded_subtrees"]))
    return kind == "Certificate" and not items(PEERS[kind].load(octets)["tbs_certificate"]["extensions"])


def has_bad_version(kind, octets):
    value = PEERS[kind].load(octets)
    version = value["tbs_certificate"]["version"] if kind == "Certificate" else value["version"]
    return not 0 <= int.from_bytes(version.contents, signed=True) <= (255 if kind == "Certificate" else 1)


def has_last_zero_bit(kind, octets):
    return kind in ("named bits", "extension 2.5.29.15") and not octets[-1] >> octets[2] & 1


def has_bad_salt_length(kind, octets):
    return kind == "RsassaPssParams" and not 0 <= PEERS[kind].load(octets)["salt_length"].native < 1 << 32


def has_other_trailer(kind, octets):
    return kind == "RsassaPssParams" and int.from_bytes(PEERS[kind].load(octets)["trailer_field"].contents) != 1


def has_negative_key(kind, octets):
    """Whether a number of a key of RSA is negative, which stands in another message, too."""
    if kind == "RsaPublicKey":
        return min(numbers(octets)) < 0
    value = PEERS[kind].load(octets)
    key = value["tbs_certificate"]["subject_public_key_info"] if kind == "Certificate" else value
    return min(numbers(key["public_key"].parsed.dump())) < 0


# The clauses by which derproved refuses, each with what it is seen by.
REFUSALS = [
    ("docs/FORMAT.md: a date before 1970 is refused (13)", lambda kind, it: any(year < 1970 for year in faults.dates(it))),
    ("X.690 11.2.2: the last of named bits is 1", has_last_zero_bit),
    ("X.690 11.5: a default value is not encoded", lambda kind, it: class_of(kind) and faults.encoded_default(class_of(kind).load(it))),
    ("X.690 11.6: the attributes of a relative name are in order", lambda kind, it: faults.unsorted_set(it)),
    ("RFC 5280 4.1, 4.2.1.10: a list has one item or more", has_empty_list),
    ("RFC 5280 4.1, RFC 5958 2: a version (to 255 of a certificate)", has_bad_version),
    ("RFC 5280 4.2.1.6: mailboxes, domain names and URIs are IA5Strings", lambda kind, it: faults.has_other_letters(it)),
    ("docs/FORMAT.md: an OBJECT IDENTIFIER has at most 39 octets", lambda kind, it: faults.has_long_identifier(it)),
    ("RFC 4055 3.1: a salt length is not negative (and has 32 bits)", has_bad_salt_length),
    ("RFC 4055 3.1: the trailer field is 1", has_other_trailer),
    ("RFC 5280 4.1.2.5.2: a GeneralizedTime has no fraction of a second", lambda kind, it: kind != "TstInfo" and faults.has_fraction(it)),
    ("RFC 2986 4.1: the attributes are not optional",
     lambda kind, it: kind == "CertificationRequest" and is_absent(kind, it, "certification_request_info", "attributes")),
    ("RFC 5652 3: the content is not optional, which it was in RFC 2315 7",
     lambda kind, it: kind == "ContentInfo" and is_absent(kind, it, "content")),
    ("RFC 5652 5.2: the content is an OCTET STRING, which it need not be in RFC 2315 7",
     lambda kind, it: kind == "ContentInfo" and faults.first_fault(it) is None and faults.signs_another_type(it)),
    ("RFC 8017 A.1.1: a public key has two numbers",
     lambda kind, it: kind == "RsaPublicKey" and len(items(core.SequenceOf.load(it, spec=core.Any))) > 2),
    ("RFC 8017 A.1.1: the numbers of a key are positive", has_negative_key),
    ("der.h: der_unsigned_integer reads numbers of 64 bits that are not negative",
     lambda kind, it: kind == "INTEGER" and not 0 <= core.Integer.load(it).native < 1 << 64),
    ("RFC 7468: the label is of another type", lambda kind, it: kind == "EcPrivateKey" and there_refused("PrivateKeyInfo", it) is None),
]

OPEN = "RFC 5280 4.1, X.680 14: what an open type or an OCTET STRING holds is read by a call of its own; asn1crypto reads it too"

# Of what another refuses and derproved reads: the reader, its words, and the clause.
OTHERS = [
    ("asn1crypto", r"KeyError: '[0-9.]+'", "RFC 5280 4.1.1.2: any algorithm; asn1crypto knows some"),
    ("asn1crypto", r"", OPEN),
    ("cryptography", r"UnsupportedAlgorithm|Could not deserialize key data|private key|Invalid (EC )?key|on (the )?curve|infinity|explicit parameters",
     "RFC 5280 4.1.1.2: any algorithm and any octets of a key; cryptography reads those that it can use"),
    ("cryptography", r"signature_alg|SubjectPublicKeyInfo::algorithm|TbsCertificate::spki",
     "RFC 5280 4.1.1.2: parameters are of any type; cryptography reads them at once"),
    ("cryptography", r"AttributeValue|\[\"(issuer|subject)\"\]|Long-form tags|duplicate attributes",
     "RFC 5280 4.1.2.4: the value of an attribute is of any type, and a part has any attributes"),
    ("cryptography", r"PKCS7", "RFC 5652 3: any type of content; cryptography reads the certificates of signed messages"),
    ("cryptography", r"more than one request|BasicResponse|UnknownDefinedBy|BasicOCSPResponse",
     "RFC 6960 4.1.1, 4.2.1: any number of requests, any type of response, which stands in an OCTET STRING"),
    ("cryptography", r"Extension::extn_id|::policy_identifier",
     "docs/FORMAT.md: an OBJECT IDENTIFIER has up to 39 octets, of any arcs; cryptography 38 reads fewer"),
    ("cryptography", r"user_certificate|RawRevokedCertificate::user_ce", "RFC 5280 5.1.2.6: a serial number is any INTEGER"),
    ("cryptography", r"status is not successful", "RFC 6960 4.2.1: the grammar has responseBytes beside any status"),
    ("cryptography", r"InvalidVersion", "RFC 5280 4.1: a version that names nothing is read"),
    ("cryptography", r"DuplicateExtension", "RFC 5280 4.2: each extension stands once; a rule of check_rfc5280, not the grammar"),
    ("cryptography", r"KeyError: \d+", "RFC 7633 4.1: any feature of TLS; cryptography knows 5 and 17"),
    ("cryptography", r"SCT", "RFC 6962 3.3: what TLS encodes is not read here"),
    ("cryptography", r"path_length must be None|encipher_only and decipher_only", "RFC 5280 4.2.1.3, 4.2.1.9: no rule of the grammar"),
    ("cryptography", r"netmask|IPNetwork", "RFC 5280 4.2.1.10: an iPAddress is an OCTET STRING"),
    ("cryptography", r"qualifier|OID did not match", "RFC 5280 4.2.1.4: a qualifier is of any type"),
    ("cryptography", r"UnsupportedGeneralNameType", "RFC 5280 4.2.1.6: cryptography reads seven of nine kinds of names"),
    ("cryptography", r"reason code", "RFC 5280 5.3.1: there is no call for a CRLReason"),
    ("cryptography", r"ShortData|UnexpectedTag", "python/README.md: encodings() of what is no list ends early; cryptography refuses it"),
]
ANY_ORDER = "RFC 5280 4.1.2.4: a part of a name is a SET; cryptography 38 gives its attributes in any order"
UNUSED_BIT = "RFC 5280 4.2.1.13: bit 0 of ReasonFlags is unused; cryptography leaves it out"


def holds(predicate, *of):
    """Whether a predicate holds, which may ask asn1crypto, which may refuse octets in many ways."""
    try:
        return bool(predicate(*of))
    except Exception:
        return False


def refused_here(kind, octets, is_inside):
    """The clause by which octets are refused that another takes, or what stands in them."""
    words = faults.first_fault(octets) or is_inside and faults.fault_of_key(octets)
    clause = next((it for beginning, it in CLAUSES.items() if words and words.startswith(beginning)), None)
    return clause or next((it for it, seen in REFUSALS if holds(seen, kind, octets)), None)


def is_unused_bit(difference):
    """Whether ReasonFlags differ by bit 0 alone."""
    plain = [re.sub(r"\b\d{3}\b", lambda it: str(int(it[0]) & ~1), str(it)) for it in (difference.here, difference.there)]
    return difference.kind in ("extension 2.5.29.28", "extension 2.5.29.31") and plain[0] == plain[1]


def is_other_order(difference):
    """Whether names differ by the order of attributes, and by those that stand twice in a part."""
    names = difference.here, difference.there
    return difference.what in ("issuer", "subject") and not isinstance(names[1], str) and set(names[0]) == set(names[1])


def refused_there(difference):
    """The clause by which derproved reads what another refuses. Of asn1crypto's refusals of open types the frame is read."""
    found = next((it for it in OTHERS if difference.peer == it[0] and re.search(it[1], str(difference.there))), None)
    if found is None or found[2] == OPEN and there_refused(difference.kind, difference.octets, deep=False) is not None:
        return None
    return found[2]


def reason_of(difference):
    """The clause, or None."""
    is_inside = difference.what == INSIDE_REFUSED or "refused " in str(difference.here)
    if difference.what == HERE_REFUSED or is_inside:
        return refused_here(difference.kind, difference.octets, is_inside)
    if is_unused_bit(difference):
        return UNUSED_BIT
    if is_other_order(difference):
        return ANY_ORDER
    is_refused = difference.what == THERE_REFUSED or isinstance(difference.there, str) and "Error" in difference.there
    if is_refused or "DuplicateExtension" in str(difference.there):
        return refused_there(difference)
    return None
