"""What derproved says of whole messages beside `cryptography`: dates, names, numbers, keys, and the values of extensions."""

import ipaddress
from datetime import datetime, timezone

import derproved
from cryptography import x509
from cryptography.hazmat.primitives import serialization
from cryptography.hazmat.primitives.asymmetric import ec, rsa
from cryptography.hazmat.primitives.serialization import pkcs7
from cryptography.x509 import ocsp
from derproved import contents, encodings

from . import values_here
from .differences import INSIDE_REFUSED
from .told_here import attributes, identifier, integer, refused

PEER = "cryptography"
USAGES = ("digital_signature content_commitment key_encipherment data_encipherment key_agreement key_cert_sign crl_sign "
          "encipher_only decipher_only").split()
REASONS = ("unspecified key_compromise ca_compromise affiliation_changed superseded cessation_of_operation certificate_hold "
           "privilege_withdrawn aa_compromise").split()
# the number of each in a CRLReason (RFC 5280 5.3.1)
CODES = {"unspecified": 0, "key_compromise": 1, "ca_compromise": 2, "affiliation_changed": 3, "superseded": 4,
         "cessation_of_operation": 5, "certificate_hold": 6, "remove_from_crl": 8, "privilege_withdrawn": 9, "aa_compromise": 10}

# the members of a private key of RSA, and their names there
NUMBERS = [("private_exponent", "d"), ("prime1", "p"), ("prime2", "q"), ("exponent1", "dmp1"), ("exponent2", "dmq1"), ("coefficient", "iqmp")]


def attempt(call):
    """What a call returns, and None; or None, and the words of its refusal."""
    try:
        return call(), None
    except Exception as error:  # of any class: it refuses in many ways
        return None, f"{type(error).__name__}: {str(error).splitlines()[0] if str(error) else ''}"


def utc(of, name):
    """A date, which an older version gives with no time zone."""
    found = getattr(of, f"{name}_utc", None) if hasattr(type(of), f"{name}_utc") else getattr(of, name)
    return found and found.replace(tzinfo=timezone.utc)


def text_octets(encoding):
    """The text of a string, as `cryptography` reads it; the octets of a BIT STRING."""
    tag, octets = encoding[0], bytes(contents(encoding))
    if tag == 0x03:
        return octets
    try:
        return octets.decode({0x1E: "utf-16-be", 0x1C: "utf-32-be"}.get(tag, "utf-8"))
    except UnicodeDecodeError:
        return octets


def name_here(name):
    return [(number, text_octets(value)) for number, value in attributes(name)]


def name_there(name):
    return [(it.oid.dotted_string, it.value) for it in name]


def general_name(name):
    """A GeneralName in the form of values_here.py."""
    if isinstance(name, x509.DirectoryName):
        return 4, name_there(name.value)
    if isinstance(name, x509.OtherName):
        return 0, (name.type_id.dotted_string, name.value)
    if isinstance(name, x509.RegisteredID):
        return 8, name.value.dotted_string
    if isinstance(name, x509.IPAddress):
        value = name.value
        is_network = isinstance(value, (ipaddress.IPv4Network, ipaddress.IPv6Network))
        return 7, value.network_address.packed + value.netmask.packed if is_network else value.packed
    kind = {x509.RFC822Name: 1, x509.DNSName: 2, x509.UniformResourceIdentifier: 6}[type(name)]
    return kind, name.value.encode()


def plain(value):
    """What values_here.py says of a GeneralName, with texts in the place of octets of strings."""
    if isinstance(value, tuple) and len(value) == 2 and value[0] == 4 and isinstance(value[1], list):
        return 4, [(number, text_octets(it)) for number, it in value[1]]
    if isinstance(value, tuple) and len(value) == 2 and value[0] == 8 and isinstance(value[1], bytes):
        return 8, identifier(b"\x06" + bytes([len(value[1])]) + value[1])
    if isinstance(value, (list, tuple)):
        return type(value)(map(plain, value))
    return value


def names(list_):
    return None if list_ is None else [general_name(it) for it in list_]


def usage(value):
    """The bits of a KeyUsage; the last two are there only with keyAgreement."""
    wanted = USAGES if value.key_agreement else USAGES[:7]
    return sum(getattr(value, name) << at for at, name in enumerate(wanted))


def reasons(flags):
    """The bits of ReasonFlags (RFC 5280 4.2.1.13), where bit 0 is unused."""
    return None if flags is None else sum(1 << REASONS.index(it.name) for it in flags)


def relative(name):
    """A name relative to the issuer of the list, as a directory name."""
    return None if name is None else (4, name_there(name))


def point(value):
    return names(value.full_name), relative(value.relative_name), reasons(value.reasons), names(value.crl_issuer)


def issuing_point(value):
    flags = value.only_contains_user_certs, value.only_contains_ca_certs, value.indirect_crl, value.only_contains_attribute_certs
    return names(value.full_name), relative(value.relative_name), reasons(value.only_some_reasons), *flags


def policy(value):
    """The identifier of a policy, and of each qualifier a text, or that it is a notice."""
    qualifiers = value.policy_qualifiers or []
    return value.policy_identifier.dotted_string, [it if isinstance(it, str) else "notice" for it in qualifiers]


def when(value):
    return utc(value, "invalidity_date")


PLAIN = {
    x509.SubjectKeyIdentifier: lambda it: it.digest,
    x509.KeyUsage: usage,
    x509.SubjectAlternativeName: names,
    x509.IssuerAlternativeName: names,
    x509.CertificateIssuer: names,
    x509.BasicConstraints: lambda it: (it.ca, it.path_length),
    x509.CRLNumber: lambda it: it.crl_number,
    x509.DeltaCRLIndicator: lambda it: it.crl_number,
    x509.CRLReason: lambda it: bytes([CODES[it.reason.name]]),
    x509.InvalidityDate: when,
    x509.IssuingDistributionPoint: issuing_point,
    x509.NameConstraints: lambda it: [names(it.permitted_subtrees), names(it.excluded_subtrees)],
    x509.CRLDistributionPoints: lambda it: list(map(point, it)),
    x509.FreshestCRL: lambda it: list(map(point, it)),
    x509.CertificatePolicies: lambda it: list(map(policy, it)),
    x509.AuthorityKeyIdentifier: lambda it: (it.key_identifier, names(it.authority_cert_issuer), it.authority_cert_serial_number),
    x509.PolicyConstraints: lambda it: (it.require_explicit_policy, it.inhibit_policy_mapping),
    x509.ExtendedKeyUsage: lambda it: [one.dotted_string for one in it],
    x509.InhibitAnyPolicy: lambda it: it.skip_certs,
    x509.AuthorityInformationAccess: lambda it: [(one.access_method.dotted_string, general_name(one.access_location)) for one in it],
    x509.SubjectInformationAccess: lambda it: [(one.access_method.dotted_string, general_name(one.access_location)) for one in it],
    x509.UnrecognizedExtension: lambda it: it.value,
}


def extension_there(extension):
    """An extension in plain form; None in the place of a value of another class."""
    form = PLAIN.get(type(extension.value))
    return extension.oid.dotted_string, extension.critical, form and form(extension.value)


def qualifiers_here(value):
    """Policies in the form that `policy` has."""
    return [(number, ["notice" if kind != "1.3.6.1.5.5.7.2.1" else bytes(contents(it)).decode("latin-1") for kind, it in found])
            for number, found in value]


def extension_here(extension):
    number, is_critical, value = values_here.value(extension)
    if number == "2.5.29.32" and isinstance(value, list):
        value = qualifiers_here(value)
    return number, is_critical, plain(value)


class Beside:
    """Compares messages, and keeps what is found in a tally."""

    def __init__(self, tally):
        self.tally = tally

    def message(self, kind, octets):
        """Compares a message of a class that `cryptography` reads."""
        call = getattr(self, kind.lower(), None)
        if call and self.tally.is_new(f"{PEER} {kind}", octets):
            try:
                call(kind, octets)
            except derproved.Error as error:
                self.tally.differ(kind, PEER, INSIDE_REFUSED, octets, error.number, "read")

    def read(self, kind, octets, load):
        """What both read; None where one refuses."""
        there, told = attempt(lambda: load(octets))
        here = refused(getattr(derproved, kind), octets)
        return (getattr(derproved, kind)(octets), there) if self.tally.answer(kind, PEER, octets, here, told) else None

    def members(self, kind, octets, pairs):
        """Members by name: the value here, and the call that has it there."""
        for name, here, there in pairs:
            found, told = attempt(there)
            self.tally.compare(kind, PEER, name, octets, here, found if told is None else told)

    def extensions(self, kind, octets, here, there):
        """Extensions of a message, each with its value."""
        here = list(here)
        found, told = attempt(lambda: list(there()))
        mine = [extension_here(it) for it in here]
        if told is not None:
            is_refused = any("refused " in str(it[2]) for it in mine)
            self.tally.answer(f"extensions of {kind}", PEER, octets, "refused" if is_refused else None, told)
            return
        self.tally.compare(kind, PEER, "extensions", octets, [it[:2] for it in mine], [(it.oid.dotted_string, it.critical) for it in found])
        for held, one, it in zip(here, mine, found):
            other = extension_there(it)
            if other[2] is not None:
                mine = bytes(held.value) if isinstance(it.value, x509.UnrecognizedExtension) else one[2]
                self.tally.compare(f"extension {one[0]}", PEER, "value", bytes(held.value), mine, other[2])

    def certificate(self, kind, octets):
        read = self.read(kind, octets, x509.load_der_x509_certificate)
        if not read:
            return
        here, there = read
        self.members(kind, octets, [
            ("version", here.version, lambda: there.version.value + 1),
            ("serial_number", integer(here.serial_number), lambda: there.serial_number),
            ("not_before", here.not_before, lambda: utc(there, "not_valid_before")),
            ("not_after", here.not_after, lambda: utc(there, "not_valid_after")),
            ("issuer", name_here(here.issuer), lambda: name_there(there.issuer)),
            ("subject", name_here(here.subject), lambda: name_there(there.subject)),
            ("tbs_certificate", bytes(here.tbs_certificate), lambda: there.tbs_certificate_bytes),
            ("signature_value", bytes(contents(here.signature_value))[1:], lambda: there.signature),
            ("signature_algorithm", algorithm(here.signature_algorithm), lambda: there.signature_algorithm_oid.dotted_string),
        ])
        self.extensions(kind, octets, here.extensions, lambda: there.extensions)
        self.key(bytes(here.subject_public_key_info))

    def certificatelist(self, kind, octets):
        read = self.read(kind, octets, x509.load_der_x509_crl)
        if not read:
            return
        here, there = read
        entries = list(here.revoked_certificates)
        self.members(kind, octets, [
            ("this_update", here.this_update, lambda: utc(there, "last_update")),
            ("next_update", here.next_update, lambda: utc(there, "next_update")),
            ("issuer", name_here(here.issuer), lambda: name_there(there.issuer)),
            ("tbs_cert_list", bytes(here.tbs_cert_list), lambda: there.tbs_certlist_bytes),
            ("signature_value", bytes(contents(here.signature_value))[1:], lambda: there.signature),
            ("signature_algorithm", algorithm(here.signature_algorithm), lambda: there.signature_algorithm_oid.dotted_string),
            ("entries", [integer(it.user_certificate) for it in entries], lambda: [it.serial_number for it in there]),
            ("dates of entries", [it.revocation_date for it in entries], lambda: [utc(it, "revocation_date") for it in there]),
        ])
        self.extensions(kind, octets, here.extensions, lambda: there.extensions)
        for one, other in zip(entries, there):
            if one.crl_entry_extensions is not None:
                self.extensions("RevokedCertificate", bytes(one), one.extensions, lambda: other.extensions)

    def certificationrequest(self, kind, octets):
        read = self.read(kind, octets, x509.load_der_x509_csr)
        if not read:
            return
        here, there = read
        asked = [it for it in here.attributes if identifier(it.type) == "1.2.840.113549.1.9.14"]
        self.members(kind, octets, [
            ("subject", name_here(here.subject), lambda: name_there(there.subject)),
            ("certification_request_info", bytes(here.certification_request_info), lambda: there.tbs_certrequest_bytes),
            ("signature", bytes(contents(here.signature))[1:], lambda: there.signature),
            ("signature_algorithm", algorithm(here.signature_algorithm), lambda: there.signature_algorithm_oid.dotted_string),
        ])
        held = [derproved.Extension(it) for one in asked for it in encodings(contents(one.values))]
        self.extensions(kind, octets, held, lambda: there.extensions)
        self.key(bytes(here.subject_pk_info))

    def ocsprequest(self, kind, octets):
        read = self.read(kind, octets, ocsp.load_der_ocsp_request)
        if not read:
            return
        body = derproved.TbsRequest(read[0].tbs_request)
        asked = derproved.CertId(derproved.Request(next(encodings(body.request_list))).req_cert)
        held = [derproved.Extension(it) for it in encodings(contents(body.request_extensions))] if body.request_extensions else []
        self.cert_id(kind, octets, asked, read[1])
        self.extensions(kind, octets, held, lambda: read[1].extensions)

    def cert_id(self, kind, octets, here, there):
        self.members(kind, octets, [
            ("issuer_name_hash", bytes(contents(here.issuer_name_hash)), lambda: there.issuer_name_hash),
            ("issuer_key_hash", bytes(contents(here.issuer_key_hash)), lambda: there.issuer_key_hash),
            ("serial_number", integer(here.serial_number), lambda: there.serial_number),
        ])

    def ocspresponse(self, kind, octets):
        read = self.read(kind, octets, ocsp.load_der_ocsp_response)
        if not read:
            return
        here, there = read
        self.members(kind, octets, [("response_status", here.response_status, lambda: there.response_status.value)])
        if here.response is None:
            return
        basic = derproved.BasicOcspResponse(contents(here.response))
        single = list(basic.responses)
        responder = bytes(basic.responder_id)
        self.members(kind, octets, [
            ("tbs_response_data", bytes(basic.tbs_response_data), lambda: there.tbs_response_bytes),
            ("signature", bytes(contents(basic.signature))[1:], lambda: there.signature),
            ("signature_algorithm", algorithm(basic.signature_algorithm), lambda: there.signature_algorithm_oid.dotted_string),
            ("produced_at", basic.produced_at, lambda: utc(there, "produced_at")),
            ("responder", responder_here(responder), lambda: there.responder_key_hash or name_there(there.responder_name)),
            ("certs", certs_here(basic), lambda: [it.public_bytes(serialization.Encoding.DER) for it in there.certificates]),
        ])
        self.extensions(kind, octets, basic.extensions, lambda: there.extensions)
        answers, told = attempt(lambda: list(there.responses))
        self.tally.compare(kind, PEER, "responses", octets, len(single), len(answers) if told is None else told)
        for one, other in zip(single, answers or ()):
            self.cert_id("SingleResponse", bytes(one), derproved.CertId(one.cert_id), other)
            self.members("SingleResponse", bytes(one), [
                ("cert_status", one.cert_status.value, lambda: other.certificate_status.value),
                ("this_update", one.this_update, lambda: utc(other, "this_update")),
                ("next_update", one.next_update, lambda: utc(other, "next_update")),
                ("revocation_time", one.revocation_time, lambda: utc(other, "revocation_time")),
            ])

    def contentinfo(self, kind, octets):
        """The certificates of a signed message."""
        read = self.read(kind, octets, pkcs7.load_der_pkcs7_certificates)
        if not read or identifier(read[0].content_type) != "1.2.840.113549.1.7.2":
            return
        signed = derproved.SignedData(contents(read[0].content))
        held = sorted(map(bytes, encodings(signed.certificates or b"")))
        self.members(kind, octets, [("certificates", held, lambda: sorted(it.public_bytes(serialization.Encoding.DER) for it in read[1]))])

    def subjectpublickeyinfo(self, kind, octets):
        self.key(octets)

    def key(self, octets):
        """A public key: its numbers."""
        kind = "SubjectPublicKeyInfo"
        if not self.tally.is_new(f"{PEER} key", octets):
            return
        read = self.read(kind, octets, serialization.load_der_public_key)
        if read and isinstance(read[1], rsa.RSAPublicKey):
            mine, numbers = derproved.RsaPublicKey(contents(read[0].subject_public_key)[1:]), read[1].public_numbers()
            self.members("RsaPublicKey", octets, [
                ("modulus", integer(mine.modulus), lambda: numbers.n),
                ("public_exponent", integer(mine.public_exponent), lambda: numbers.e),
            ])
        elif read and isinstance(read[1], ec.EllipticCurvePublicKey):
            point, numbers = bytes(contents(read[0].subject_public_key))[1:], read[1].public_numbers()
            size = (len(point) - 1) // (2 if point[0] == 4 else 1)
            self.members("ECPoint", octets, [("x", int.from_bytes(point[1 : 1 + size]), lambda: numbers.x)])

    def private(self, kind, octets):
        read = self.read(kind, octets, lambda it: serialization.load_der_private_key(it, None))
        if not read:
            return
        held = octets if kind != "PrivateKeyInfo" else bytes(contents(read[0].private_key))
        if isinstance(read[1], rsa.RSAPrivateKey):
            mine, numbers = derproved.RsaPrivateKey(held), read[1].private_numbers()
            self.members("RsaPrivateKey", octets, [
                (name, integer(getattr(mine, name)), lambda other=other: getattr(numbers, other)) for name, other in NUMBERS
            ])
        elif isinstance(read[1], ec.EllipticCurvePrivateKey):
            here, there = derproved.EcPrivateKey(held), read[1].private_numbers().private_value
            self.members("EcPrivateKey", octets, [("private_key", int.from_bytes(contents(here.private_key)), lambda: there)])

    privatekeyinfo = rsaprivatekey = ecprivatekey = private


def algorithm(encoding):
    return identifier(derproved.AlgorithmIdentifier(encoding).oid)


def responder_here(octets):
    held = contents(octets)
    return bytes(contents(held)) if octets[0] == 0xA2 else name_here(held)


def certs_here(basic):
    return [] if basic.certs is None else [bytes(it) for it in encodings(contents(basic.certs))]
