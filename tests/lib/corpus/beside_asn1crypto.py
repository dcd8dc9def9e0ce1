"""What derproved says of octets, member by member, beside asn1crypto, and of all that stands in the members."""

from datetime import datetime

import derproved
from asn1crypto import core, x509
from derproved import contents, encodings

from .schema import ALIASES, CONTENTS, EXTENSIONS, INSIDE, PARAMETERS, PEERS, WITHIN
from .told_here import attributes, identifier, refused

PEER = "asn1crypto"
BASIC = "1.3.6.1.5.5.7.48.1.1"
STAMP = "1.2.840.113549.1.9.16.1.4"
CERTIFICATE_BAG, SAFE_BAG = "1.2.840.113549.1.12.10.1.3", "1.2.840.113549.1.12.10.1.6"
SHROUDED_BAG, KEY_BAG = "1.2.840.113549.1.12.10.1.2", "1.2.840.113549.1.12.10.1.1"
NAME_KINDS = ("other_name", "rfc822_name", "dns_name", "x400_address", "directory_name", "edi_party_name",
              "uniform_resource_identifier", "ip_address", "registered_id")


def raw(child):
    """The octets of a child as asn1crypto found it; None where it is absent, and has its default or none."""
    if isinstance(child, tuple):
        return child[3] + child[4] + child[5]
    return None if isinstance(child, core.Void) or child._header is None else child.dump()


def children(value):
    """The octets of each field of a SEQUENCE, by its name, and of what has no name by its number."""
    value._parse_children()
    names = [field[0] for field in value._fields]
    return {names[at] if at < len(names) else str(at): raw(child) for at, child in enumerate(value.children)}


def items(value):
    """The octets of each item of a SEQUENCE OF or SET OF."""
    value._parse_children()
    return [raw(child) for child in value.children]


def fields_there(kind, octets):
    """The octets of each member of a class, and of the members of the one that WITHIN names."""
    value = PEERS[kind].load(octets, strict=True)
    found = children(value)
    inner = WITHIN.get(kind)
    if inner and found[inner] is not None:
        held = value[inner]
        found |= {f"{inner}.{name}": it for name, it in children(held).items()}
    return found


def there_refused(kind, octets, deep=True):
    """What asn1crypto says against octets; None where it reads them: if `deep`, with all that it knows within them."""
    try:
        fields_there(kind, octets)
        if deep:
            PEERS[kind].load(octets, strict=True).native
    except Exception as error:  # of any class: it refuses in many ways
        return f"{type(error).__name__}: {str(error).splitlines()[0] if str(error) else ''}"
    return None


def read_here(kind, octets):
    """The message of a class; an item stands at the front, and has to be all of the octets."""
    message = getattr(derproved, kind)(octets)
    if len(bytes(message)) != len(octets):
        raise derproved.Error(3, "octets are left over", len(bytes(message)))
    return message


class Beside:
    """Compares messages, and all that stands in them, and keeps what is found in a tally."""

    def __init__(self, tally):
        self.tally = tally

    def message(self, kind, octets, deep=False):
        """Compares a message of a class; `deep` where it stands in no other."""
        octets = bytes(octets)
        if not self.tally.is_new(kind, octets):
            return
        here = refused(lambda it: read_here(kind, it), octets)
        if not self.tally.answer(kind, PEER, octets, here, there_refused(kind, octets, deep)):
            return
        found = read_here(kind, octets)
        self.members(kind, found, fields_there(kind, octets), octets)
        self.numbers(kind, found, octets)
        self.lists(kind, found, octets)
        for member, place in INSIDE.get(kind, {}).items():
            self.at(place, getattr(found, member))
        getattr(self, f"in_{kind}", lambda _: None)(found)

    def members(self, kind, message, there, octets):
        """Each member that is octets: the same octets there."""
        for name in dir(type(message)):
            value = getattr(message, name)
            if name.startswith("_") or not (value is None or isinstance(value, memoryview)):
                continue
            other = ALIASES.get((kind, name), name)
            if other not in there and f"{WITHIN.get(kind)}.{name}" in there:
                other = f"{WITHIN[kind]}.{name}"
            if name in ("identifier", "value") and other not in there:
                continue  # the contents octets of another member
            if other in there or value is not None:
                self.tally.compare(kind, PEER, name, octets, value and bytes(value), there.get(other, "no such member"))
            if value is not None:
                self.value(kind, name, value)

    def value(self, kind, name, encoding):
        """A member that is a number or an identifier."""
        octets = bytes(encoding)
        if octets[0] == 0x06:
            self.at("identifier", octets)
        elif octets[0] == 0x02 and refused(derproved.unsigned_integer, octets) is None:
            there = core.Integer.load(octets).native
            self.tally.compare("INTEGER", PEER, f"{kind}.{name}", octets, derproved.unsigned_integer(octets), there)

    def numbers(self, kind, message, octets):
        """The members that are numbers or dates."""
        there = PEERS[kind].load(octets, strict=True)
        for name, wanted in NUMBERS.get(kind, {}).items():
            self.tally.compare(kind, PEER, name, octets, getattr(message, name), wanted(there))

    def lists(self, kind, message, octets):
        """The members that are lists of messages: their octets, and each of them."""
        there = PEERS[kind].load(octets, strict=True)
        for name, (of, wanted) in LISTS.get(kind, {}).items():
            try:
                found = [bytes(it) for it in getattr(message, name)]
            except derproved.Error as error:
                found = f"refused {error.number}"
            self.tally.compare(kind, PEER, name, octets, found, wanted(there))
            for item in found if isinstance(found, list) else ():
                self.message(of, item)

    def at(self, place, encoding):
        """What stands in a member, as INSIDE says."""
        if encoding is None or len(encoding) == 0:
            return
        if place[0] == "<":
            self.at(place[1:], contents(encoding))
        elif place[0] == "*":
            found = [bytes(it) for it in encodings(encoding)]
            self.list_of(found, encoding)
            for it in found:
                self.at(place[1:], it)
        elif place in PEERS:
            self.message(place, encoding)
        else:
            octets = bytes(encoding)
            if self.tally.is_new(place, octets):
                getattr(self, place.lower())(octets)

    def list_of(self, found, encoding):
        """The items of a list, whatever its tag."""
        octets = bytes(encoding)
        there = "refused"
        try:
            there = items(core.SequenceOf.load(b"\x30" + octets[1:], spec=core.Any))
        except ValueError:
            pass
        self.tally.compare("list", PEER, "items", octets, found, there)

    def leaf(self, kind, octets, call, there):
        """A value that a call returns, beside what asn1crypto makes of it."""
        here, told = refused(call, octets), None
        try:
            other = there(octets)
        except Exception as error:  # of any class: it refuses in many ways
            told = f"{type(error).__name__}: {error}".splitlines()[0]
        if self.tally.answer(kind, PEER, octets, here, told):
            self.tally.compare(kind, PEER, "value", octets, call(octets), other)

    def name(self, octets):
        def there(it):
            parts = x509.Name.load(it, strict=True).chosen
            return [(one["type"].dotted, children(x509.NameTypeAndValue.load(one.dump()))["value"]) for part in parts for one in part]

        self.leaf("Name", octets, attributes, there)
        if refused(attributes, octets) is None:
            for it in derproved.name_attributes(octets):
                self.message("AttributeTypeAndValue", bytes(it))

    def generalname(self, octets):
        def here(it):
            kind, value = derproved.general_name(it)
            return NAME_KINDS[kind], bytes(value)

        def there(it):
            name = x509.GeneralName.load(it, strict=True)
            return name.name, name.chosen.untag().dump() if name.name == "directory_name" else name.chosen.contents

        self.leaf("GeneralName", octets, here, there)
        if refused(here, octets) is None and here(octets)[0] == "directory_name":
            self.at("Name", here(octets)[1])

    def identifier(self, octets):
        self.leaf("OBJECT IDENTIFIER", octets, identifier, lambda it: core.ObjectIdentifier.load(it, strict=True).dotted)

    def number(self, octets):
        self.leaf("INTEGER", octets, derproved.unsigned_integer, lambda it: core.Integer.load(it, strict=True).native)

    def bits(self, octets):
        def there(it):
            bits = core.BitString.load(it, strict=True).native
            return sum(bit << at for at, bit in enumerate(bits[:16]))

        self.leaf("named bits", octets, derproved.named_bits, there)

    def time(self, octets):
        def there(it):
            return x509.Time.load(it, strict=True).native

        self.leaf("Time", octets, derproved.time, there)

    def in_Extension(self, extension):
        place = EXTENSIONS.get(identifier(extension.extn_id))
        if place:
            self.at(place, bytes(extension.value))

    def in_AlgorithmIdentifier(self, algorithm):
        place = PARAMETERS.get(identifier(algorithm.oid))
        if place:
            self.at(place, algorithm.parameters)

    def in_SubjectPublicKeyInfo(self, key):
        if identifier(derproved.AlgorithmIdentifier(key.algorithm).oid) == "1.2.840.113549.1.1.1":
            self.at("RsaPublicKey", contents(key.subject_public_key)[1:])

    def in_PrivateKeyInfo(self, key):
        kind = {"1.2.840.113549.1.1.1": "RsaPrivateKey", "1.2.840.10045.2.1": "EcPrivateKey"}
        place = kind.get(identifier(derproved.AlgorithmIdentifier(key.private_key_algorithm).oid))
        if place:
            self.at(place, contents(key.private_key))

    def in_OcspResponse(self, answer):
        if answer.response is not None and identifier(answer.response_type) == BASIC:
            self.at("BasicOcspResponse", contents(answer.response))

    def in_ContentInfo(self, message):
        place = CONTENTS.get(identifier(message.content_type))
        if place:
            self.at(place, message.content)

    def in_SignedData(self, message):
        if identifier(message.e_content_type) == STAMP and message.e_content is not None:
            self.at("<<TstInfo", message.e_content)

    def in_SignerInfo(self, signer):
        if bytes(signer.sid)[0] == 0x30:
            self.at("IssuerAndSerialNumber", signer.sid)
        for it in signer.signed_attributes:
            if identifier(it.type) == "1.2.840.113549.1.9.16.2.47":
                self.at("*SigningCertificateV2", it.values)

    def in_EnvelopedData(self, message):
        for it in map(bytes, encodings(message.recipient_infos)):
            if it[0] == 0x30:
                self.at("KeyTransRecipientInfo", it)

    def in_KeyTransRecipientInfo(self, recipient):
        if bytes(recipient.rid)[0] == 0x30:
            self.at("IssuerAndSerialNumber", recipient.rid)

    def in_DistributionPoint(self, point):
        name = point.distribution_point and contents(point.distribution_point)
        if name and name[0] == 0xA0:
            self.at("*GeneralName", name)

    in_IssuingDistributionPoint = in_DistributionPoint

    def in_Pfx(self, file):
        """The bags that are not encrypted, and the messages that hold the others."""
        for it in map(bytes, encodings(data_of(file.auth_safe))):
            self.message("ContentInfo", it)
            self.at("*SafeBag", data_of(it))

    def in_SafeBag(self, bag):
        inside = {CERTIFICATE_BAG: "<CertBag", KEY_BAG: "<PrivateKeyInfo", SHROUDED_BAG: "<EncryptedPrivateKeyInfo", SAFE_BAG: "<*SafeBag"}
        place = inside.get(identifier(bag.bag_id))
        if place:
            self.at(place, bag.bag_value)

    def in_CertBag(self, bag):
        if identifier(bag.cert_id) == "1.2.840.113549.1.9.22.1":
            self.at("<<Certificate", bag.cert_value)


def data_of(octets):
    """The octets of a message of type data; none of another."""
    if refused(derproved.ContentInfo, octets) is None:
        message = derproved.ContentInfo(octets)
        if identifier(message.content_type) == "1.2.840.113549.1.7.1":
            return contents(contents(message.content))
    return b""


def moment(value):
    """A date there, in whole seconds."""
    return value.native.replace(microsecond=0) if isinstance(value.native, datetime) else None


def number_of(value):
    return int(value)


def is_revoked(response):
    return response["cert_status"].name == "revoked"


def of_items(name, inner=None):
    """The octets of the items of a list in a member."""
    def find(value):
        held = (value[inner] if inner else value)[name]
        return [] if isinstance(held, core.Void) else items(held)

    return find


NUMBERS = {
    "Certificate": {
        "version": lambda it: number_of(it["tbs_certificate"]["version"]) + 1,
        "not_before": lambda it: moment(it["tbs_certificate"]["validity"]["not_before"]),
        "not_after": lambda it: moment(it["tbs_certificate"]["validity"]["not_after"]),
    },
    "Extension": {"is_critical": lambda it: it["critical"].native},
    "CertificateList": {
        "version": lambda it: number_of(it["tbs_cert_list"]["version"]) + 1 if it["tbs_cert_list"]["version"].native else 1,
        "this_update": lambda it: moment(it["tbs_cert_list"]["this_update"]),
        "next_update": lambda it: moment(it["tbs_cert_list"]["next_update"]),
    },
    "RevokedCertificate": {"revocation_date": lambda it: moment(it["revocation_date"])},
    "PrivateKeyInfo": {"version": lambda it: number_of(it["version"]) + 1},
    "OcspResponse": {"response_status": lambda it: number_of(it["response_status"])},
    "BasicOcspResponse": {"produced_at": lambda it: moment(it["tbs_response_data"]["produced_at"])},
    "SingleResponse": {
        "this_update": lambda it: moment(it["this_update"]),
        "next_update": lambda it: moment(it["next_update"]),
        "cert_status": lambda it: derproved.CertStatus(("good", "revoked", "unknown").index(it["cert_status"].name)),
        "revocation_time": lambda it: moment(it["cert_status"].chosen["revocation_time"]) if is_revoked(it) else None,
    },
    "SignedData": {"version": lambda it: number_of(it["version"])},
    "SignerInfo": {"version": lambda it: number_of(it["version"])},
}

LISTS = {
    "Certificate": {"extensions": ("Extension", of_items("extensions", "tbs_certificate"))},
    "CertificateList": {
        "revoked_certificates": ("RevokedCertificate", of_items("revoked_certificates", "tbs_cert_list")),
        "extensions": ("Extension", of_items("crl_extensions", "tbs_cert_list")),
    },
    "RevokedCertificate": {"extensions": ("Extension", of_items("crl_entry_extensions"))},
    "CertificationRequest": {"attributes": ("Attribute", of_items("attributes", "certification_request_info"))},
    "BasicOcspResponse": {
        "responses": ("SingleResponse", of_items("responses", "tbs_response_data")),
        "extensions": ("Extension", of_items("response_extensions", "tbs_response_data")),
    },
    "SingleResponse": {"extensions": ("Extension", of_items("single_extensions"))},
    "SignedData": {"signer_infos": ("SignerInfo", of_items("signer_infos"))},
    "SignerInfo": {
        "signed_attributes": ("Attribute", of_items("signed_attrs")), "unsigned_attributes": ("Attribute", of_items("unsigned_attrs")),
    },
}
