"""The fields of certificates, lists of revoked ones, keys, requests, answers about the status of certificates and signed
messages, beside `cryptography`.

The certificates are those of the system, and of the PEM files that DER_TEST_FILES names.
"""

import base64
import copy
import gc
import hashlib
import inspect
import os
import pickle
import re
import sys
import unittest
from datetime import timezone
from pathlib import Path

import derproved

try:
    from cryptography import x509
    from cryptography.hazmat.primitives import hashes, serialization
    from cryptography.hazmat.primitives.asymmetric import ec
    from cryptography.x509 import ocsp
except ImportError:
    x509 = None

SYSTEM = Path("/etc/ssl/certs/ca-certificates.crt")
# a key, an entry of a list with two extensions, a name with three attributes in two parts
KEY = bytes.fromhex("302a300506032b657003210019bf44096984cdfe8541bac167dc3b96c85086aa30b6b6cb0c5c38ad703166e1")
REASON, CONSTRAINTS = bytes.fromhex("300a0603551d1504030a0101"), bytes.fromhex("300c0603551d130101ff04023000")
ENTRY = bytes.fromhex("302e020105170d3236303130313030303030305a301a") + REASON + CONSTRAINTS
NAME = bytes.fromhex("302331123007060355040a0c00300706035504" + "0b0c00310d300b06035504030c046e616d65")


# What cryptography reads and derproved refuses: the number, whether a certificate is such a one, and the clause.
DIFFERENCES = [
    (13, lambda it: it.not_valid_before_utc.year < 1970, "RFC 5280 4.1.2.5.1: UTCTime has years from 1950 on, and derproved from 1970 on"),
]
# Extensions whose values cryptography encodes in another way than they came, with the clause.
ENCODED_ANEW = {
    "2.5.29.15": "X.690 11.2.2: keyUsage with zero bits at its end",
    "2.5.29.32": "RFC 5280 4.2.1.4: a DisplayText of another type than UTF8String",
}


def pem_files() -> list[Path]:
    named = [Path(name) for name in os.environ.get("DER_TEST_FILES", "").split(os.pathsep) if name]
    return named + [path for path in [SYSTEM] if path.exists()]


def blocks(label: str) -> list[bytes]:
    """The octets of the blocks with this label in all PEM files."""
    pattern = f"-----BEGIN {label}-----\n(.*?)-----END {label}-----"
    found = [text for path in pem_files() for text in re.findall(pattern, path.read_text(), re.S)]
    return [base64.b64decode(text) for text in found]


def identifier_of(contents: bytes) -> str:
    """An OBJECT IDENTIFIER in dotted form, of its contents octets (X.690 8.19)."""
    arcs, arc = [], 0
    for octet in contents:
        arc = arc << 7 | octet & 0x7F
        if octet < 0x80:
            arcs.append(arc)
            arc = 0
    first = min(arcs[0] // 40, 2)
    return ".".join(str(arc) for arc in [first, arcs[0] - 40 * first, *arcs[1:]])


def in_utc(moment):
    return moment.replace(tzinfo=timezone.utc)


@unittest.skipIf(x509 is None, "cryptography is not there")
class BesideCryptography(unittest.TestCase):
    def compare_extensions(self, own, others) -> int:
        found = list(own)
        self.assertEqual({type(e.identifier) for e in found} - {bytes}, set())
        self.assertEqual([identifier_of(e.identifier) for e in found], [e.oid.dotted_string for e in others])
        self.assertEqual([e.is_critical for e in found], [e.critical for e in others])
        for one, other in zip(found, others):
            if isinstance(other.value, x509.UnrecognizedExtension):
                self.assertEqual(bytes(one.value), other.value.value)
            elif hasattr(other.value, "public_bytes") and other.value.public_bytes() != one.value:
                self.assertIn(other.oid.dotted_string, ENCODED_ANEW)
        return len(found)

    def is_on_list(self, octets: bytes, other) -> bool:
        """Whether a certificate is refused as the list of differences says."""
        numbers = [number for number, is_such, _ in DIFFERENCES if is_such(other)]
        if numbers:
            with self.assertRaises(derproved.Error) as caught:
                derproved.Certificate(octets)
            self.assertEqual([caught.exception.number], numbers)
        return bool(numbers)

    def compare_rules(self, octets: bytes, other) -> None:
        broken = derproved.check_rfc5280(octets)
        rule = derproved.CertificateRule
        self.assertEqual(rule.SERIAL_NUMBER_IS_POSITIVE in broken, other.serial_number <= 0)
        self.assertEqual(rule.ISSUER_IS_NOT_EMPTY in broken, not list(other.issuer))
        self.assertEqual(rule.EXTENSIONS_IN_VERSION_3 in broken, len(other.extensions) > 0 and other.version.value != 2)
        uncritical = {e.oid.dotted_string for e in other.extensions if not e.critical}
        self.assertEqual(rule.NAME_CONSTRAINTS_IS_CRITICAL in broken, "2.5.29.30" in uncritical)
        critical = {e.oid.dotted_string for e in other.extensions if e.critical}
        self.assertEqual(rule.AUTHORITY_KEY_IDENTIFIER_IS_NOT_CRITICAL in broken, "2.5.29.35" in critical)

    def compare_certificate(self, octets: bytes, other) -> None:
        own = derproved.Certificate(octets)
        self.assertEqual(bytes(own), octets)
        self.assertEqual(derproved.canonical("cert", octets), octets)
        self.compare_rules(octets, other)
        self.assertEqual(bytes(own.tbs_certificate), other.tbs_certificate_bytes)
        self.assertEqual(bytes(derproved.signed_octets(octets)), other.tbs_certificate_bytes)
        self.assertEqual(bytes(derproved.contents(own.signature_value))[1:], other.signature)
        self.assertEqual(int.from_bytes(derproved.contents(own.serial_number), signed=True), other.serial_number)
        self.assertEqual(bytes(own.issuer), other.issuer.public_bytes())
        self.assertEqual(bytes(own.subject), other.subject.public_bytes())
        self.assertEqual(own.version - 1, other.version.value)
        self.assertEqual(own.not_before, in_utc(other.not_valid_before_utc))
        self.assertEqual(own.not_after, in_utc(other.not_valid_after_utc))
        key = other.public_key().public_bytes(
            serialization.Encoding.DER, serialization.PublicFormat.SubjectPublicKeyInfo
        )
        self.assertEqual(bytes(own.subject_public_key_info), key)
        self.assertEqual(bytes(derproved.SubjectPublicKeyInfo(own.subject_public_key_info)), key)
        self.compare_extensions(own.extensions, list(other.extensions))

    def test_certificates(self) -> None:
        count = 0
        for path in pem_files():
            pem = path.read_bytes()
            if b"BEGIN CERTIFICATE-----" not in pem:
                continue
            for other in x509.load_pem_x509_certificates(pem):
                octets = other.public_bytes(serialization.Encoding.DER)
                with self.subTest(subject=other.subject.rfc4514_string()):
                    if not self.is_on_list(octets, other):
                        self.compare_certificate(octets, other)
                count += 1
        self.assertGreater(count, 0)

    def test_lists(self) -> None:
        for octets in blocks("X509 CRL"):
            other = x509.load_der_x509_crl(octets)
            own = derproved.CertificateList(octets)
            self.assertEqual(bytes(own.tbs_cert_list), other.tbs_certlist_bytes)
            self.assertEqual(bytes(own.issuer), other.issuer.public_bytes())
            self.assertEqual(own.this_update, in_utc(other.last_update_utc))
            self.assertEqual(own.next_update, in_utc(other.next_update_utc))
            self.compare_extensions(own.extensions, list(other.extensions))
            entries = list(own.revoked_certificates)
            self.assertEqual(len(entries), len(list(other)))
            for one, entry in zip(entries, other):
                serial = int.from_bytes(derproved.contents(one.user_certificate), signed=True)
                self.assertEqual(serial, entry.serial_number)
                self.assertEqual(one.revocation_date, in_utc(entry.revocation_date_utc))
                self.compare_extensions(one.extensions, list(entry.extensions))


@unittest.skipIf(x509 is None, "cryptography is not there")
class MessagesBesideCryptography(unittest.TestCase):
    def compare_name(self, own, other) -> None:
        found = list(derproved.name_attributes(own))
        self.assertEqual([identifier_of(a.identifier) for a in found], [a.oid.dotted_string for a in other])
        values = [bytes(derproved.contents(a.value)).decode("utf-8") for a in found]
        self.assertEqual(values, [a.value for a in other])

    def test_names(self) -> None:
        for octets in blocks("CERTIFICATE"):
            other = x509.load_der_x509_certificate(octets)
            if any(is_such(other) for _, is_such, _ in DIFFERENCES):
                continue
            own = derproved.Certificate(octets)
            if all(a._type.name in ("UTF8String", "PrintableString", "IA5String") for a in [*other.issuer, *other.subject]):
                self.compare_name(own.issuer, other.issuer)
                self.compare_name(own.subject, other.subject)

    def test_requests(self) -> None:
        for octets in blocks("CERTIFICATE REQUEST"):
            own, other = derproved.CertificationRequest(octets), x509.load_der_x509_csr(octets)
            self.assertEqual(bytes(own.certification_request_info), other.tbs_certrequest_bytes)
            self.assertEqual(bytes(derproved.signed_octets(octets)), other.tbs_certrequest_bytes)
            self.assertEqual(bytes(derproved.contents(own.signature))[1:], other.signature)
            self.assertEqual(bytes(own.subject), other.subject.public_bytes())
            self.compare_name(own.subject, other.subject)
            identifiers = [identifier_of(attribute.identifier) for attribute in own.attributes]
            self.assertEqual(identifiers, [attribute.oid.dotted_string for attribute in other.attributes])

    def test_status(self) -> None:
        for octets in blocks("OCSP RESPONSE"):
            own, other = derproved.OcspResponse(octets), ocsp.load_der_ocsp_response(octets)
            self.assertEqual(own.response_status, other.response_status.value)
            self.assertEqual(own.response is None, own.response_status != 0)
            self.assertEqual(own.response_type is None, own.response_status != 0)
            if own.response is not None:
                self.assertEqual(identifier_of(bytes(derproved.contents(own.response_type))), "1.3.6.1.5.5.7.48.1.1")
                self.compare_basic(derproved.BasicOcspResponse(derproved.contents(own.response)), other)

    def compare_basic(self, own, other) -> None:
        self.assertEqual(bytes(own.tbs_response_data), other.tbs_response_bytes)
        self.assertEqual(bytes(derproved.contents(own.signature))[1:], other.signature)
        self.assertEqual(own.produced_at, in_utc(other.produced_at_utc))
        found = list(own.responses)
        others = list(other.responses)
        self.assertEqual(len(found), len(others))
        for one, answer in zip(found, others):
            self.assertEqual(one.cert_status.value, answer.certificate_status.value)
            serial = answer.serial_number.to_bytes(answer.serial_number.bit_length() // 8 + 1, signed=True)
            hashes_of = b"\x04".join(bytes([len(it)]) + it for it in (answer.issuer_name_hash, answer.issuer_key_hash))
            self.assertTrue(bytes(one.cert_id).endswith(b"\x04" + hashes_of + b"\x02" + bytes([len(serial)]) + serial))
            revoked = answer.revocation_time_utc
            self.assertEqual(one.revocation_time, revoked and in_utc(revoked))
            self.assertEqual(one.this_update, in_utc(answer.this_update_utc))
            following = answer.next_update_utc
            self.assertEqual(one.next_update, following and in_utc(following))

    def test_private_keys(self) -> None:
        der, form = serialization.Encoding.DER, serialization.PublicFormat.SubjectPublicKeyInfo
        for octets in blocks("PRIVATE KEY"):
            own, other = derproved.PrivateKeyInfo(octets), serialization.load_der_private_key(octets, None)
            key = derproved.SubjectPublicKeyInfo(other.public_key().public_bytes(der, form))
            self.assertEqual((own.version, own.private_key_algorithm), (1, key.algorithm))
            self.assertEqual((own.attributes, own.public_key), (None, None))

    def test_signed_messages(self) -> None:
        keys = [serialization.load_der_private_key(octets, None) for octets in blocks("PRIVATE KEY")]
        keys = [key.public_key() for key in keys if isinstance(key, ec.EllipticCurvePrivateKey)]
        for octets in blocks("CMS"):
            message = derproved.ContentInfo(octets)
            self.assertEqual(identifier_of(bytes(derproved.contents(message.content_type))), "1.2.840.113549.1.7.2")
            data = derproved.SignedData(derproved.contents(message.content))
            signers = list(data.signer_infos)
            self.assertEqual(len(signers), 1)
            self.compare_signer(signers[0], keys)
            if data.e_content is not None:
                content = derproved.contents(derproved.contents(data.e_content))
                self.assertEqual(hashlib.sha256(content).digest(), self.digest_of(signers[0]))

    def digest_of(self, signer) -> bytes:
        """What the attribute messageDigest has."""
        values = [a.values for a in signer.signed_attributes if identifier_of(a.identifier) == "1.2.840.113549.1.9.4"]
        self.assertEqual(len(values), 1)
        return bytes(derproved.contents(derproved.contents(values[0])))

    def compare_signer(self, signer, keys) -> None:
        """The signature covers the signed attributes, as a SET (RFC 5652 5.4)."""
        signed = b"\x31" + bytes(signer.signed_attrs)[1:]
        signature = bytes(derproved.contents(signer.signature))
        self.assertEqual(len(keys), 1)
        keys[0].verify(signature, signed, ec.ECDSA(hashes.SHA256()))


class Calls(unittest.TestCase):
    def test_fields_are_views_of_the_octets(self) -> None:
        octets = bytearray(KEY)
        key = derproved.SubjectPublicKeyInfo(octets)
        self.assertEqual(bytes(key.subject_public_key), KEY[9:])
        octets[-1] ^= 1
        self.assertEqual(bytes(key.subject_public_key), octets[9:])

    def test_other_items_are_seen_as_octets(self) -> None:
        key = derproved.SubjectPublicKeyInfo(memoryview(KEY).cast("I"))
        self.assertEqual(bytes(key.algorithm), KEY[2:9])

    def test_refused(self) -> None:
        for count in range(len(KEY)):
            with self.assertRaises(derproved.Error) as caught:
                derproved.SubjectPublicKeyInfo(KEY[:count])
            self.assertEqual(caught.exception.args[:2], (2, "the octets end too soon"))
            error = caught.exception
            self.assertEqual((error.number, error.words, error.position), error.args)
            self.assertEqual(str(error), f"the octets end too soon (2), after {error.position} octets")
        others = [derproved.Certificate, derproved.CertificateList, derproved.PrivateKeyInfo, derproved.CertificationRequest]
        others += [derproved.OcspResponse, derproved.BasicOcspResponse, derproved.SingleResponse]
        others += [derproved.ContentInfo, derproved.SignedData, derproved.SignerInfo, derproved.Attribute]
        for read in others:
            with self.assertRaises(derproved.Error) as caught:
                read(KEY)
            self.assertEqual(caught.exception.args[0], 4)
        self.assertRaises(TypeError, derproved.Certificate, "text")

    def test_what_is_no_name_is_refused(self) -> None:
        for octets, number in [("3000", None), ("30023100", 2), ("300431023000", 2), ("300431020500", 4), ("3001ff", 2)]:
            if number is None:
                self.assertEqual(list(derproved.name_attributes(bytes.fromhex(octets))), [])
                continue
            with self.assertRaises(derproved.Error) as caught:
                list(derproved.name_attributes(bytes.fromhex(octets)))
            self.assertEqual(caught.exception.args[0], number)

    def test_canonical(self) -> None:
        self.assertEqual(derproved.canonical("spki", KEY), KEY)
        self.assertEqual(derproved.canonical("u16", bytearray(b"\x02\x01\x05")), b"\x02\x01\x05")
        self.assertEqual(derproved.canonical("opt-u8", b""), b"")
        unordered, ordered = bytes.fromhex("3106020108020107"), bytes.fromhex("3106020107020108")
        self.assertEqual(derproved.canonical("setvec-u16", unordered), ordered)
        for name, octets, number in [("u17", KEY, 102), ("", b"", 102), ("cert", KEY, 4), ("u16", b"\x02\x00", 7), ("u16", b"", 2)]:
            with self.assertRaises(derproved.Error) as caught:
                derproved.canonical(name, octets)
            self.assertEqual(caught.exception.args[0], number)
        self.assertRaises(TypeError, derproved.canonical, "u16", "text")

    def test_rules_of_lists(self) -> None:
        list_text = "302c3022300306012a300c310a300806035504030c0161170d3236303130313030303030305a300306012a030100"
        octets = bytearray.fromhex(list_text)
        rule = derproved.ListRule
        absent = rule.NEXT_UPDATE_IS_THERE | rule.AUTHORITY_HAS_KEY_IDENTIFIER | rule.CRL_NUMBER_IS_THERE
        self.assertEqual(derproved.check_rfc5280_list(octets), absent)
        octets[-4] += 1
        self.assertEqual(derproved.check_rfc5280_list(octets), absent | rule.ALGORITHMS_AGREE)
        with self.assertRaises(derproved.Error) as caught:
            derproved.check_rfc5280(octets)
        self.assertEqual(caught.exception.args[0], 4)
        self.assertEqual((len(derproved.CertificateRule), len(derproved.ListRule)), (45, 23))

    def test_any_octets_have_some_contents(self) -> None:
        for octets in [b"", b"0", b"\xff" * 9, bytes.fromhex("3084ffffffff")]:
            self.assertLessEqual(len(derproved.contents(octets)), len(octets))
            self.assertLessEqual(len(derproved.signed_octets(octets)), len(octets))


class Objects(unittest.TestCase):
    def classes(self):
        found = [getattr(derproved, name) for name in derproved.__all__]
        return [it for it in found if isinstance(it, type) and issubclass(it, derproved._der.Message)]

    def test_no_object_is_there_before_it_was_read(self) -> None:
        self.assertEqual(len(self.classes()), 57)
        for it in self.classes():
            for arguments in [(), (KEY, KEY), ("text",), (None,)]:
                self.assertRaises(TypeError, it, *arguments)
                self.assertRaises(TypeError, it.__new__, it, *arguments)
            self.assertRaises(TypeError, it, other=KEY)
            self.assertRaises(TypeError, object.__new__, it)
            self.assertRaises(derproved.Error, it, octets=b"")
        for it in [derproved._der.Message, derproved._der.Items, derproved._der.Field]:
            self.assertRaises(TypeError, it)
            self.assertRaises(TypeError, it, KEY)
        self.assertRaises(TypeError, type("Other", (derproved._der.Message,), {}), KEY)
        self.assertRaises(TypeError, type, "Both", (derproved.Certificate, derproved.Extension), {})
        self.assertEqual(bytes(derproved.SubjectPublicKeyInfo(octets=KEY)), KEY)

    def test_equal_messages(self) -> None:
        key, entry = derproved.SubjectPublicKeyInfo(KEY), derproved.RevokedCertificate(ENTRY + KEY)
        self.assertEqual(key, derproved.SubjectPublicKeyInfo(bytearray(KEY)))
        self.assertEqual(entry, derproved.RevokedCertificate(ENTRY))
        self.assertNotEqual(key, derproved.SubjectPublicKeyInfo(KEY[:-1] + b"\0"))
        self.assertNotEqual(derproved.Attribute(b"0\7\6\1*1\2\5\0"), derproved.AttributeTypeAndValue(b"0\7\6\1*1\2\5\0"))
        for other in [KEY, None, entry]:
            self.assertNotEqual(key, other)
        self.assertRaises(TypeError, lambda: key < key)
        self.assertEqual(len({key, derproved.SubjectPublicKeyInfo(memoryview(KEY)), entry}), 2)
        self.assertRaises(TypeError, hash, derproved.SubjectPublicKeyInfo(bytearray(KEY)))
        self.assertRaises(TypeError, hash, next(derproved.RevokedCertificate(bytearray(ENTRY)).extensions))

    def test_what_repr_shows(self) -> None:
        self.assertEqual(repr(derproved.SubjectPublicKeyInfo(KEY)), "<SubjectPublicKeyInfo of 44 octets>")
        self.assertEqual(repr(derproved.RevokedCertificate(ENTRY + KEY)), f"<RevokedCertificate of {len(ENTRY)} octets>")
        shown = [repr(it) for it in derproved.name_attributes(NAME)]
        self.assertEqual(shown, [f"<AttributeTypeAndValue {it}>" for it in ("O=", "OU=", "CN=name")])
        for octets, text in {"300a06035504030c036d69ff": "CN=#6d69ff", "300706038837030500": "2.999.3=#"}.items():
            self.assertEqual(repr(derproved.AttributeTypeAndValue(bytes.fromhex(octets))), f"<AttributeTypeAndValue {text}>")
        for octets in blocks("PRIVATE KEY"):
            self.assertEqual(repr(derproved.PrivateKeyInfo(octets)), f"<PrivateKeyInfo of {len(octets)} octets>")

    @unittest.skipIf(x509 is None, "cryptography is not there")
    def test_what_repr_shows_of_names(self) -> None:
        messages = [(derproved.CertificationRequest(it), x509.load_der_x509_csr(it).subject) for it in blocks("CERTIFICATE REQUEST")]
        messages += [(derproved.CertificateList(it), x509.load_der_x509_crl(it).issuer) for it in blocks("X509 CRL")]
        for message, name in messages:
            for attribute in name:
                self.assertIn(f"={attribute.value}", repr(message))

    def test_objects_do_not_change(self) -> None:
        key = derproved.SubjectPublicKeyInfo(KEY)
        for name in ["algorithm", "subject_public_key", "other"]:
            self.assertRaises(AttributeError, setattr, key, name, b"")
            self.assertRaises(AttributeError, delattr, key, name)
        key.__init__(ENTRY)
        self.assertEqual(bytes(key), KEY)

    def test_classes_that_derive(self) -> None:
        class Named(derproved.SubjectPublicKeyInfo):
            def __init__(self, octets) -> None:
                super().__init__(octets)
                self.name = "own"

        class Counted(derproved.SubjectPublicKeyInfo):
            __slots__ = ("count",)

            def __new__(cls, octets, count):
                self = super().__new__(cls, octets)
                self.count = count
                return self

        named, counted = Named(KEY), Counted(KEY, 5)
        self.assertEqual((named.name, bytes(named.algorithm)), ("own", KEY[2:9]))
        self.assertEqual((counted.count, bytes(counted.algorithm)), (5, KEY[2:9]))
        self.assertRaises(AttributeError, setattr, named, "algorithm", b"")
        self.assertRaises(TypeError, Named)

    def test_fields_of_other_classes_are_not_read(self) -> None:
        key = derproved.SubjectPublicKeyInfo(KEY)
        for it in self.classes():
            for name, field in vars(it).items():
                if isinstance(field, derproved._der.Field):
                    self.assertRaises(TypeError, field.__get__, KEY)
                    self.assertRaises(AttributeError, field.__set__, key, b"")
        for field in ["issuer", "not_after", "version", "extensions"]:
            self.assertRaises(TypeError, vars(derproved.Certificate)[field].__get__, key)
        self.assertRaises(TypeError, setattr, key, "__class__", derproved.ContentInfo)

    def test_all_is_documented(self) -> None:
        for it in self.classes():
            self.assertEqual(str(inspect.signature(it)), "(octets)")
            self.assertTrue(it.__doc__ and it.__doc__ != it.__base__.__doc__)
            for name, value in vars(it).items():
                if not name.startswith("_"):
                    self.assertTrue(value.__doc__, name)
                    self.assertIs(getattr(it, name), value)

    def test_wrong_fields_are_not_made(self) -> None:
        der = derproved._der
        wrong = [(), (0,), (-1, ""), (256, ""), ("", 0), (0, "", -1), (0, "", 0, 0), (0, "", 0, int), (0, "", 0, 0, 0)]
        makers = [der.field, der.optional, der.contents_field, der.number, der.flag, der.moment, der.optional_moment]
        for make in [*makers, der.items]:
            for arguments in wrong:
                self.assertRaises((TypeError, OverflowError), make, *arguments)
        for arguments in [(), (KEY,), (KEY, int), (KEY, KEY), ("", derproved.Extension)]:
            self.assertRaises(TypeError, der.items_of, *arguments)
            self.assertRaises(TypeError, der.name_attributes, *arguments)

    def test_copies(self) -> None:
        class Named(derproved.SubjectPublicKeyInfo):
            pass

        named = Named(bytearray(KEY))
        named.name = "own"
        found = copy.copy(named)
        self.assertEqual((type(found), found.name, bytes(found)), (Named, "own", KEY))
        for it in [derproved.SubjectPublicKeyInfo(KEY), list(derproved.RevokedCertificate(ENTRY).extensions)[1]]:
            for found in [copy.copy(it), copy.deepcopy(it), pickle.loads(pickle.dumps(it))]:
                self.assertEqual((type(found), bytes(found)), (type(it), bytes(it)))
        for it in [derproved.RevokedCertificate(ENTRY).extensions, vars(derproved.Extension)["value"]]:
            self.assertRaises(TypeError, pickle.dumps, it)
            self.assertRaises(TypeError, copy.copy, it)

    def test_octets_live_as_long_as_they_are_seen(self) -> None:
        octets = bytearray(ENTRY)
        view = memoryview(octets)
        extension = list(derproved.RevokedCertificate(view).extensions)[1]
        view.release()
        self.assertRaises(BufferError, octets.clear)
        self.assertEqual(bytes(extension), CONSTRAINTS)
        value = extension.value
        del extension
        self.assertRaises(BufferError, octets.clear)
        self.assertEqual(bytes(value), b"0\0")
        del value
        octets.clear()
        self.assertEqual(bytes(list(derproved.RevokedCertificate(ENTRY + KEY).extensions)[0].value), b"\n\x01\x01")

    def test_views_have_items_of_one_octet(self) -> None:
        square = KEY + bytes(2 * len(KEY))
        seen = [memoryview(KEY), memoryview(KEY).cast("c"), memoryview(KEY).cast("B", [4, 11]), memoryview(KEY).cast("i")]
        for octets in seen:
            found = derproved.SubjectPublicKeyInfo(octets).subject_public_key
            self.assertEqual((found.format, found.ndim, bytes(found)), ("B", 1, KEY[9:]))
            self.assertIs(found.obj, KEY)
            self.assertEqual(derproved.contents(octets).tobytes(), KEY[2:])
        for octets in [memoryview(square)[::3], memoryview(KEY[::-1])[::-1], memoryview(KEY).cast("i")[::-1]]:
            self.assertRaises(BufferError, derproved.SubjectPublicKeyInfo, octets)
            self.assertRaises(BufferError, derproved.contents, octets)

    def test_items_are_read_when_they_are_asked_for(self) -> None:
        octets = bytearray(ENTRY)
        extensions = derproved.RevokedCertificate(octets).extensions
        self.assertIs(iter(extensions), extensions)
        first = next(extensions)
        octets[-len(CONSTRAINTS)] = 0x31
        with self.assertRaises(derproved.Error) as caught:
            next(extensions)
        self.assertEqual((caught.exception.args[0], list(extensions)), (4, []))
        self.assertEqual((bytes(first), bytes(first.identifier), first.is_critical), (REASON, REASON[4:7], False))

    def test_attributes_of_a_name(self) -> None:
        found = [(bytes(it.identifier).hex(), bytes(it.value)) for it in derproved.name_attributes(NAME)]
        self.assertEqual(found, [("55040a", b"\x0c\0"), ("55040b", b"\x0c\0"), ("550403", b"\x0c\x04name")])
        self.assertEqual(list(derproved.attributes(None)), [])

    def test_cycles_are_found(self) -> None:
        class Octets(bytearray):
            pass

        gc.collect()
        for read in [derproved.SubjectPublicKeyInfo, lambda octets: derproved.attributes(octets)]:
            octets = Octets(KEY)
            octets.own = read(octets)
            del octets
            self.assertGreater(gc.collect(), 0)

    def test_memory_is_given_back(self) -> None:
        def use() -> None:
            for octets in [ENTRY, bytearray(ENTRY), memoryview(ENTRY).cast("H")]:
                entry = derproved.RevokedCertificate(octets)
                found = [(it.identifier, it.value, bytes(it), it.is_critical, repr(it), it == it) for it in entry.extensions]
                if isinstance(octets, bytes):
                    hash(entry)
                entry.revocation_date, entry.user_certificate, copy.copy(entry), next(entry.extensions), found
                list(derproved.name_attributes(NAME)), derproved.contents(octets)
                for wrong in [octets[:-1], "text"]:
                    self.assertRaises((derproved.Error, TypeError), derproved.RevokedCertificate, wrong)

        use()
        gc.collect()
        before = sys.getallocatedblocks()
        for _ in range(1_000):
            use()
        gc.collect()
        self.assertLess(sys.getallocatedblocks() - before, 1_000)


if __name__ == "__main__":
    unittest.main()
