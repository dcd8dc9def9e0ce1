"""Messages that are written: those of PEM files again, from their fields; and others, which `cryptography` reads and verifies."""

import contextlib
import hashlib
import unittest
from datetime import datetime, timedelta, timezone

import derproved
from test_derproved import blocks

try:
    from cryptography import x509
    from cryptography.exceptions import InvalidSignature
    from cryptography.hazmat.primitives import hashes, serialization
    from cryptography.hazmat.primitives.asymmetric import ec, ed25519, rsa
    from cryptography.x509 import ocsp
except ImportError:
    x509 = None

BEGIN = datetime(2026, 1, 1, tzinfo=timezone.utc)
END = datetime(2051, 1, 1, tzinfo=timezone.utc)
ED25519, ECDSA_WITH_SHA256, SHA1 = "1.3.101.112", "1.2.840.10045.4.3.2", "1.3.14.3.2.26"
BASIC_CONSTRAINTS, KEY_USAGE, ALTERNATIVE_NAME, CRL_NUMBER, REASON = (f"2.5.29.{it}" for it in (19, 15, 17, 20, 21))


def octets(field) -> list[bytes]:
    return [bytes(it) for it in field]


class WrittenAgain(unittest.TestCase):
    """What is read is written again from its fields."""

    def read(self, label, type_):
        for block in blocks(label):
            with contextlib.suppress(derproved.Error):
                yield block, type_(block)

    def test_certificates(self) -> None:
        for block, it in self.read("CERTIFICATE", derproved.Certificate):
            for one in it.extensions:
                again = derproved.write_extension(extn_id=one.extn_id, is_critical=one.is_critical, extn_value=one.extn_value)
                self.assertEqual(again, bytes(one))
            body = derproved.write_tbs_certificate(
                version=it.version,
                serial_number=it.serial_number,
                signature=it.signature,
                issuer=it.issuer,
                not_before=it.not_before,
                not_after=it.not_after,
                subject=it.subject,
                subject_public_key_info=it.subject_public_key_info,
                issuer_unique_id=it.issuer_unique_id,
                subject_unique_id=it.subject_unique_id,
                extensions=octets(it.extensions),
            )
            dates = derproved.write_sequence(map(derproved.write_time, [it.not_before, it.not_after]))
            # (some certificates have a GeneralizedTime of a date before 2050; RFC 5280 4.1.2.5)
            if dates == it.validity:
                self.assertEqual(body, it.tbs_certificate)
            again = derproved.write_certificate(
                tbs_certificate=it.tbs_certificate, signature_algorithm=it.signature_algorithm, signature_value=it.signature_value
            )
            self.assertEqual(again, block)

    def test_lists(self) -> None:
        for block, it in self.read("X509 CRL", derproved.CertificateList):
            for one in it.revoked_certificates:
                again = derproved.write_revoked_certificate(
                    user_certificate=one.user_certificate,
                    revocation_date=one.revocation_date,
                    crl_entry_extensions=octets(one.extensions),
                )
                self.assertEqual(again, bytes(one))
            body = derproved.write_tbs_cert_list(
                version=it.version,
                signature=it.signature,
                issuer=it.issuer,
                this_update=it.this_update,
                next_update=it.next_update,
                revoked_certificates=octets(it.revoked_certificates),
                crl_extensions=octets(it.extensions),
            )
            self.assertEqual(body, it.tbs_cert_list)
            again = derproved.write_certificate_list(
                tbs_cert_list=body, signature_algorithm=it.signature_algorithm, signature_value=it.signature_value
            )
            self.assertEqual(again, block)

    def test_requests(self) -> None:
        for block, it in self.read("CERTIFICATE REQUEST", derproved.CertificationRequest):
            info = derproved.write_certification_request_info(
                subject=it.subject, subject_pk_info=it.subject_pk_info, attributes=reversed(octets(it.attributes))
            )
            self.assertEqual(info, it.certification_request_info)
            again = derproved.write_certification_request(
                certification_request_info=info, signature_algorithm=it.signature_algorithm, signature=it.signature
            )
            self.assertEqual(again, block)

    def test_responses(self) -> None:
        for block, it in self.read("OCSP RESPONSE", derproved.OcspResponse):
            bytes_ = None if it.response is None else derproved.write_response_bytes(derproved.contents(it.response))
            again = derproved.write_ocsp_response(response_status=it.response_status, response_bytes=bytes_)
            self.assertEqual(again, block)
            if it.response is not None:
                self.write_basic_again(bytes(derproved.contents(it.response)))

    def write_basic_again(self, block: bytes) -> None:
        it = derproved.BasicOcspResponse(block)
        for one in it.responses:
            again = derproved.write_single_response(
                cert_id=one.cert_id,
                cert_status=list(derproved.encodings(bytes(one)))[1],
                this_update=one.this_update,
                next_update=one.next_update,
                single_extensions=octets(one.extensions),
            )
            self.assertEqual(again, bytes(one))
        data = derproved.write_response_data(
            responder_id=it.responder_id,
            produced_at=it.produced_at,
            responses=octets(it.responses),
            response_extensions=octets(it.extensions),
        )
        self.assertEqual(data, it.tbs_response_data)
        certs = () if it.certs is None else derproved.encodings(derproved.contents(it.certs))
        again = derproved.write_basic_ocsp_response(
            tbs_response_data=data, signature_algorithm=it.signature_algorithm, signature=it.signature, certs=certs
        )
        self.assertEqual(again, block)


def extension(dotted: str, is_critical: bool, value: bytes) -> bytes:
    return derproved.write_extension(
        extn_id=derproved.write_object_identifier(dotted), is_critical=is_critical, extn_value=derproved.write_octet_string(value)
    )


@unittest.skipIf(x509 is None, "cryptography is not there")
class ReadByCryptography(unittest.TestCase):
    """What is written is read and verified."""

    def setUp(self) -> None:
        self.key = ec.generate_private_key(ec.SECP256R1())
        point = self.key.public_key().public_bytes(serialization.Encoding.X962, serialization.PublicFormat.UncompressedPoint)
        self.info = derproved.write_p256_key(point)
        self.point = point
        self.name = derproved.write_name([("2.5.4.6", "GB"), ("2.5.4.3", "mill")])
        self.algorithm = derproved.write_algorithm_identifier(ECDSA_WITH_SHA256)

    def sign(self, signed: bytes) -> bytes:
        return derproved.write_bit_string(self.key.sign(signed, ec.ECDSA(hashes.SHA256())))

    def own(self) -> bytes:
        host = derproved.write_general_name(derproved.NameKind.DNS_NAME, b"mill.example")
        usage = derproved.KeyUsage.KEY_CERT_SIGN | derproved.KeyUsage.CRL_SIGN
        body = derproved.write_tbs_certificate(
            version=3,
            serial_number=derproved.write_unsigned_integer(0xC507),
            signature=self.algorithm,
            issuer=self.name,
            not_before=BEGIN,
            not_after=END,
            subject=self.name,
            subject_public_key_info=self.info,
            extensions=[
                extension(BASIC_CONSTRAINTS, True, derproved.write_sequence([derproved.write_boolean(True)])),
                extension(KEY_USAGE, True, derproved.write_named_bits(usage)),
                extension(ALTERNATIVE_NAME, False, derproved.write_sequence([host])),
            ],
        )
        return derproved.write_certificate(
            tbs_certificate=body, signature_algorithm=self.algorithm, signature_value=self.sign(body)
        )

    def test_a_certificate(self) -> None:
        found = x509.load_der_x509_certificate(self.own())
        found.verify_directly_issued_by(found)
        self.assertEqual((found.serial_number, found.version), (0xC507, x509.Version.v3))
        self.assertEqual(found.subject.rfc4514_string(), "CN=mill,C=GB")
        self.assertEqual((found.not_valid_before_utc, found.not_valid_after_utc), (BEGIN, END))
        self.assertEqual(found.public_key(), self.key.public_key())
        self.assertEqual([it.critical for it in found.extensions], [True, True, False])
        self.assertTrue(found.extensions.get_extension_for_class(x509.BasicConstraints).value.ca)
        usage = found.extensions.get_extension_for_class(x509.KeyUsage).value
        self.assertEqual((usage.key_cert_sign, usage.crl_sign, usage.digital_signature), (True, True, False))
        names = found.extensions.get_extension_for_class(x509.SubjectAlternativeName).value
        self.assertEqual(names.get_values_for_type(x509.DNSName), ["mill.example"])
        self.assertFalse(derproved.check_rfc5280(self.own()) & ~derproved.CertificateRule.CA_HAS_SUBJECT_KEY_IDENTIFIER)

    def test_a_request(self) -> None:
        host = derproved.write_general_name(derproved.NameKind.DNS_NAME, b"mill.example")
        asked = derproved.write_sequence([extension(ALTERNATIVE_NAME, False, derproved.write_sequence([host]))])
        info = derproved.write_certification_request_info(
            subject=self.name,
            subject_pk_info=self.info,
            attributes=[derproved.write_attribute("1.2.840.113549.1.9.14", [asked])],
        )
        request = derproved.write_certification_request(
            certification_request_info=info, signature_algorithm=self.algorithm, signature=self.sign(info)
        )
        found = x509.load_der_x509_csr(request)
        self.assertTrue(found.is_signature_valid)
        names = found.extensions.get_extension_for_class(x509.SubjectAlternativeName).value
        self.assertEqual(names.get_values_for_type(x509.DNSName), ["mill.example"])

    def test_a_list(self) -> None:
        entry = derproved.write_revoked_certificate(
            user_certificate=derproved.write_unsigned_integer(9),
            revocation_date=BEGIN,
            crl_entry_extensions=[extension(REASON, False, derproved.write_enumerated(1))],
        )
        body = derproved.write_tbs_cert_list(
            version=2,
            signature=self.algorithm,
            issuer=self.name,
            this_update=BEGIN,
            next_update=END,
            revoked_certificates=[entry],
            crl_extensions=[extension(CRL_NUMBER, False, derproved.write_unsigned_integer(3))],
        )
        found = x509.load_der_x509_crl(
            derproved.write_certificate_list(
                tbs_cert_list=body, signature_algorithm=self.algorithm, signature_value=self.sign(body)
            )
        )
        self.assertTrue(found.is_signature_valid(self.key.public_key()))
        self.assertEqual((found.last_update_utc, found.next_update_utc), (BEGIN, END))
        (one,) = found
        self.assertEqual((one.serial_number, one.revocation_date_utc), (9, BEGIN))
        self.assertEqual(one.extensions.get_extension_for_class(x509.CRLReason).value.reason, x509.ReasonFlags.key_compromise)

    def cert_id(self) -> bytes:
        return derproved.write_cert_id(
            hash_algorithm=derproved.write_algorithm_identifier(SHA1, derproved.write_null()),
            issuer_name_hash=derproved.write_octet_string(hashlib.sha1(self.name).digest()),
            issuer_key_hash=derproved.write_octet_string(hashlib.sha1(self.point).digest()),
            serial_number=derproved.write_unsigned_integer(9),
        )

    def test_a_request_of_ocsp(self) -> None:
        one = derproved.write_request(req_cert=self.cert_id())
        body = derproved.write_tbs_request(request_list=[one])
        found = ocsp.load_der_ocsp_request(derproved.write_ocsp_request(tbs_request=body))
        self.assertEqual((found.serial_number, found.issuer_key_hash), (9, hashlib.sha1(self.point).digest()))

    def test_a_response_of_ocsp(self) -> None:
        for status, when, reason in [
            (derproved.CertStatus.GOOD, None, None),
            (derproved.CertStatus.UNKNOWN, None, None),
            (derproved.CertStatus.REVOKED, BEGIN, None),
            (derproved.CertStatus.REVOKED, BEGIN, 1),
        ]:
            single = derproved.write_single_response(
                cert_id=self.cert_id(),
                cert_status=derproved.write_cert_status(status, when, reason),
                this_update=BEGIN,
                next_update=END,
            )
            data = derproved.write_response_data(
                responder_id=derproved.write_explicit(1, self.name), produced_at=BEGIN, responses=[single]
            )
            basic = derproved.write_basic_ocsp_response(
                tbs_response_data=data, signature_algorithm=self.algorithm, signature=self.sign(data), certs=[self.own()]
            )
            answer = derproved.write_ocsp_response(response_status=0, response_bytes=derproved.write_response_bytes(basic))
            found = ocsp.load_der_ocsp_response(answer)
            self.key.public_key().verify(found.signature, found.tbs_response_bytes, ec.ECDSA(hashes.SHA256()))
            self.assertEqual((found.serial_number, found.certificate_status.name), (9, status.name))
            self.assertEqual((found.revocation_time_utc, found.next_update_utc), (when, END))
            wanted = None if reason is None else x509.ReasonFlags.key_compromise
            self.assertEqual((found.revocation_reason, len(found.certificates)), (wanted, 1))

    def test_keys(self) -> None:
        form = (serialization.Encoding.DER, serialization.PublicFormat.SubjectPublicKeyInfo)
        key = ed25519.Ed25519PrivateKey.generate().public_key()
        self.assertEqual(derproved.write_ed25519_key(key.public_bytes_raw()), key.public_bytes(*form))
        key = rsa.generate_private_key(65537, 2048).public_key()
        plain = key.public_bytes(serialization.Encoding.DER, serialization.PublicFormat.PKCS1)
        self.assertEqual(derproved.write_rsa_key(plain), key.public_bytes(*form))
        self.assertEqual(self.info, self.key.public_key().public_bytes(*form))


class Values(unittest.TestCase):
    def assert_refused(self, number: int, call, *arguments, **named) -> None:
        with self.assertRaises(derproved.Error) as caught:
            call(*arguments, **named)
        self.assertEqual(caught.exception.number, number)

    def test_identifiers(self) -> None:
        for text, digits in [("2.5.29.17", "0603551d11"), ("0.9", "060109"), ("2.999.128", "060488378100")]:
            self.assertEqual(derproved.write_object_identifier(text).hex(), digits)
        for text in ["", "2", "3.1", "1.40", "2.5.", "2.05", "2.+5", "2.٣"]:
            self.assert_refused(15, derproved.write_object_identifier, text)

    def test_others(self) -> None:
        self.assertEqual(derproved.write_named_bits(0), b"\x03\x01\x00")
        self.assertEqual(derproved.write_named_bits(derproved.KeyUsage.DECIPHER_ONLY), b"\x03\x03\x07\x00\x80")
        self.assertEqual(derproved.write_unsigned_integer(0), b"\x02\x01\x00")
        self.assertEqual(derproved.write_unsigned_integer(128), b"\x02\x02\x00\x80")
        self.assertEqual(derproved.write_set_of([b"\x02\x01\x08", b"\x02\x01\x07"]), bytes.fromhex("3106020107020108"))
        self.assertEqual(derproved.write_time(BEGIN + timedelta(microseconds=7)), b"\x17\x0d260101000000Z")
        self.assertEqual(derproved.write_time(END), b"\x18\x0f20510101000000Z")
        self.assertEqual(derproved.write_generalized_time(BEGIN), b"\x18\x0f20260101000000Z")
        self.assertEqual(derproved.write_implicit(30, b""), b"\x9e\x00")
        self.assertEqual(derproved.write_enumerated(128), b"\x0a\x02\x00\x80")
        self.assertEqual(derproved.write_implicit_sequence(1, [b"\x02\x01\x08", b"\x05\x00"]).hex(), "a1050201080500")

    def test_what_is_refused(self) -> None:
        self.assert_refused(14, derproved.write_time, datetime(1969, 12, 31, tzinfo=timezone.utc))
        self.assert_refused(6, derproved.write_explicit, 31, b"")
        self.assert_refused(6, derproved.write_implicit, -1, b"")
        self.assert_refused(13, derproved.write_name_attribute, "2.5.4.6", "long")
        self.assert_refused(13, derproved.write_ocsp_response, response_status=4)
        self.assert_refused(4, derproved.write_request, req_cert=b"\x02\x01\x05")
        self.assert_refused(2, derproved.write_request, req_cert=b"")
        with self.assertRaises(TypeError):
            derproved.write_time(datetime(2026, 1, 1))
        with self.assertRaises(TypeError):
            derproved.write_request(req_cert=5)
        with self.assertRaises(TypeError):
            derproved.write_request()
        with self.assertRaises(OverflowError):
            derproved.write_unsigned_integer(-1)

    def test_the_first_second_of_1970_is_no_absent_date(self) -> None:
        first = datetime(1970, 1, 1, tzinfo=timezone.utc)
        self.assertEqual(derproved.write_time(first), b"\x17\x0d700101000000Z")
        name, algorithm = derproved.write_name([]), derproved.write_algorithm_identifier(ED25519)
        fields = {"version": 2, "signature": algorithm, "issuer": name, "this_update": first}
        self.assertEqual(derproved.write_tbs_cert_list(**fields)[-15:], b"\x17\x0d700101000000Z")
        self.assert_refused(14, derproved.write_tbs_cert_list, **fields, next_update=first)


if __name__ == "__main__":
    unittest.main()
