"""What lists and answers say of a certificate. All are written here, and no signature is verified."""

import pickle
import unittest
from datetime import datetime, timedelta, timezone

import derproved
from derproved import CertStatus, ListStep, OcspStep, Reason, Reasons, StatusError

NOW = datetime(2026, 1, 1, tzinfo=timezone.utc)
HOUR = timedelta(hours=1)
NAME = derproved.write_name([("2.5.4.3", "mill")])
ALGORITHM = derproved.write_algorithm_identifier("1.3.101.112", None)
SIGNATURE = derproved.write_bit_string(bytes(64))
SEVEN = derproved.write_unsigned_integer(7)


def extension(dotted: str, value: bytes, is_critical: bool = False) -> bytes:
    id_, octets = derproved.write_object_identifier(dotted), derproved.write_octet_string(value)
    return derproved.write_extension(extn_id=id_, is_critical=is_critical, extn_value=octets)


def certificate(serial: int, extensions=()) -> bytes:
    body = derproved.write_tbs_certificate(
        version=3,
        serial_number=derproved.write_unsigned_integer(serial),
        signature=ALGORITHM,
        issuer=NAME,
        not_before=NOW - HOUR,
        not_after=NOW + HOUR,
        subject=derproved.write_name([("2.5.4.3", "wheel")]),
        subject_public_key_info=derproved.write_ed25519_key(bytes(32)),
        extensions=extensions,
    )
    return derproved.write_certificate(tbs_certificate=body, signature_algorithm=ALGORITHM, signature_value=SIGNATURE)


def crl(entry_extensions=()) -> bytes:
    """A list with an entry of the serial number 7."""
    entry = derproved.write_revoked_certificate(
        user_certificate=SEVEN, revocation_date=NOW - HOUR, crl_entry_extensions=entry_extensions
    )
    body = derproved.write_tbs_cert_list(
        version=2,
        signature=ALGORITHM,
        issuer=NAME,
        this_update=NOW,
        next_update=NOW + HOUR,
        revoked_certificates=[entry],
    )
    return derproved.write_certificate_list(tbs_cert_list=body, signature_algorithm=ALGORITHM, signature_value=SIGNATURE)


def answer(status: bytes, certificates=()) -> bytes:
    """An answer about the serial number 7, which names its responder by a key."""
    id_ = derproved.write_cert_id(
        hash_algorithm=derproved.write_algorithm_identifier("1.3.14.3.2.26", None),
        issuer_name_hash=derproved.write_octet_string(b"name"),
        issuer_key_hash=derproved.write_octet_string(b"key"),
        serial_number=SEVEN,
    )
    single = derproved.write_single_response(cert_id=id_, cert_status=status, this_update=NOW)
    body = derproved.write_response_data(
        responder_id=derproved.write_explicit(2, derproved.write_octet_string(b"hash")), produced_at=NOW, responses=[single]
    )
    return derproved.write_basic_ocsp_response(
        tbs_response_data=body, signature_algorithm=ALGORITHM, signature=SIGNATURE, certs=certificates
    )


class Lists(unittest.TestCase):
    def test_a_list(self):
        told = derproved.list_status(certificate(7), crl(), moment=NOW)
        self.assertEqual(told.reasons, Reasons.ALL)
        self.assertEqual(told.revoked, derproved.Revoked(NOW - HOUR, Reason.UNSPECIFIED))
        self.assertIsNone(derproved.list_status(certificate(8), crl(), moment=NOW).revoked)
        hold = extension("2.5.29.21", bytes([0x0A, 1, 6]))
        told = derproved.list_status(certificate(7), memoryview(crl([hold])), moment=NOW)
        self.assertEqual(told.revoked.reason, Reason.CERTIFICATE_HOLD)

    def test_refusals(self):
        with self.assertRaises(StatusError) as refused:
            derproved.list_status(certificate(7), crl(), moment=NOW + 2 * HOUR)
        self.assertEqual((refused.exception.number, refused.exception.step), (107, ListStep.NEXT_UPDATE))
        self.assertEqual(str(refused.exception), "6.3.3 (a)(1) refuses it")
        again = pickle.loads(pickle.dumps(refused.exception))
        self.assertEqual((again.number, again.step), (107, ListStep.NEXT_UPDATE))
        twice = extension("2.5.29.19", derproved.write_sequence([]))
        with self.assertRaises(StatusError) as refused:
            derproved.list_status(certificate(7, [twice, twice]), crl(), moment=NOW)
        self.assertEqual((refused.exception.number, refused.exception.step), (105, None))
        with self.assertRaises(StatusError) as refused:
            derproved.list_status(certificate(7), certificate(7), moment=NOW)
        self.assertLess(refused.exception.number, 18)


    def test_lists(self):
        told = derproved.revocation_status(certificate(7), [crl()], moment=NOW)
        self.assertEqual((told.is_determined, told.revoked), (True, derproved.Revoked(NOW - HOUR, Reason.UNSPECIFIED)))
        told = derproved.revocation_status(certificate(8), iter([crl()]), moment=NOW, use_deltas=False)
        self.assertEqual((told.is_determined, told.revoked), (True, None))
        told = derproved.revocation_status(certificate(7), [], moment=NOW)
        self.assertEqual((told.is_determined, told.revoked, told.reasons), (False, None, Reasons(0)))
        with self.assertRaises(StatusError) as refused:
            derproved.revocation_status(certificate(7), [crl(), certificate(7)], moment=NOW)
        self.assertLess(refused.exception.number, 18)


class Answers(unittest.TestCase):
    def ask(self, octets: bytes, moment: datetime = NOW, key_hash: bytes = b"key") -> derproved.OcspStatus:
        return derproved.ocsp_status(
            octets,
            moment=moment,
            issuer=NAME,
            algorithm=derproved.write_object_identifier("1.3.14.3.2.26"),
            name_hash=b"name",
            key_hash=key_hash,
            serial_number=SEVEN,
        )

    def test_an_answer(self):
        purpose = derproved.write_sequence([derproved.write_object_identifier("1.3.6.1.5.5.7.3.9")])
        delegates = [certificate(20), certificate(21, [extension("2.5.29.37", purpose)])]
        status = derproved.write_cert_status(CertStatus.REVOKED, NOW - HOUR, 1)
        told = self.ask(answer(status, delegates))
        self.assertEqual((told.status, told.revoked), (CertStatus.REVOKED, derproved.Revoked(NOW - HOUR, Reason.KEY_COMPROMISE)))
        self.assertEqual((told.this_update, told.next_update), (NOW, None))
        self.assertEqual((told.responders, told.key_hash), ([None, delegates[1]], b"hash"))
        self.assertIs(self.ask(answer(derproved.write_cert_status(CertStatus.GOOD))).status, CertStatus.GOOD)

    def test_refusals(self):
        good = answer(derproved.write_cert_status(CertStatus.GOOD))
        with self.assertRaises(StatusError) as refused:
            self.ask(good, key_hash=b"other")
        self.assertEqual((refused.exception.number, refused.exception.step), (108, OcspStep.NOT_ANSWERED))
        self.assertEqual(str(refused.exception), "3.2 (1) refuses it")
        with self.assertRaises(StatusError) as refused:
            self.ask(good, moment=NOW - HOUR)
        self.assertEqual(refused.exception.step, OcspStep.THIS_UPDATE)


if __name__ == "__main__":
    unittest.main()
