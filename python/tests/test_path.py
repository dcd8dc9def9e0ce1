"""Chains of certificates that are written here, and whose signatures `cryptography` makes and verifies."""

import contextlib
import importlib.util
import io
import pickle
import re
import tempfile
import unittest
from datetime import datetime, timedelta, timezone
from pathlib import Path

import derproved
from derproved import PathError, Step

try:
    from cryptography import x509
    from cryptography.hazmat.primitives import hashes, serialization
    from cryptography.hazmat.primitives.asymmetric import ec, ed25519, rsa
    from cryptography.hazmat.primitives.asymmetric.padding import PKCS1v15
except ImportError:
    serialization = None

BEGIN = datetime(2026, 1, 1, tzinfo=timezone.utc)
END = datetime(2051, 1, 1, tzinfo=timezone.utc)
FOLDER = Path(__file__).resolve().parent.parent
EXAMPLE = FOLDER / "examples" / "path.py"
DNS_NAME = derproved.NameKind.DNS_NAME


def extension(dotted: str, value: bytes) -> bytes:
    id_, octets = derproved.write_object_identifier(dotted), derproved.write_octet_string(value)
    return derproved.write_extension(extn_id=id_, is_critical=False, extn_value=octets)


class Authority:
    """A name and a key, which signs."""

    def __init__(self, name: str, kind: str = "ec") -> None:
        self.name = derproved.write_name([("2.5.4.3", name)])
        self.kind = kind
        if kind == "ec":
            self.private, how = ec.generate_private_key(ec.SECP256R1()), ("1.2.840.10045.4.3.2", None)
        elif kind == "rsa":
            self.private, how = rsa.generate_private_key(65537, 2048), ("1.2.840.113549.1.1.11", derproved.write_null())
        else:
            self.private, how = ed25519.Ed25519PrivateKey.generate(), ("1.3.101.112", None)
        self.algorithm = derproved.write_algorithm_identifier(*how)
        form = (serialization.Encoding.DER, serialization.PublicFormat.SubjectPublicKeyInfo)
        self.key = self.private.public_key().public_bytes(*form)

    def sign(self, signed: bytes) -> bytes:
        how = {"ec": lambda: [ec.ECDSA(hashes.SHA256())], "rsa": lambda: [PKCS1v15(), hashes.SHA256()], "ed": list}
        return derproved.write_bit_string(self.private.sign(signed, *how[self.kind]()))

    def list_with(self, octets: bytes) -> bytes:
        """A list of revoked certificates that has one."""
        entry = derproved.write_revoked_certificate(
            user_certificate=derproved.Certificate(octets).serial_number, revocation_date=BEGIN
        )
        body = derproved.write_tbs_cert_list(
            version=2, signature=self.algorithm, issuer=self.name, this_update=BEGIN, revoked_certificates=[entry]
        )
        return derproved.write_certificate_list(
            tbs_cert_list=body, signature_algorithm=self.algorithm, signature_value=self.sign(body)
        )

    def issue(self, of: "Authority", extensions=()) -> bytes:
        body = derproved.write_tbs_certificate(
            version=3,
            serial_number=derproved.write_unsigned_integer(7),
            signature=self.algorithm,
            issuer=self.name,
            not_before=BEGIN,
            not_after=END,
            subject=of.name,
            subject_public_key_info=of.key,
            extensions=extensions,
        )
        return derproved.write_certificate(
            tbs_certificate=body, signature_algorithm=self.algorithm, signature_value=self.sign(body)
        )


@unittest.skipIf(serialization is None, "cryptography is not there")
class Paths(unittest.TestCase):
    def setUp(self) -> None:
        self.root, self.middle, self.end = Authority("root", "rsa"), Authority("middle", "ed"), Authority("end")
        authority = extension("2.5.29.19", derproved.write_sequence([derproved.write_boolean(True)]))
        self.policy = derproved.write_object_identifier("2.5.29.32.1")
        policies = derproved.write_sequence([derproved.write_sequence([self.policy])])
        host = derproved.write_sequence([derproved.write_general_name(DNS_NAME, b"one.mill.example")])
        self.extensions = [extension("2.5.29.32", policies), extension("2.5.29.17", host)]
        self.chain = [
            self.root.issue(self.middle, [authority, self.extensions[0]]), self.middle.issue(self.end, self.extensions)
        ]
        self.inputs = {"moment": END, "anchor_name": self.root.name, "anchor_key": self.root.key}

    def assert_refused(self, chain, number, index, step, **inputs) -> PathError:
        with self.assertRaises(PathError) as caught:
            derproved.check_path(chain, **{**self.inputs, **inputs})
        found = caught.exception
        self.assertEqual((found.number, found.index, found.step), (number, index, step))
        return found

    def test_what_has_to_verify(self) -> None:
        path = derproved.check_path(self.chain, **self.inputs)
        keys = [self.root.key, self.middle.key]
        for octets, key, one in zip(self.chain, keys, path.verifications):
            certificate = derproved.Certificate(octets)
            self.assertEqual(one.signed, certificate.tbs_certificate)
            self.assertEqual(one.algorithm, certificate.signature_algorithm)
            self.assertEqual(one.signature, certificate.signature_value)
            self.assertEqual((one.key, one.working_key), (key, key))
            self.assertEqual(one.signature_octets, bytes(derproved.contents(certificate.signature_value))[1:])
        self.assertEqual([one.parameters for one in path.verifications], [None, None])

    def test_inherited_parameters(self) -> None:
        parameters = derproved.write_object_identifier("1.2.840.10045.3.1.7")
        algorithm, key = derproved.encodings(self.end.key)
        bare = derproved.write_sequence([derproved.write_algorithm_identifier("1.2.840.10045.2.1"), bytes(key)])
        one = derproved.Verification(b"", b"", b"", bare, parameters)
        self.assertEqual(one.working_key, self.end.key)

    def test_steps(self) -> None:
        self.assert_refused(self.chain, 104, 0, Step.VALIDITY, moment=END + timedelta(seconds=1))
        self.assert_refused(self.chain, 104, 0, Step.ISSUER, anchor_name=self.end.name)
        self.assert_refused(self.chain[1:], 104, 0, Step.ISSUER)
        other = [self.root.issue(self.middle), self.chain[1]]
        found = self.assert_refused(other, 104, 0, Step.CA)
        self.assertEqual(str(found), "certificate 0: 6.1.4 (k) refuses it")
        again = pickle.loads(pickle.dumps(found))
        self.assertEqual((again.number, again.index, again.step), (104, 0, Step.CA))

    def test_what_is_not_read(self) -> None:
        self.assert_refused([], 106, None, None)
        self.assert_refused(self.chain, 4, None, None, anchor_key=b"\x05\x00")
        found = self.assert_refused([self.chain[0], b"\x30\x03\x02\x01\x05"], 4, 1, None)
        with self.assertRaises(derproved.Error) as caught:
            derproved.Certificate(b"\x30\x03\x02\x01\x05")
        self.assertEqual(found.position, caught.exception.position)

    def test_policies(self) -> None:
        path = derproved.check_path(self.chain, **self.inputs, policies=[self.policy], explicit_policy=True)
        self.assertEqual(path.policies, [self.policy])
        other = derproved.write_object_identifier("2.5.29.32.2")
        self.assert_refused(self.chain, 104, 1, Step.USER_POLICIES, policies=[other], explicit_policy=True)

    def test_constraints(self) -> None:
        for name, is_permitted in [(b"mill.example", True), (b"other.example", False)]:
            base = derproved.write_sequence([derproved.write_general_name(DNS_NAME, name)])
            constraints = derproved.write_sequence([derproved.write_implicit_sequence(0, [base])])
            if is_permitted:
                derproved.check_path(self.chain, **self.inputs, constraints=constraints)
            else:
                self.assert_refused(self.chain, 104, 1, Step.PERMITTED, constraints=constraints)

    def test_the_example(self) -> None:
        spec = importlib.util.spec_from_file_location("path_example", EXAMPLE)
        example = importlib.util.module_from_spec(spec)
        spec.loader.exec_module(example)
        own = self.root.issue(self.root)
        broken = self.chain[1][:-1] + bytes([self.chain[1][-1] ^ 1])
        with tempfile.TemporaryDirectory() as folder:
            files = {"own": own, "middle": self.chain[0], "end": self.chain[1], "broken": broken}
            for name, octets in files.items():
                (Path(folder) / name).write_bytes(octets)
            for names, text in [
                ("own middle end", "valid"),
                ("own middle broken", "refused 1 6.1.3 (a)(1)"),
                ("own end", "refused 0 6.1.3 (a)(4)"),
            ]:
                words = [f"{folder}/{name}" for name in names.split()]
                self.assertEqual(example.told(str(int(BEGIN.timestamp())), *words), text)

    def test_the_lines_of_the_page(self) -> None:
        own, verified = self.root.issue(self.root), []
        names = {"octets": own, "trusted": derproved.Certificate(own), "now": BEGIN, "chain": self.chain}
        names["verify"] = lambda *fields: verified.append(fields)
        names["crl"] = self.root.list_with(self.chain[0])
        for lines in re.findall("```python\n(.*?)```", (FOLDER / "README.md").read_text(encoding="utf-8"), re.S):
            with contextlib.redirect_stdout(io.StringIO()):
                exec(lines, names)
        self.assertEqual(len(verified), 2)
        signer = ed25519.Ed25519PrivateKey.generate()
        key = signer.public_key().public_bytes_raw()
        found = x509.load_der_x509_certificate(names["issue"](derproved.Certificate(own), key, signer.sign))
        signer.public_key().verify(found.signature, found.tbs_certificate_bytes)


if __name__ == "__main__":
    unittest.main()
