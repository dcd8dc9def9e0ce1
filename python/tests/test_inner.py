"""Messages that stand within others, beside `cryptography`."""

import ipaddress
import unittest
from datetime import datetime, timezone

from cryptography import x509
from cryptography.hazmat.primitives import hashes, serialization
from cryptography.hazmat.primitives.asymmetric import ec, padding, rsa, utils
from cryptography.x509 import ocsp
from cryptography.x509.oid import AuthorityInformationAccessOID, ObjectIdentifier, SubjectInformationAccessOID

import derproved
from derproved import contents, encodings, general_name, named_bits, unsigned_integer

MOMENT = datetime(2026, 1, 2, 3, 4, 5, tzinfo=timezone.utc)
NAME = x509.Name([x509.NameAttribute(x509.NameOID.COMMON_NAME, "one")])
HOSTS = [
    x509.DNSName("a.example"),
    x509.RFC822Name("a@example"),
    x509.UniformResourceIdentifier("http://a/"),
    x509.IPAddress(ipaddress.ip_address("127.0.0.1")),
    x509.DirectoryName(NAME),
    x509.RegisteredID(ObjectIdentifier("1.2.3")),
    x509.OtherName(ObjectIdentifier("1.2.4"), b"\x05\x00"),
]


def integer(encoding):
    """The number of an INTEGER of any length."""
    return int.from_bytes(contents(encoding), signed=True)


def value_of(extension):
    """The encoding of the value of an extension that `cryptography` writes."""
    return extension.public_bytes()


class Keys(unittest.TestCase):
    def test_rsa(self):
        key = rsa.generate_private_key(65537, 2048)
        public, private = key.public_key().public_numbers(), key.private_numbers()
        info = derproved.SubjectPublicKeyInfo(
            key.public_key().public_bytes(serialization.Encoding.DER, serialization.PublicFormat.SubjectPublicKeyInfo)
        )
        algorithm = derproved.AlgorithmIdentifier(info.algorithm)
        self.assertEqual(bytes(contents(algorithm.oid)).hex(), "2a864886f70d010101")
        self.assertEqual(bytes(algorithm.parameters), b"\x05\x00")
        read = derproved.RsaPublicKey(contents(info.subject_public_key)[1:])
        self.assertEqual((integer(read.modulus), unsigned_integer(read.public_exponent)), (public.n, public.e))
        der = key.private_bytes(
            serialization.Encoding.DER, serialization.PrivateFormat.TraditionalOpenSSL, serialization.NoEncryption()
        )
        mine = derproved.RsaPrivateKey(der)
        self.assertEqual([integer(it) for it in (mine.modulus, mine.public_exponent, mine.private_exponent, mine.prime1, mine.prime2)],
                         [public.n, public.e, private.d, private.p, private.q])
        self.assertEqual([integer(it) for it in (mine.exponent1, mine.exponent2, mine.coefficient)],
                         [private.dmp1, private.dmq1, private.iqmp])
        self.assertIsNone(mine.other_prime_infos)

    def test_elliptic_curves(self):
        key = ec.generate_private_key(ec.SECP256R1())
        der = key.private_bytes(
            serialization.Encoding.DER, serialization.PrivateFormat.TraditionalOpenSSL, serialization.NoEncryption()
        )
        read = derproved.EcPrivateKey(der)
        self.assertEqual(int.from_bytes(contents(read.private_key)), key.private_numbers().private_value)
        self.assertEqual(bytes(contents(contents(read.parameters))).hex(), "2a8648ce3d030107")
        point = key.public_key().public_bytes(serialization.Encoding.X962, serialization.PublicFormat.UncompressedPoint)
        self.assertEqual(bytes(contents(contents(read.public_key)))[1:], point)
        signature = key.sign(b"text", ec.ECDSA(hashes.SHA256()))
        numbers = derproved.EcdsaSigValue(signature)
        self.assertEqual((integer(numbers.r), integer(numbers.s)), utils.decode_dss_signature(signature))

    def test_encrypted_keys(self):
        key = ec.generate_private_key(ec.SECP256R1())
        der = key.private_bytes(
            serialization.Encoding.DER, serialization.PrivateFormat.PKCS8, serialization.BestAvailableEncryption(b"secret")
        )
        info = derproved.EncryptedPrivateKeyInfo(der)
        algorithm = derproved.AlgorithmIdentifier(info.encryption_algorithm)
        self.assertEqual(bytes(contents(algorithm.oid)).hex(), "2a864886f70d01050d")
        scheme = derproved.Pbes2Params(algorithm.parameters)
        derivation = derproved.Pbkdf2Params(derproved.AlgorithmIdentifier(scheme.key_derivation_func).parameters)
        self.assertGreater(unsigned_integer(derivation.iteration_count), 999)
        self.assertIn(len(contents(derivation.salt)), (8, 16))

    def test_pss(self):
        key = rsa.generate_private_key(65537, 2048)
        built = x509.CertificateSigningRequestBuilder().subject_name(NAME).sign(
            key, hashes.SHA256(), rsa_padding=padding.PSS(padding.MGF1(hashes.SHA256()), 32)
        )
        request = derproved.CertificationRequest(built.public_bytes(serialization.Encoding.DER))
        algorithm = derproved.AlgorithmIdentifier(request.signature_algorithm)
        params = derproved.RsassaPssParams(algorithm.parameters)
        self.assertEqual(unsigned_integer(contents(params.salt_length)), 32)
        self.assertEqual(bytes(contents(derproved.AlgorithmIdentifier(contents(params.hash_algorithm)).oid)).hex(), "608648016503040201")
        self.assertIsNone(params.trailer_field)


class Extensions(unittest.TestCase):
    def test_names(self):
        names = list(encodings(value_of(x509.SubjectAlternativeName(HOSTS))))
        read = [general_name(it) for it in names]
        self.assertEqual([kind.name for kind, _ in read],
                         ["DNS_NAME", "RFC822_NAME", "URI", "IP_ADDRESS", "DIRECTORY_NAME", "REGISTERED_ID", "OTHER_NAME"])
        self.assertEqual([bytes(value) for _, value in read[:4]], [b"a.example", b"a@example", b"http://a/", b"\x7f\0\0\1"])
        self.assertEqual(bytes(read[4][1]), NAME.public_bytes())

    def test_usage(self):
        names = ("digital_signature", "content_commitment", "key_encipherment", "data_encipherment", "key_agreement",
                 "key_cert_sign", "crl_sign", "encipher_only", "decipher_only")
        for chosen in range(1, 1 << 9):
            if chosen >> 7 and not chosen & 1 << 4:
                continue  # the last two go with keyAgreement
            usage = x509.KeyUsage(**{name: bool(chosen >> bit & 1) for bit, name in enumerate(names)})
            self.assertEqual(named_bits(value_of(usage)), chosen)

    def test_constraints(self):
        for is_ca, most in ((True, 3), (True, None), (False, None)):
            read = derproved.BasicConstraints(value_of(x509.BasicConstraints(is_ca, most)))
            self.assertEqual(read.ca is not None, is_ca)
            self.assertEqual(most, read.path_len_constraint and unsigned_integer(read.path_len_constraint))
        read = derproved.PolicyConstraints(value_of(x509.PolicyConstraints(1, 2)))
        self.assertEqual((bytes(read.require_explicit_policy), bytes(read.inhibit_policy_mapping)), (b"\x80\1\1", b"\x81\1\2"))
        limits = x509.NameConstraints([x509.DNSName("example")], [x509.DNSName("b.example"), x509.DirectoryName(NAME)])
        read = derproved.NameConstraints(value_of(limits))
        subtrees = [[derproved.GeneralSubtree(it) for it in encodings(tree)] for tree in (read.permitted_subtrees, read.excluded_subtrees)]
        self.assertEqual([[general_name(it.base)[0] for it in tree] for tree in subtrees], [[2], [2, 4]])
        self.assertIsNone(subtrees[0][0].maximum)

    def test_key_identifiers(self):
        identifier = x509.AuthorityKeyIdentifier(b"key", [x509.DirectoryName(NAME)], 5)
        read = derproved.AuthorityKeyIdentifier(value_of(identifier))
        self.assertEqual((bytes(contents(read.key_identifier)), integer(read.authority_cert_serial_number)), (b"key", 5))
        self.assertEqual(len(list(encodings(read.authority_cert_issuer))), 1)

    def test_policies(self):
        notice = x509.UserNotice(None, "text")
        policies = [x509.PolicyInformation(ObjectIdentifier("1.2.3"), ["http://a/", notice]), x509.PolicyInformation(ObjectIdentifier("1.2.4"), None)]
        read = [derproved.PolicyInformation(it) for it in encodings(value_of(x509.CertificatePolicies(policies)))]
        self.assertEqual([bytes(contents(it.policy_identifier)) for it in read], [b"\x2a\3", b"\x2a\4"])
        qualifiers = [derproved.PolicyQualifierInfo(it) for it in encodings(read[0].policy_qualifiers)]
        self.assertEqual(bytes(contents(qualifiers[0].qualifier)), b"http://a/")
        self.assertIsNone(read[1].policy_qualifiers)
        mapping = derproved.PolicyMapping(bytes.fromhex("3008 06022a03 06022a04"))
        self.assertEqual((bytes(mapping.issuer_domain_policy), bytes(mapping.subject_domain_policy)), (b"\6\2\x2a\3", b"\6\2\x2a\4"))

    def test_access(self):
        described = [x509.AccessDescription(AuthorityInformationAccessOID.OCSP, HOSTS[2]),
                     x509.AccessDescription(SubjectInformationAccessOID.CA_REPOSITORY, HOSTS[0])]
        read = [derproved.AccessDescription(it) for it in encodings(value_of(x509.AuthorityInformationAccess(described)))]
        self.assertEqual([bytes(general_name(it.access_location)[1]) for it in read], [b"http://a/", b"a.example"])
        self.assertEqual(bytes(contents(read[0].access_method)).hex(), "2b06010505073001")

    def test_points(self):
        reasons = frozenset([x509.ReasonFlags.key_compromise, x509.ReasonFlags.aa_compromise])
        points = [x509.DistributionPoint([HOSTS[2]], None, reasons, [x509.DirectoryName(NAME)]), x509.DistributionPoint([HOSTS[2]], None, None, None)]
        read = [derproved.DistributionPoint(it) for it in encodings(value_of(x509.CRLDistributionPoints(points)))]
        names = list(encodings(contents(read[0].distribution_point)))
        self.assertEqual(bytes(general_name(names[0])[1]), b"http://a/")
        self.assertEqual(len(list(encodings(read[0].crl_issuer))), 1)
        self.assertIsNone(read[1].reasons)
        issuing = x509.IssuingDistributionPoint([HOSTS[2]], None, True, False, None, True, False)
        read = derproved.IssuingDistributionPoint(value_of(issuing))
        self.assertEqual([it is not None for it in (read.only_contains_user_certs, read.only_contains_ca_certs, read.indirect_crl)], [True, False, True])


class Requests(unittest.TestCase):
    def test_ocsp(self):
        key = ec.generate_private_key(ec.SECP256R1())
        certificate = (
            x509.CertificateBuilder().subject_name(NAME).issuer_name(NAME).public_key(key.public_key()).serial_number(77)
            .not_valid_before(MOMENT).not_valid_after(MOMENT).sign(key, hashes.SHA256())
        )
        built = ocsp.OCSPRequestBuilder().add_certificate(certificate, certificate, hashes.SHA1()).add_extension(x509.OCSPNonce(b"nonce"), False).build()
        request = derproved.OcspRequest(built.public_bytes(serialization.Encoding.DER))
        self.assertIsNone(request.optional_signature)
        body = derproved.TbsRequest(request.tbs_request)
        [one] = [derproved.Request(it) for it in encodings(body.request_list)]
        of = derproved.CertId(one.req_cert)
        self.assertEqual((bytes(contents(of.issuer_name_hash)), bytes(contents(of.issuer_key_hash))), (built.issuer_name_hash, built.issuer_key_hash))
        self.assertEqual(integer(of.serial_number), 77)
        extension = derproved.Extension(contents(contents(body.request_extensions)))
        self.assertEqual(bytes(contents(extension.value)), b"nonce")


class Values(unittest.TestCase):
    def test_times(self):
        self.assertEqual(derproved.time(b"\x17\x0d" + b"260102030405Z"), MOMENT)
        self.assertEqual(derproved.time(b"\x18\x0f" + b"20260102030405Z"), MOMENT)
        self.assertEqual(derproved.fractional_time(b"\x18\x13" + b"20260102030405.125Z"), MOMENT)
        for octets, number in ((b"\x18\x13" + b"20260102030405.125Z", 13), (b"\x17\x0d" + b"500102030405Z", 13), (b"", 2)):
            with self.assertRaises(derproved.Error) as caught:
                derproved.time(octets)
            self.assertEqual(caught.exception.number, number)

    def test_numbers(self):
        self.assertEqual(unsigned_integer(bytes.fromhex("0209 00ffffffffffffffff")), (1 << 64) - 1)
        for octets, number in (("0209 010000000000000000", 7), ("02 01 80", 13), ("0202 0001", 8)):
            with self.assertRaises(derproved.Error) as caught:
                unsigned_integer(bytes.fromhex(octets))
            self.assertEqual(caught.exception.number, number)

    def test_what_is_no_list(self):
        self.assertEqual(list(encodings(b"")), [])
        self.assertEqual([bytes(it) for it in encodings(bytes.fromhex("3004 0500 0205"))], [b"\x05\x00"])
        self.assertEqual(list(encodings(bytes.fromhex("3005 0500 0205"))), [])


if __name__ == "__main__":
    unittest.main()
