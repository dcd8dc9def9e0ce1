"""Writes more than 500 messages with `cryptography`: certificates, lists, requests, OCSP responses, keys and signed messages, with
names, dates and extensions of many kinds. They are the same in each run, except for keys and signatures."""

import base64
import random
from datetime import datetime, timedelta

from cryptography import x509
from cryptography.hazmat.primitives import hashes, serialization
from cryptography.hazmat.primitives.asymmetric import ec, ed448, ed25519, rsa, x25519
from cryptography.hazmat.primitives.serialization import pkcs7
from cryptography.x509 import ocsp
from cryptography.x509.oid import ExtendedKeyUsageOID, NameOID, ObjectIdentifier

PEM, DER = serialization.Encoding.PEM, serialization.Encoding.DER
COUNTS = {"certificate": 260, "early": 12, "list": 70, "request": 60, "response": 70, "key": 24, "signed": 30}
NAMES = [NameOID.COMMON_NAME, NameOID.ORGANIZATION_NAME, NameOID.LOCALITY_NAME, NameOID.SURNAME, NameOID.TITLE]
REASONS = [it for it in x509.ReasonFlags if it.name != "unspecified"]
TEXTS = ["mill", "Gerste & Söhne", "a, b + c = \"d\"", "麦", "x" * 60, " space ", "#5"]


class Maker:
    """Makes messages from one seed, which one key signs; the key of a certificate."""

    def __init__(self, key, own):
        self.key, self.own = key, own
        self.random = random.Random(5280)
        self.public = [it.generate().public_key() for it in (ed25519.Ed25519PrivateKey, x25519.X25519PrivateKey, ed448.Ed448PrivateKey)]
        self.public += [key.public_key(), rsa.generate_private_key(65537, 2048).public_key()]

    def moment(self, least, most):
        """A date in a range of years; often its first or last one, or the last UTCTime or the first GeneralizedTime."""
        first, last = datetime(least, 1, 1), datetime(most, 12, 31, 23, 59, 59)
        edges = [first, last, datetime(2049, 12, 31, 23, 59, 59), datetime(2050, 1, 1), datetime(2000, 2, 29)]
        if not self.random.randrange(5):
            return self.random.choice([it for it in edges if first <= it <= last])
        return first + timedelta(seconds=self.random.randrange(int((last - first).total_seconds())))

    def name(self):
        """A name of up to four parts, some with several attributes."""
        parts = [x509.RelativeDistinguishedName([x509.NameAttribute(NameOID.COUNTRY_NAME, self.random.choice(["GB", "DE", "JP"]))])]
        for _ in range(self.random.randrange(4)):
            types = self.random.sample(NAMES, self.random.choice([1, 1, 1, 2, 3]))
            parts.append(x509.RelativeDistinguishedName([x509.NameAttribute(it, self.random.choice(TEXTS)) for it in types]))
        return x509.Name(parts)

    def serial(self):
        return self.random.choice([1, 127, 128, 255, 256, self.random.getrandbits(159) | 1, self.random.getrandbits(64) | 1])

    def general_names(self):
        names = [x509.DNSName("mill.example"), x509.RFC822Name("a@mill.example"), x509.UniformResourceIdentifier("http://mill.example/")]
        names += [x509.DirectoryName(self.name()), x509.RegisteredID(ObjectIdentifier("1.2.840.113549.1")), x509.DNSName("*.mill.example")]
        return self.random.sample(names, self.random.randrange(1, len(names)))

    def extensions(self, builder):
        """Some extensions, each once."""
        usage = [self.random.random() < 0.5 for _ in range(6)]
        points = [x509.DistributionPoint([x509.UniformResourceIdentifier("http://mill.example/list")], None, None, None)]
        known = [
            x509.BasicConstraints(False, None), x509.BasicConstraints(True, self.random.randrange(3)),
            x509.KeyUsage(True, *usage[:3], False, *usage[3:5], False, False), x509.SubjectAlternativeName(self.general_names()),
            x509.ExtendedKeyUsage([ExtendedKeyUsageOID.SERVER_AUTH, ObjectIdentifier("2.999.1")]), x509.CRLDistributionPoints(points),
            x509.SubjectKeyIdentifier.from_public_key(self.key.public_key()), x509.OCSPNoCheck(), x509.InhibitAnyPolicy(3),
            x509.AuthorityKeyIdentifier.from_issuer_public_key(self.key.public_key()), x509.PolicyConstraints(1, None),
            x509.NameConstraints([x509.DNSName(".mill.example")], None), x509.IssuerAlternativeName(self.general_names()),
            x509.UnrecognizedExtension(ObjectIdentifier("1.3.6.1.4.1.99999.7"), self.random.randbytes(self.random.randrange(200))),
        ]
        chosen = {it.oid: it for it in self.random.sample(known, self.random.randrange(8))}
        for it in chosen.values():
            builder = builder.add_extension(it, critical=self.random.random() < 0.4)
        return builder

    def certificate(self, least=1970):
        before = self.moment(least, 1969 if least < 1970 else 2060)
        after = before + timedelta(seconds=self.random.randrange(1, 10**9))
        builder = x509.CertificateBuilder().subject_name(self.name()).issuer_name(self.name()).serial_number(self.serial())
        builder = builder.public_key(self.random.choice(self.public)).not_valid_before(before).not_valid_after(after)
        return self.extensions(builder).sign(self.key, hashes.SHA256()).public_bytes(PEM)

    def early(self):
        """A certificate whose first date is before 1970."""
        return self.certificate(1950)

    def list(self):
        before = self.moment(1970, 2060)
        builder = x509.CertificateRevocationListBuilder().issuer_name(self.name()).last_update(before)
        builder = builder.next_update(before + timedelta(days=7)).add_extension(x509.CRLNumber(self.random.getrandbits(40)), False)
        for number in range(self.random.randrange(12)):
            entry = x509.RevokedCertificateBuilder().serial_number(self.serial() + number).revocation_date(self.moment(1970, 2060))
            if self.random.random() < 0.5:
                entry = entry.add_extension(x509.CRLReason(self.random.choice(REASONS)), False)
            if self.random.random() < 0.3:
                entry = entry.add_extension(x509.InvalidityDate(self.moment(1990, 2040).replace(microsecond=0)), False)
            builder = builder.add_revoked_certificate(entry.build())
        return builder.sign(self.key, hashes.SHA256()).public_bytes(PEM)

    def request(self):
        builder = x509.CertificateSigningRequestBuilder().subject_name(self.name())
        if self.random.random() < 0.5:
            builder = builder.add_attribute(x509.oid.AttributeOID.CHALLENGE_PASSWORD, b"secret")
        return self.extensions(builder).sign(self.key, hashes.SHA256()).public_bytes(PEM)

    def response(self):
        """A response about one certificate, or one that says why there is none."""
        status = self.random.choice([*ocsp.OCSPResponseStatus, *[ocsp.OCSPResponseStatus.SUCCESSFUL] * 12])
        if status is not ocsp.OCSPResponseStatus.SUCCESSFUL:
            return labelled("OCSP RESPONSE", ocsp.OCSPResponseBuilder.build_unsuccessful(status).public_bytes(DER))
        issuer, before = x509.load_pem_x509_certificate(self.certificate()), self.moment(1970, 2060)
        status = self.random.choice(list(ocsp.OCSPCertStatus))
        is_revoked = status is ocsp.OCSPCertStatus.REVOKED
        builder = ocsp.OCSPResponseBuilder().add_response(
            cert=issuer, issuer=issuer, algorithm=self.random.choice([hashes.SHA1(), hashes.SHA256()]), cert_status=status,
            this_update=before, next_update=self.random.choice([None, before + timedelta(days=7)]),
            revocation_time=self.moment(1970, 2060) if is_revoked else None,
            revocation_reason=self.random.choice([None, x509.ReasonFlags.key_compromise]) if is_revoked else None,
        )
        builder = builder.responder_id(self.random.choice(list(ocsp.OCSPResponderEncoding)), self.own)
        return labelled("OCSP RESPONSE", builder.sign(self.key, hashes.SHA256()).public_bytes(DER))

    def key_pair(self):
        """A private key of another kind than the one that signs."""
        kinds = [ed25519.Ed25519PrivateKey, x25519.X25519PrivateKey, ed448.Ed448PrivateKey]
        key = self.random.choice(kinds).generate()
        return key.private_bytes(PEM, serialization.PrivateFormat.PKCS8, serialization.NoEncryption())

    def signed(self):
        content = self.random.randbytes(self.random.randrange(400))
        options = [[pkcs7.PKCS7Options.Binary], [pkcs7.PKCS7Options.Binary, pkcs7.PKCS7Options.NoCerts]]
        options += [[pkcs7.PKCS7Options.Binary, pkcs7.PKCS7Options.NoCapabilities]]
        builder = pkcs7.PKCS7SignatureBuilder().set_data(content).add_signer(self.own, self.key, hashes.SHA256())
        return labelled("CMS", builder.sign(DER, self.random.choice(options)))


def labelled(label, octets):
    """Octets as PEM."""
    return f"-----BEGIN {label}-----\n{base64.encodebytes(octets).decode()}-----END {label}-----\n".encode()


def write(path, key_file, certificate_file):
    """Writes all messages to a PEM file; gives how many they are."""
    with open(key_file, "rb") as key, open(certificate_file, "rb") as certificate:
        maker = Maker(serialization.load_pem_private_key(key.read(), None), x509.load_pem_x509_certificate(certificate.read()))
    kinds = {"certificate": maker.certificate, "early": maker.early, "list": maker.list, "request": maker.request}
    kinds.update({"response": maker.response, "key": maker.key_pair, "signed": maker.signed})
    made = [make() for kind, make in kinds.items() for _ in range(COUNTS[kind])]
    with open(path, "wb") as file:
        file.writelines(made)
    return len(made)
