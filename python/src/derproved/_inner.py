"""Messages that stand within others: the values of extensions, parameters of algorithms, keys, and parts of requests, of
encrypted messages, of time stamps and of PKCS #12 files."""

from __future__ import annotations

from . import _der

# written by tools/bindings: messages
__all__ = [
    "AccessDescription",
    "Accuracy",
    "AlgorithmIdentifier",
    "AuthorityKeyIdentifier",
    "BasicConstraints",
    "CertBag",
    "CertId",
    "DigestInfo",
    "DistributionPoint",
    "EcPrivateKey",
    "EcdsaSigValue",
    "EncryptedContentInfo",
    "EncryptedData",
    "EncryptedPrivateKeyInfo",
    "EnvelopedData",
    "EssCertIdv2",
    "GeneralSubtree",
    "IssuerAndSerialNumber",
    "IssuingDistributionPoint",
    "KeyTransRecipientInfo",
    "MacData",
    "MessageImprint",
    "NameConstraints",
    "OcspRequest",
    "Pbes2Params",
    "Pbkdf2Params",
    "Pfx",
    "PkiStatusInfo",
    "PolicyConstraints",
    "PolicyInformation",
    "PolicyMapping",
    "PolicyQualifierInfo",
    "Request",
    "RsaPrivateKey",
    "RsaPublicKey",
    "RsassaPssParams",
    "SafeBag",
    "SigningCertificateV2",
    "TbsRequest",
    "TimeStampReq",
    "TimeStampResp",
    "TstInfo",
]


class AlgorithmIdentifier(_der.AlgorithmIdentifier):
    """An algorithm identifier (AlgorithmIdentifier, RFC 5280 4.1.1.2)."""

    __slots__ = ()

    oid = _der.field(0, "`oid`, an OBJECT IDENTIFIER.")
    parameters = _der.optional(1, "`parameters`, what the identifier defines; a NULL has the octets 05 00.")


class RsassaPssParams(_der.RsassaPssParams):
    """A set of parameters of RSASSA-PSS (RSASSA-PSS-params, RFC 4055 3.1). An absent field has its default: SHA-1,
    MGF1 with SHA-1, 20 octets of salt, trailer field 1.
    """

    __slots__ = ()

    hash_algorithm = _der.optional(0, "`hashAlgorithm`, an AlgorithmIdentifier, with the explicit tag [0].")
    mask_gen_algorithm = _der.optional(1, "`maskGenAlgorithm`, an AlgorithmIdentifier, with the explicit tag [1].")
    salt_length = _der.optional(2, "`saltLength`, an INTEGER, with the explicit tag [2].")
    trailer_field = _der.optional(
        3, "`trailerField`, an INTEGER, with the explicit tag [3]; absent where it is the default, 1."
    )


class EcdsaSigValue(_der.EcdsaSigValue):
    """An ECDSA signature (ECDSA-Sig-Value, RFC 3279 2.2.3)."""

    __slots__ = ()

    r = _der.field(0, "`r`, an INTEGER.")
    s = _der.field(1, "`s`, an INTEGER.")


class Pbes2Params(_der.Pbes2Params):
    """A set of parameters of PBES2 (PBES2-params, RFC 8018 A.4)."""

    __slots__ = ()

    key_derivation_func = _der.field(0, "`keyDerivationFunc`, an AlgorithmIdentifier.")
    encryption_scheme = _der.field(1, "`encryptionScheme`, an AlgorithmIdentifier.")


class Pbkdf2Params(_der.Pbkdf2Params):
    """A set of parameters of PBKDF2 (PBKDF2-params, RFC 8018 A.2)."""

    __slots__ = ()

    salt = _der.field(0, "`salt`, a CHOICE: an OCTET STRING, or an AlgorithmIdentifier.")
    iteration_count = _der.field(1, "`iterationCount`, an INTEGER.")
    key_length = _der.optional(2, "`keyLength`, an INTEGER.")
    prf = _der.optional(3, "`prf`, an AlgorithmIdentifier.")


class RsaPublicKey(_der.RsaPublicKey):
    """A public key of RSA (RSAPublicKey, RFC 8017 A.1.1)."""

    __slots__ = ()

    modulus = _der.field(0, "`modulus`, an INTEGER.")
    public_exponent = _der.field(1, "`publicExponent`, an INTEGER.")


class RsaPrivateKey(_der.RsaPrivateKey):
    """A private key of RSA (RSAPrivateKey, RFC 8017 A.1.2)."""

    __slots__ = ()

    version = _der.field(0, "`version`, an INTEGER.")
    modulus = _der.field(1, "`modulus`, an INTEGER.")
    public_exponent = _der.field(2, "`publicExponent`, an INTEGER.")
    private_exponent = _der.field(3, "`privateExponent`, an INTEGER.")
    prime1 = _der.field(4, "`prime1`, an INTEGER.")
    prime2 = _der.field(5, "`prime2`, an INTEGER.")
    exponent1 = _der.field(6, "`exponent1`, an INTEGER.")
    exponent2 = _der.field(7, "`exponent2`, an INTEGER.")
    coefficient = _der.field(8, "`coefficient`, an INTEGER.")
    other_prime_infos = _der.optional(9, "`otherPrimeInfos`, a SEQUENCE OF OtherPrimeInfo.")


class EcPrivateKey(_der.EcPrivateKey):
    """A private key of an elliptic curve (ECPrivateKey, RFC 5915 section 3)."""

    __slots__ = ()

    version = _der.field(0, "`version`, an INTEGER.")
    private_key = _der.field(1, "`privateKey`, an OCTET STRING.")
    parameters = _der.optional(
        2, "`parameters`, a CHOICE: an OBJECT IDENTIFIER, which names the curve, a NULL, or the curve as a SEQUENCE, with the explicit tag [0]."
    )
    public_key = _der.optional(3, "`publicKey`, a BIT STRING, with the explicit tag [1].")


class EncryptedPrivateKeyInfo(_der.EncryptedPrivateKeyInfo):
    """An encrypted private key (EncryptedPrivateKeyInfo, RFC 5958 section 3)."""

    __slots__ = ()

    encryption_algorithm = _der.field(0, "`encryptionAlgorithm`, an AlgorithmIdentifier.")
    encrypted_data = _der.field(1, "`encryptedData`, an OCTET STRING.")


class AuthorityKeyIdentifier(_der.AuthorityKeyIdentifier):
    """An authority key identifier (AuthorityKeyIdentifier, RFC 5280 4.2.1.1)."""

    __slots__ = ()

    key_identifier = _der.optional(0, "`keyIdentifier`, an OCTET STRING, with the implicit tag [0].")
    authority_cert_issuer = _der.optional(
        1, "`authorityCertIssuer`, a SEQUENCE OF GeneralName, with the implicit tag [1]."
    )
    authority_cert_serial_number = _der.optional(
        2, "`authorityCertSerialNumber`, an INTEGER, with the implicit tag [2]."
    )


class PolicyInformation(_der.PolicyInformation):
    """A certificate policy (PolicyInformation, RFC 5280 4.2.1.4)."""

    __slots__ = ()

    policy_identifier = _der.field(0, "`policyIdentifier`, an OBJECT IDENTIFIER.")
    policy_qualifiers = _der.optional(1, "`policyQualifiers`, a SEQUENCE OF PolicyQualifierInfo.")


class PolicyQualifierInfo(_der.PolicyQualifierInfo):
    """A policy qualifier (PolicyQualifierInfo, RFC 5280 4.2.1.4)."""

    __slots__ = ()

    policy_qualifier_id = _der.field(0, "`policyQualifierId`, an OBJECT IDENTIFIER.")
    qualifier = _der.field(1, "`qualifier`, what `policyQualifierId` defines.")


class PolicyMapping(_der.PolicyMapping):
    """A policy mapping (PolicyMapping, RFC 5280 4.2.1.5)."""

    __slots__ = ()

    issuer_domain_policy = _der.field(0, "`issuerDomainPolicy`, an OBJECT IDENTIFIER.")
    subject_domain_policy = _der.field(1, "`subjectDomainPolicy`, an OBJECT IDENTIFIER.")


class BasicConstraints(_der.BasicConstraints):
    """A set of basic constraints (BasicConstraints, RFC 5280 4.2.1.9)."""

    __slots__ = ()

    ca = _der.optional(0, "`cA`, a BOOLEAN; absent where it is the default, FALSE.")
    path_len_constraint = _der.optional(1, "`pathLenConstraint`, an INTEGER.")


class NameConstraints(_der.NameConstraints):
    """A set of name constraints (NameConstraints, RFC 5280 4.2.1.10)."""

    __slots__ = ()

    permitted_subtrees = _der.optional(
        0, "`permittedSubtrees`, a SEQUENCE OF GeneralSubtree, with the implicit tag [0]."
    )
    excluded_subtrees = _der.optional(1, "`excludedSubtrees`, a SEQUENCE OF GeneralSubtree, with the implicit tag [1].")


class GeneralSubtree(_der.GeneralSubtree):
    """A subtree of names (GeneralSubtree, RFC 5280 4.2.1.10)."""

    __slots__ = ()

    base = _der.field(0, "`base`, a GeneralName.")
    minimum = _der.optional(1, "`minimum`, an INTEGER, with the implicit tag [0]; absent where it is the default, 0.")
    maximum = _der.optional(2, "`maximum`, an INTEGER, with the implicit tag [1].")


class PolicyConstraints(_der.PolicyConstraints):
    """A set of policy constraints (PolicyConstraints, RFC 5280 4.2.1.11)."""

    __slots__ = ()

    require_explicit_policy = _der.optional(0, "`requireExplicitPolicy`, an INTEGER, with the implicit tag [0].")
    inhibit_policy_mapping = _der.optional(1, "`inhibitPolicyMapping`, an INTEGER, with the implicit tag [1].")


class DistributionPoint(_der.DistributionPoint):
    """A distribution point (DistributionPoint, RFC 5280 4.2.1.13)."""

    __slots__ = ()

    distribution_point = _der.optional(
        0, "`distributionPoint`, a CHOICE of `fullName`, with the implicit tag [0], and `nameRelativeToCRLIssuer`, with [1], with the explicit tag [0]."
    )
    reasons = _der.optional(1, "`reasons`, a BIT STRING, with the implicit tag [1].")
    crl_issuer = _der.optional(2, "`cRLIssuer`, a SEQUENCE OF GeneralName, with the implicit tag [2].")


class AccessDescription(_der.AccessDescription):
    """An access description (AccessDescription, RFC 5280 4.2.2.1)."""

    __slots__ = ()

    access_method = _der.field(0, "`accessMethod`, an OBJECT IDENTIFIER.")
    access_location = _der.field(1, "`accessLocation`, a GeneralName.")


class IssuingDistributionPoint(_der.IssuingDistributionPoint):
    """An issuing distribution point (IssuingDistributionPoint, RFC 5280 5.2.5)."""

    __slots__ = ()

    distribution_point = _der.optional(
        0, "`distributionPoint`, a CHOICE of `fullName`, with the implicit tag [0], and `nameRelativeToCRLIssuer`, with [1], with the explicit tag [0]."
    )
    only_contains_user_certs = _der.optional(
        1, "`onlyContainsUserCerts`, a BOOLEAN, with the implicit tag [1]; absent where it is the default, FALSE."
    )
    only_contains_ca_certs = _der.optional(
        2, "`onlyContainsCACerts`, a BOOLEAN, with the implicit tag [2]; absent where it is the default, FALSE."
    )
    only_some_reasons = _der.optional(3, "`onlySomeReasons`, a BIT STRING, with the implicit tag [3].")
    indirect_crl = _der.optional(
        4, "`indirectCRL`, a BOOLEAN, with the implicit tag [4]; absent where it is the default, FALSE."
    )
    only_contains_attribute_certs = _der.optional(
        5, "`onlyContainsAttributeCerts`, a BOOLEAN, with the implicit tag [5]; absent where it is the default, FALSE."
    )


class OcspRequest(_der.OcspRequest):
    """An OCSP request (OCSPRequest, RFC 6960 4.1.1)."""

    __slots__ = ()

    tbs_request = _der.field(0, "`tbsRequest`, a TBSRequest.")
    optional_signature = _der.optional(1, "`optionalSignature`, a Signature, with the explicit tag [0].")


class TbsRequest(_der.TbsRequest):
    """A body of an OCSP request (TBSRequest, RFC 6960 4.1.1)."""

    __slots__ = ()

    version = _der.optional(0, "`version`, an INTEGER, with the explicit tag [0]; absent where it is the default, v1.")
    requestor_name = _der.optional(1, "`requestorName`, a GeneralName, with the explicit tag [1].")
    request_list = _der.field(2, "`requestList`, a SEQUENCE OF Request.")
    request_extensions = _der.optional(3, "`requestExtensions`, a SEQUENCE OF Extension, with the explicit tag [2].")


class Request(_der.Request):
    """A request about one certificate (Request, RFC 6960 4.1.1)."""

    __slots__ = ()

    req_cert = _der.field(0, "`reqCert`, a CertID.")
    single_request_extensions = _der.optional(
        1, "`singleRequestExtensions`, a SEQUENCE OF Extension, with the explicit tag [0]."
    )


class CertId(_der.CertId):
    """A certificate's identifier in OCSP (CertID, RFC 6960 4.1.1)."""

    __slots__ = ()

    hash_algorithm = _der.field(0, "`hashAlgorithm`, an AlgorithmIdentifier.")
    issuer_name_hash = _der.field(1, "`issuerNameHash`, an OCTET STRING.")
    issuer_key_hash = _der.field(2, "`issuerKeyHash`, an OCTET STRING.")
    serial_number = _der.field(3, "`serialNumber`, an INTEGER.")


class IssuerAndSerialNumber(_der.IssuerAndSerialNumber):
    """An issuer and serial number (IssuerAndSerialNumber, RFC 5652 10.2.4)."""

    __slots__ = ()

    issuer = _der.field(0, "`issuer`, a Name.")
    serial_number = _der.field(1, "`serialNumber`, an INTEGER.")


class EnvelopedData(_der.EnvelopedData):
    """An enveloped message (EnvelopedData, RFC 5652 6.1)."""

    __slots__ = ()

    version = _der.field(0, "`version`, an INTEGER.")
    originator_info = _der.optional(1, "`originatorInfo`, an OriginatorInfo, with the implicit tag [0].")
    recipient_infos = _der.field(2, "`recipientInfos`, a SET OF RecipientInfo.")
    encrypted_content_info = _der.field(3, "`encryptedContentInfo`, an EncryptedContentInfo.")
    unprotected_attrs = _der.optional(4, "`unprotectedAttrs`, a SET OF Attribute, with the implicit tag [1].")


class EncryptedContentInfo(_der.EncryptedContentInfo):
    """An encrypted content (EncryptedContentInfo, RFC 5652 6.1)."""

    __slots__ = ()

    content_type = _der.field(0, "`contentType`, an OBJECT IDENTIFIER.")
    content_encryption_algorithm = _der.field(1, "`contentEncryptionAlgorithm`, an AlgorithmIdentifier.")
    encrypted_content = _der.optional(2, "`encryptedContent`, an OCTET STRING, with the implicit tag [0].")


class KeyTransRecipientInfo(_der.KeyTransRecipientInfo):
    """A recipient with a key that is transported (KeyTransRecipientInfo, RFC 5652 6.2.1)."""

    __slots__ = ()

    version = _der.field(0, "`version`, an INTEGER.")
    rid = _der.field(1, "`rid`, a CHOICE: an IssuerAndSerialNumber, or with its implicit tag [0] a key identifier.")
    key_encryption_algorithm = _der.field(2, "`keyEncryptionAlgorithm`, an AlgorithmIdentifier.")
    encrypted_key = _der.field(3, "`encryptedKey`, an OCTET STRING.")


class EncryptedData(_der.EncryptedData):
    """An encrypted message (EncryptedData, RFC 5652 section 8)."""

    __slots__ = ()

    version = _der.field(0, "`version`, an INTEGER.")
    encrypted_content_info = _der.field(1, "`encryptedContentInfo`, an EncryptedContentInfo.")
    unprotected_attrs = _der.optional(2, "`unprotectedAttrs`, a SET OF Attribute, with the implicit tag [1].")


class SigningCertificateV2(_der.SigningCertificateV2):
    """A list of the certificates of a signer (SigningCertificateV2, RFC 5035 section 3)."""

    __slots__ = ()

    certs = _der.field(0, "`certs`, a SEQUENCE OF ESSCertIDv2.")
    policies = _der.optional(1, "`policies`, a SEQUENCE OF PolicyInformation.")


class EssCertIdv2(_der.EssCertIdv2):
    """A certificate's hash value (ESSCertIDv2, RFC 5035 section 4)."""

    __slots__ = ()

    hash_algorithm = _der.optional(0, "`hashAlgorithm`, an AlgorithmIdentifier.")
    cert_hash = _der.field(1, "`certHash`, an OCTET STRING.")
    issuer_serial = _der.optional(2, "`issuerSerial`, an IssuerSerial.")


class TimeStampReq(_der.TimeStampReq):
    """A request for a time stamp (TimeStampReq, RFC 3161 2.4.1)."""

    __slots__ = ()

    version = _der.field(0, "`version`, an INTEGER.")
    message_imprint = _der.field(1, "`messageImprint`, a MessageImprint.")
    req_policy = _der.optional(2, "`reqPolicy`, an OBJECT IDENTIFIER.")
    nonce = _der.optional(3, "`nonce`, an INTEGER.")
    cert_req = _der.optional(4, "`certReq`, a BOOLEAN; absent where it is the default, FALSE.")
    extensions = _der.optional(5, "`extensions`, a SEQUENCE OF Extension, with the implicit tag [0].")


class MessageImprint(_der.MessageImprint):
    """A hash value of what is stamped (MessageImprint, RFC 3161 2.4.1)."""

    __slots__ = ()

    hash_algorithm = _der.field(0, "`hashAlgorithm`, an AlgorithmIdentifier.")
    hashed_message = _der.field(1, "`hashedMessage`, an OCTET STRING.")


class TimeStampResp(_der.TimeStampResp):
    """A response with a time stamp (TimeStampResp, RFC 3161 2.4.2)."""

    __slots__ = ()

    status = _der.field(0, "`status`, a PKIStatusInfo.")
    time_stamp_token = _der.optional(1, "`timeStampToken`, a ContentInfo.")


class PkiStatusInfo(_der.PkiStatusInfo):
    """A status of a response (PKIStatusInfo, RFC 3161 2.4.2)."""

    __slots__ = ()

    status = _der.field(0, "`status`, an INTEGER.")
    status_string = _der.optional(1, "`statusString`, a SEQUENCE OF UTF8String.")
    fail_info = _der.optional(2, "`failInfo`, a BIT STRING.")


class TstInfo(_der.TstInfo):
    """A time stamp (TSTInfo, RFC 3161 2.4.2)."""

    __slots__ = ()

    version = _der.field(0, "`version`, an INTEGER.")
    policy = _der.field(1, "`policy`, an OBJECT IDENTIFIER.")
    message_imprint = _der.field(2, "`messageImprint`, a MessageImprint.")
    serial_number = _der.field(3, "`serialNumber`, an INTEGER.")
    gen_time = _der.field(4, "`genTime`, a GeneralizedTime.")
    accuracy = _der.optional(5, "`accuracy`, an Accuracy.")
    ordering = _der.optional(6, "`ordering`, a BOOLEAN; absent where it is the default, FALSE.")
    nonce = _der.optional(7, "`nonce`, an INTEGER.")
    tsa = _der.optional(8, "`tsa`, a GeneralName, with the explicit tag [0].")
    extensions = _der.optional(9, "`extensions`, a SEQUENCE OF Extension, with the implicit tag [1].")


class Accuracy(_der.Accuracy):
    """An accuracy of a time (Accuracy, RFC 3161 2.4.2)."""

    __slots__ = ()

    seconds = _der.optional(0, "`seconds`, an INTEGER.")
    millis = _der.optional(1, "`millis`, an INTEGER, with the implicit tag [0].")
    micros = _der.optional(2, "`micros`, an INTEGER, with the implicit tag [1].")


class Pfx(_der.Pfx):
    """A PKCS 12 file (PFX, RFC 7292 section 4)."""

    __slots__ = ()

    version = _der.field(0, "`version`, an INTEGER.")
    auth_safe = _der.field(1, "`authSafe`, a ContentInfo of RFC 2315 section 7, whose content may be absent.")
    mac_data = _der.optional(2, "`macData`, a MacData.")


class MacData(_der.MacData):
    """A MAC of a PKCS 12 file (MacData, RFC 7292 section 4)."""

    __slots__ = ()

    mac = _der.field(0, "`mac`, a DigestInfo.")
    mac_salt = _der.field(1, "`macSalt`, an OCTET STRING.")
    iterations = _der.optional(2, "`iterations`, an INTEGER.")


class DigestInfo(_der.DigestInfo):
    """A hash value with its algorithm (DigestInfo, RFC 8017 9.2)."""

    __slots__ = ()

    digest_algorithm = _der.field(0, "`digestAlgorithm`, an AlgorithmIdentifier.")
    digest = _der.field(1, "`digest`, an OCTET STRING.")


class SafeBag(_der.SafeBag):
    """A bag of a PKCS 12 file (SafeBag, RFC 7292 4.2)."""

    __slots__ = ()

    bag_id = _der.field(0, "`bagId`, an OBJECT IDENTIFIER.")
    bag_value = _der.field(1, "`bagValue`, what `bagId` defines, with the explicit tag [0].")
    bag_attributes = _der.optional(2, "`bagAttributes`, a SET OF Attribute.")


class CertBag(_der.CertBag):
    """A certificate in a bag (CertBag, RFC 7292 4.2.3)."""

    __slots__ = ()

    cert_id = _der.field(0, "`certId`, an OBJECT IDENTIFIER.")
    cert_value = _der.field(1, "`certValue`, what `certId` defines, with the explicit tag [0].")
# end of messages
