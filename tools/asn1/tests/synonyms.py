"""Where the modules of `asn1` have other words than the standards', with the same octets, and why.

`SOURCES` has the standards' modules of each module; the rest is what differs. Nothing that stands here is passed
over: with its synonyms an assignment is compared word for word like all others.
"""

from __future__ import annotations

from .standards import WRITTEN_OUT, Synonym

Synonyms = tuple[Synonym, ...]

# A module of `asn1`, and those of `tests/modules` that have its assignments: the first that has a name counts.
SOURCES: dict[str, tuple[str, ...]] = {
    "PkixNames": ("PKIX1Explicit88",),
    "PkixCertificates": ("PKIX1Explicit88",),
    "PkixRevocation": ("PKIX1Explicit88",),
    "PkixKeys": ("AsymmetricKeyPackageModuleV1", "PKCS-1", "ECPrivateKey", "PKIX1Algorithms2008", "SEC1"),
    "PkixExtensions": ("PKIX1Implicit88", "PKIX1Explicit88"),
    "OCSP-2013-88": ("OCSP-2013-88", "OCSPNonce"),
    "CmsSigned": ("CryptographicMessageSyntax2004", "PKCS-7", "AttributeCertificateVersion1"),
    "CmsEnveloped": ("CryptographicMessageSyntax2004",),
    "CmsAuthenticated": ("CryptographicMessageSyntax2004",),
    "ExtendedSecurityServices-2006": ("ExtendedSecurityServices-2006",),
    "PKIXTSP": ("PKIXTSP", "PKIXCMP"),
    "PKCS-10": ("PKCS-10", "PKCS-9"),
    "PkcsEncryption": ("PKCS5v2-1", "AsymmetricKeyPackageModuleV1"),
    "PkixAlgorithms": (
        "PKIX1-PSS-OAEP-Algorithms",
        "PKIX1Algorithms2008",
        "PKIX1Algorithms88",
        "PKCS-3",
        "CertificateTransparency",
    ),
    "PKCS-12": ("PKCS-12", "PKCS-7", "PKCS-9", "PKCS-12-appendix-C"),
}

# Modules of `asn1` that are of no standard, or assign nothing.
NOT_COMPARED = {
    "Shapes": "Its types are shapes of tools/asn1, which no standard has.",
    "PKIX1Explicit88": "It hands on names that are compared where they are assigned.",
    "PKIX1Implicit88": "It hands on names that are compared where they are assigned.",
    "CryptographicMessageSyntax2004": "It hands on names that are compared where they are assigned.",
}

SECOND_NAME = "The standard's second name of a type is written out here."
NAMED = "What the standard writes out has a name here, since a type of its own costs the prover less."
ALSO = "The type is a second name of one that is compared itself."
NATURAL = "No value of the algorithm is below 0, and a negative number is refused."
VERSIONS = "The constraint on the version is not checked, and changes no octets."
ENCODED_DEFAULT = "The compiler has no such default; where the component is absent, the caller takes the standard's."
OPEN = "A field of a class is an OBJECT IDENTIFIER or an open type, which are the same octets."
COMPONENT = "The component has another name here, that of the type which is used for it."
OBJECT = "Of the standard's object the identifier stands here."
UNREAD = "The value is kept as it is encoded, so that its components do not stand here."

# Names after which the standards have parameters in braces.
PARAMETERS = {
    name: "The parameter is a set of objects, which limits values and changes no octets."
    for name in ("AlgorithmIdentifier", "Attribute", "Attributes", "ECParameters", "FieldID", "SubjectPublicKeyInfo")
}


def standard(*names: str) -> Synonyms:
    """Names of the standard that are written out here."""
    return tuple(Synonym(name, WRITTEN_OUT, SECOND_NAME) for name in names)


def ours(*names: str, reason: str = ALSO) -> Synonyms:
    """Names of these modules that the standard writes out."""
    return tuple(Synonym(WRITTEN_OUT, name, reason) for name in names)


def said(theirs: str, here: str, reason: str) -> Synonyms:
    """Words of the standard, and those that stand here."""
    return (Synonym(theirs, here, reason),)


def bag(name: str, value: str) -> Synonyms:
    """An object of the class BAG-TYPE, of which the identifier stands here."""
    return said(f"BAG-TYPE ::= {{ {name} IDENTIFIED BY {value} }}", f"OBJECT IDENTIFIER ::= {value}", OBJECT)


def opened(type_: str, objects: str) -> Synonyms:
    """The two fields of a bag, of which the first tells the type of the second."""
    return (
        *said(f"{type_} BAG-TYPE.&id ({{{objects}}})", f"{type_} OBJECT IDENTIFIER", OPEN),
        *said(f"EXPLICIT BAG-TYPE.&Type ({{{objects}}}{{@{type_}}})", f"EXPLICIT ANY DEFINED BY {type_}", OPEN),
    )


def attribute_type_and_value(type_: str, value: str) -> Synonyms:
    """A value with its identifier, in the shape of AttributeTypeAndValue."""
    return (
        *ours("AttributeTypeAndValue", "AttributeType", "AttributeValue"),
        *said(f"ANY DEFINED BY {type_}", "ANY", "It is a value of any type, whichever component tells its type."),
        *said(type_, "type", COMPONENT),
        *said(value, "value", COMPONENT),
    )


NATURALS = said("INTEGER", "INTEGER (0..MAX)", NATURAL)
SIGNATURE_VALUE = said(
    "signature BIT STRING", "signatureValue BIT STRING", "RFC 5280 names it signatureValue in section 4.1 and 5.1."
)
ATTRIBUTES = ours("SignedAttributes")
UNSIGNED = ours("UnsignedAttributes")

KEYS: dict[str, Synonyms] = {
    "OneAsymmetricKey": (
        *standard("Version", "PrivateKeyAlgorithmIdentifier", "PrivateKey", "PublicKey"),
        *said("(v1, ..., v2)", "", VERSIONS),
        *said("[[2:", "", "The brackets of an addition, and its number, change no octets where it is one component."),
        *said("]]", "", "The brackets of an addition, and its number, change no octets where it is one component."),
    ),
    "RSAPublicKey": NATURALS,
    "RSAPrivateKey": (
        *NATURALS,
        *standard("Version"),
        *said("(CONSTRAINED BY {})", "", VERSIONS),
    ),
    "OtherPrimeInfo": NATURALS,
    "ECPrivateKey": said("(ecPrivkeyVer1)", "", VERSIONS),
    "ECParameters": said(
        "namedCurve OBJECT IDENTIFIER",
        "namedCurve OBJECT IDENTIFIER, implicitCurve NULL, specifiedCurve SpecifiedECDomain",
        "RFC 5480 has two alternatives as comments, which are read here.",
    ),
    "SpecifiedECDomain": (
        *standard("SpecifiedECDomainVersion", "ECPoint", "HashAlgorithm"),
        *said("(ecdpVer1 | ecdpVer2 | ecdpVer3, ...)", "", VERSIONS),
        *said(", ...", "", "A mark of extension changes no octets, and an addition is refused with it and without."),
    ),
    "FieldID": (
        *said("{FIELD-ID:IOSet}", "", "The parameter is a set of objects, which limits values and changes no octets."),
        *said("FIELD-ID.&id({IOSet})", "OBJECT IDENTIFIER", OPEN),
        *said("FIELD-ID.&Type({IOSet}{@fieldType})", "ANY DEFINED BY fieldType", OPEN),
    ),
    "Curve": standard("FieldElement"),
}

CERTIFICATES: dict[str, dict[str, Synonyms]] = {
    "PkixCertificates": {"Certificate": SIGNATURE_VALUE},
    "PkixRevocation": {"CertificateList": SIGNATURE_VALUE},
    "PkixKeys": KEYS,
    "OCSP-2013-88": {
        "TBSRequest": ours("Requests", reason=NAMED),
        "Signature": ours("Certificates", reason=NAMED),
        "BasicOCSPResponse": ours("Certificates", reason=NAMED),
        "ResponseData": ours("SingleResponses", reason=NAMED),
    },
    "ExtendedSecurityServices-2006": {
        "ESSCertIDv2": said("DEFAULT {algorithm id-sha256}", "OPTIONAL", ENCODED_DEFAULT),
    },
    "PKIXTSP": {"TimeStampToken": standard("ContentInfo", "ContentType")},
    "PKCS-10": {"CertificationRequestInfo": said("(v1, ...)", "", VERSIONS)},
}

MESSAGES: dict[str, dict[str, Synonyms]] = {
    "CmsSigned": {
        "SignedData": standard("DigestAlgorithmIdentifiers", "DigestAlgorithmIdentifier", "SignerInfos"),
        "SignerInfo": standard("DigestAlgorithmIdentifier", "SignatureAlgorithmIdentifier", "SignatureValue"),
        "DigestedData": standard("DigestAlgorithmIdentifier", "Digest"),
        "EncryptedContentInfo": standard("ContentEncryptionAlgorithmIdentifier", "EncryptedContent"),
        "UnprotectedAttributes": UNSIGNED,
        "OtherRevocationInfoFormat": attribute_type_and_value("otherRevInfoFormat", "otherRevInfo"),
        "OtherCertificateFormat": attribute_type_and_value("otherCertFormat", "otherCert"),
        "ExtendedCertificate": said(
            "SEQUENCE { extendedCertificateInfo ExtendedCertificateInfo, "
            "signatureAlgorithm SignatureAlgorithmIdentifier, signature Signature }",
            "SEQUENCE OF ANY",
            UNREAD,
        ),
        "AttributeCertificateV1": said(
            "SEQUENCE { acInfo AttributeCertificateInfoV1, "
            "signatureAlgorithm AlgorithmIdentifier, signature BIT STRING }",
            "SEQUENCE OF ANY",
            UNREAD,
        ),
        "AttributeCertificateV2": (
            *standard("AttributeCertificate"),
            *said(
                "SEQUENCE { acinfo AttributeCertificateInfo, "
                "signatureAlgorithm AlgorithmIdentifier, signatureValue BIT STRING }",
                "SEQUENCE OF ANY",
                UNREAD,
            ),
        ),
    },
    "CmsEnveloped": {
        "KeyTransRecipientInfo": standard("KeyEncryptionAlgorithmIdentifier", "EncryptedKey"),
        "RecipientIdentifier": ours("SignerIdentifier"),
        "KeyAgreeRecipientInfo": standard("KeyEncryptionAlgorithmIdentifier"),
        "OriginatorPublicKey": (*ours("SubjectPublicKeyInfo"), *said("publicKey", "subjectPublicKey", COMPONENT)),
        "RecipientEncryptedKey": standard("EncryptedKey"),
        "KEKRecipientInfo": standard("KeyEncryptionAlgorithmIdentifier", "EncryptedKey"),
        "KEKIdentifier": (
            *ours("RecipientKeyIdentifier", "SubjectKeyIdentifier", "KeyIdentifier"),
            *said("keyIdentifier", "subjectKeyIdentifier", COMPONENT),
        ),
        "PasswordRecipientInfo": standard(
            "KeyDerivationAlgorithmIdentifier", "KeyEncryptionAlgorithmIdentifier", "EncryptedKey"
        ),
        "OtherRecipientInfo": attribute_type_and_value("oriType", "oriValue"),
        "OtherKeyAttribute": (
            *ours("AlgorithmIdentifier"),
            *said("keyAttrId", "algorithm", COMPONENT),
            *said("keyAttr", "parameters", COMPONENT),
        ),
    },
    "CmsAuthenticated": {
        "AuthenticatedData": standard(
            "MessageAuthenticationCodeAlgorithm", "DigestAlgorithmIdentifier", "MessageAuthenticationCode"
        ),
        "AuthAttributes": ATTRIBUTES,
        "UnauthAttributes": UNSIGNED,
    },
}

ALGORITHMS: dict[str, dict[str, Synonyms]] = {
    "PkcsEncryption": {
        "EncryptedPrivateKeyInfo": standard("EncryptionAlgorithmIdentifier", "EncryptedData"),
        "PBKDF2-params": said("DEFAULT algid-hmacWithSHA1", "OPTIONAL", ENCODED_DEFAULT),
        "PBMAC1-params": (*ours("PBES2-params"), *said("messageAuthScheme", "encryptionScheme", COMPONENT)),
    },
    "PkixAlgorithms": {
        "RSASSA-PSS-params": (
            *standard("HashAlgorithm", "MaskGenAlgorithm"),
            *said("DEFAULT sha1Identifier", "OPTIONAL", ENCODED_DEFAULT),
            *said("DEFAULT mgf1SHA1Identifier", "OPTIONAL", ENCODED_DEFAULT),
            *said("DEFAULT 20", "OPTIONAL", ENCODED_DEFAULT),
        ),
        "RSAES-OAEP-params": (
            *said("DEFAULT sha1Identifier", "OPTIONAL", ENCODED_DEFAULT),
            *said("DEFAULT mgf1SHA1Identifier", "OPTIONAL", ENCODED_DEFAULT),
            *said("DEFAULT pSpecifiedEmptyIdentifier", "OPTIONAL", ENCODED_DEFAULT),
        ),
        "ECDSA-Sig-Value": NATURALS,
        "Dss-Sig-Value": (*ours("ECDSA-Sig-Value"), *NATURALS),
        "DSAPublicKey": NATURALS,
        "Dss-Parms": NATURALS,
        "DHPublicKey": NATURALS,
        "DomainParameters": NATURALS,
        "ValidationParms": NATURALS,
        "DHParameter": NATURALS,
    },
    "PKCS-12": {
        "PFX": said("(v3, ...)", "", VERSIONS),
        "MacData": said("DEFAULT 1", "OPTIONAL", ENCODED_DEFAULT),
        "SafeBag": (
            *opened("bagId", "PKCS12BagSet"),
            *said(
                "SET OF PKCS12Attribute",
                "Attributes",
                "A PKCS12Attribute is an Attribute: its attrId is the type, and its attrValues are the values.",
            ),
        ),
        "CertBag": opened("certId", "CertTypes"),
        "CRLBag": (
            *said("crltValue", "crlValue", "RFC 7292 has a letter too much in the name of the component."),
            *opened("crlId", "CRLTypes"),
        ),
        "SecretBag": opened("secretTypeId", "SecretTypes"),
        "ContentInfo": standard("ContentType"),
        "DigestInfo": standard("DigestAlgorithmIdentifier", "Digest"),
        "Pkcs-12PbeParams": (
            *ours("PBEParameter"),
            *said("salt OCTET STRING", "salt OCTET STRING (SIZE (8))", "The size of an OCTET STRING is not checked."),
            *said("iterations", "iterationCount", COMPONENT),
        ),
        "keyBag": bag("KeyBag", "{bagtypes 1}"),
        "pkcs8ShroudedKeyBag": bag("PKCS8ShroudedKeyBag", "{bagtypes 2}"),
        "certBag": bag("CertBag", "{bagtypes 3}"),
        "crlBag": bag("CRLBag", "{bagtypes 4}"),
        "secretBag": bag("SecretBag", "{bagtypes 5}"),
        "safeContentsBag": bag("SafeContents", "{bagtypes 6}"),
        "x509Certificate": bag("OCTET STRING", "{certTypes 1}"),
        "sdsiCertificate": bag("IA5String", "{certTypes 2}"),
        "x509CRL": bag("OCTET STRING", "{crlTypes 1}"),
    },
}

SYNONYMS: dict[tuple[str, str], Synonyms] = {
    (module, name): found
    for part in (CERTIFICATES, MESSAGES, ALGORITHMS)
    for module, names in part.items()
    for name, found in names.items()
}

NO_NAME = "RFC 6962 has the identifier as text, and no name for it (sections 3.1 and 3.3)."
ARC = "The standard writes the arc out in each identifier below it, which are compared with all their arcs."

# Assignments that no standard has: their words, and why they stand here.
OWN: dict[tuple[str, str], tuple[str, str]] = {
    ("OCSP-2013-88", "Certificates"): ("::= SEQUENCE OF Certificate", NAMED),
    ("OCSP-2013-88", "Requests"): ("::= SEQUENCE OF Request", NAMED),
    ("OCSP-2013-88", "SingleResponses"): ("::= SEQUENCE OF SingleResponse", NAMED),
    ("OCSP-2013-88", "ExtendedRevoke"): ("::= NULL", "RFC 6960 section 4.4.8 says in words that the value is NULL."),
    ("PKCS-10", "ChallengePassword"): (
        "::= ANY",
        "RFC 2985 section 5.4.1 has a DirectoryString in the object challengePassword; it is kept as it is encoded.",
    ),
    ("PkcsEncryption", "IV"): (
        "::= OCTET STRING",
        "RFC 8018 appendix B.2 has the first block in the objects of its ciphers, with no name.",
    ),
    ("ExtendedSecurityServices-2006", "id-aa"): ("OBJECT IDENTIFIER ::= {pkcs-9 16 2}", ARC),
    ("PkixAlgorithms", "hashalgs"): (
        "OBJECT IDENTIFIER ::= "
        "{joint-iso-itu-t(2) country(16) us(840) organization(1) gov(101) csor(3) nistAlgorithms(4) 2}",
        ARC,
    ),
    ("PkixAlgorithms", "certicom-curve"): (
        "OBJECT IDENTIFIER ::= {iso(1) identified-organization(3) certicom(132) 0}",
        ARC,
    ),
    ("PkixAlgorithms", "transparency"): ("OBJECT IDENTIFIER ::= {1 3 6 1 4 1 11129 2 4}", NO_NAME),
    ("PkixAlgorithms", "id-embedded-scts"): ("OBJECT IDENTIFIER ::= {transparency 2}", NO_NAME),
    ("PkixAlgorithms", "id-poison"): ("OBJECT IDENTIFIER ::= {transparency 3}", NO_NAME),
    ("PkixAlgorithms", "id-ocsp-scts"): ("OBJECT IDENTIFIER ::= {transparency 5}", NO_NAME),
}


def algorithm_identifier(name: str, objects: str, component: str = "algorithm") -> Synonyms:
    """AlgorithmIdentifier with a class and a set as its parameter."""
    return (
        *said(f"{{{name}:{objects}}} ::=", "::=", "The parameter is a set of objects, which changes no octets."),
        *said(f"{name}.&id({{{objects}}})", "OBJECT IDENTIFIER", OPEN),
        *said(f"{name}.&Type({{{objects}}}{{@{component}}})", "ANY DEFINED BY algorithm", OPEN),
    )


# A name that a module of `asn1` imports, and the standard's module has in other words: how the two are the same.
IMPORTED: dict[tuple[str, str], Synonyms] = {
    ("PkixKeys", "AlgorithmIdentifier"): algorithm_identifier("ALGORITHM-IDENTIFIER", "InfoObjectSet", ".algorithm"),
    ("PkcsEncryption", "AlgorithmIdentifier"): algorithm_identifier("ALGORITHM-IDENTIFIER", "InfoObjectSet"),
    ("PKCS-10", "AlgorithmIdentifier"): algorithm_identifier("ALGORITHM", "IOSet"),
    ("PKCS-10", "SubjectPublicKeyInfo"): said("{ALGORITHM:IOSet} ::=", "::=", "The parameter changes no octets."),
    ("PKCS-10", "Attributes"): said("{ATTRIBUTE:IOSet} ::=", "::=", "The parameter changes no octets."),
    ("CmsSigned", "Attribute"): (
        *ours("AttributeType"),
        *said("attrType", "type", COMPONENT),
        *said("attrValues", "values", COMPONENT),
    ),
    ("CmsSigned", "SubjectKeyIdentifier"): ours("KeyIdentifier"),
    ("CmsEnveloped", "SubjectKeyIdentifier"): ours("KeyIdentifier"),
}

# Modules of standards that others import from, and that are not in `tests/modules`.
NOT_HERE = {
    "AlgorithmInformation-2009": "RFC 5912 has RFC 5280's AlgorithmIdentifier there with a class as its parameter.",
    "AuthenticationFramework": "X.509 has the Extensions there that RFC 5280 took from it.",
    "CryptographicMessageSyntax-2009": "RFC 5911 has RFC 5652's Attribute there with a class as its parameter.",
    "InformationFramework": "X.501 has the Name there that RFC 5280 took from it.",
    "PKCS-8": "RFC 5958 stands in the place of RFC 5208, of which this is the module.",
}
