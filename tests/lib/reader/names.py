"""Names of object identifiers, by the modules of the standards: RFC 1274, 2985, 3161, 3279, 4055, 4491, 4519, 4524, 5280, 5480,
5639, 5652, 5753, 5758, 6960, 6962, 7292, 8018, 8410, 8551, 8692, 9215, 9881, 9935, and else those of OpenSSL."""


def below(root, names):
    """Names by their last arcs: a word for each, from 1 on, `-` for one that has none."""
    return {f"{root}.{at}": name for at, name in enumerate(names.split(), 1) if name != "-"}


def at(root, **names):
    """Names by their last arc, `_` before it; a `_` within a name is a `-`."""
    return {f"{root}.{arc[1:].replace('_', '.')}": name for arc, name in names.items()}


PKCS, PKIX, CE, AES = "1.2.840.113549.1", "1.3.6.1.5.5.7", "2.5.29", "2.16.840.1.101.3.4.1"

SHORT = {
    **below("2.5.4", "- - CN SN serialNumber C L ST STREET O OU title description searchGuide businessCategory postalAddress "
            "postalCode postOfficeBox physicalDeliveryOfficeName telephoneNumber telexNumber teletexTerminalIdentifier "
            "facsimileTelephoneNumber x121Address internationaliSDNNumber registeredAddress destinationIndicator "
            "preferredDeliveryMethod presentationAddress supportedApplicationContext member owner roleOccupant seeAlso "
            "userPassword userCertificate cACertificate authorityRevocationList certificateRevocationList crossCertificatePair "
            "name GN initials generationQualifier x500UniqueIdentifier dnQualifier enhancedSearchGuide protocolInformation "
            "distinguishedName uniqueMember houseIdentifier supportedAlgorithms deltaRevocationList dmdName"),
    **at("2.5.4", _65="pseudonym", _72="role", _97="organizationIdentifier", _98="c3", _99="n3", _100="dnsName"),
    **below("0.9.2342.19200300.100.1", "UID textEncodedORAddress mail info favouriteDrink roomNumber photo userClass host manager "
            "documentIdentifier documentTitle documentVersion documentAuthor documentLocation - - - - homeTelephoneNumber secretary "
            "otherMailbox lastModifiedTime lastModifiedBy DC aRecord pilotAttributeType27 mXRecord nSRecord sOARecord cNAMERecord - - "
            "- - - associatedDomain associatedName homePostalAddress personalTitle mobileTelephoneNumber pagerTelephoneNumber "
            "friendlyCountryName uid organizationalStatus janetMailbox mailPreferenceOption buildingName dSAQuality "
            "singleLevelQuality subtreeMinimumQuality subtreeMaximumQuality personalSignature dITRedirect audio documentPublisher"),
    **at(f"{PKCS}.9", _1="emailAddress", _2="unstructuredName", _7="challengePassword", _8="unstructuredAddress",
         _20="friendlyName", _21="localKeyID"),
    **below(f"{PKIX}.9", "dateOfBirth placeOfBirth gender countryOfCitizenship countryOfResidence"),
    **below("1.3.6.1.4.1.311.60.2.1", "jurisdictionL jurisdictionST jurisdictionC"),
    **at("1.2.643", _3_131_1_1="INN", _100_1="OGRN", _100_3="SNILS", _100_5="OGRNIP"),
}

EXTENSIONS = {
    **at(CE, _9="subjectDirectoryAttributes", _14="subjectKeyIdentifier", _15="keyUsage", _16="privateKeyUsagePeriod",
         _17="subjectAltName", _18="issuerAltName", _19="basicConstraints", _20="cRLNumber", _21="cRLReasons",
         _23="holdInstructionCode", _24="invalidityDate", _27="deltaCRLIndicator", _28="issuingDistributionPoint",
         _29="certificateIssuer", _30="nameConstraints", _31="cRLDistributionPoints", _32="certificatePolicies",
         _33="policyMappings", _35="authorityKeyIdentifier", _36="policyConstraints", _37="extKeyUsage", _46="freshestCRL",
         _54="inhibitAnyPolicy", _55="targetInformation", _56="noRevAvail", _37_0="anyExtendedKeyUsage", _32_0="anyPolicy"),
    **at(f"{PKIX}.1", _1="authorityInfoAccess", _2="biometricInfo", _3="qcStatements", _4="auditIdentity", _6="aaControls",
         _7="ipAddrBlocks", _8="autonomousSysIds", _10="proxying", _11="subjectInfoAccess", _14="proxyCertInfo",
         _24="tlsFeature", _28="ipAddrBlocks-v2", _29="autonomousSysIds-v2"),
    **at("1.3.6.1.4.1.11129.2.4", _2="signedCertificateTimestamps", _3="precertificatePoison", _4="precertificateSigning",
         _5="ocspSignedCertificateTimestamps"),
    **at("2.16.840.1.113730.1", _1="netscapeCertType", _2="netscapeBaseUrl", _3="netscapeRevocationUrl",
         _4="netscapeCaRevocationUrl", _7="netscapeRenewalUrl", _8="netscapeCaPolicyUrl", _12="netscapeSslServerName",
         _13="netscapeComment"),
    **at("1.3.6.1.4.1.311", _20_2="msCertificateTemplateName", _21_1="msCaVersion", _21_2="msPreviousCertHash",
         _21_4="msCrlNextPublish", _21_7="msCertificateTemplate", _21_10="msApplicationPolicies", _25_2="msNtdsCaSecurity",
         _2_1_21="msCodeInd", _2_1_22="msCodeCom", _10_3_1="msCTLSign", _10_3_3="msSGC", _10_3_4="msEFS",
         _20_2_2="msSmartcardLogin", _20_2_3="msUPN"),
}

PURPOSES = {
    **below(f"{PKIX}.3", "serverAuth clientAuth codeSigning emailProtection ipsecEndSystem ipsecTunnel ipsecUser timeStamping "
            "OCSPSigning dvcs - - - - - - ipsecIKE capwapAC capwapWTP - secureShellClient secureShellServer sendRouter "
            "sendProxiedRouter sendOwner sendProxiedOwner cmcCA cmcRA cmcArchive bgpsec-router "
            "brandIndicatorForMessageIdentification cmKGA"),
    **below(f"{PKIX}.48", "ocsp caIssuers timeStamping dvcs caRepository - - - - rpkiManifest signedObject - rpkiNotify"),
    **below(f"{PKIX}.48.1", "ocspBasic ocspNonce crlReferences acceptableResponses ocspNoCheck archiveCutoff serviceLocator"),
    **below(f"{PKIX}.2", "cps unotice"),
    **below("1.2.840.10040.2", "holdInstructionNone holdInstructionCallIssuer holdInstructionReject"),
    **at("2.23.140.1", _1="ev-guidelines", _2_1="domain-validated", _2_2="organization-validated", _2_3="individual-validated",
         _3="ev-code-signing", _4_1="code-signing"),
    "2.16.840.1.113730.4.1": "nsSGC",
    "1.3.6.1.5.2.3.4": "pkInitClientAuth",
    "1.3.6.1.5.2.3.5": "pkInitKDC",
}

ALGORITHMS = {
    **below(f"{PKCS}.1", "rsaEncryption md2WithRSAEncryption md4WithRSAEncryption md5WithRSAEncryption sha1WithRSAEncryption - "
            "RSAES-OAEP mgf1 pSpecified RSASSA-PSS sha256WithRSAEncryption sha384WithRSAEncryption sha512WithRSAEncryption "
            "sha224WithRSAEncryption sha512-224WithRSAEncryption sha512-256WithRSAEncryption"),
    **at("1.2.840.10040.4", _1="id-dsa", _3="dsa-with-SHA1"),
    **below("2.16.840.1.101.3.4.3", "dsa-with-SHA224 dsa-with-SHA256 dsa-with-SHA384 dsa-with-SHA512 dsa-with-SHA3-224 "
            "dsa-with-SHA3-256 dsa-with-SHA3-384 dsa-with-SHA3-512 ecdsa-with-SHA3-224 ecdsa-with-SHA3-256 ecdsa-with-SHA3-384 "
            "ecdsa-with-SHA3-512 rsassa-pkcs1-v1-5-with-SHA3-224 rsassa-pkcs1-v1-5-with-SHA3-256 "
            "rsassa-pkcs1-v1-5-with-SHA3-384 rsassa-pkcs1-v1-5-with-SHA3-512"),
    **below("2.16.840.1.101.3.4.2", "sha256 sha384 sha512 sha224 sha512-224 sha512-256 sha3-224 sha3-256 sha3-384 sha3-512 "
            "shake128 shake256 hmacWithSHA3-224 hmacWithSHA3-256 hmacWithSHA3-384 hmacWithSHA3-512"),
    **at("1.2.840.10045", _2_1="id-ecPublicKey", _4_1="ecdsa-with-SHA1", _4_3_1="ecdsa-with-SHA224",
         _4_3_2="ecdsa-with-SHA256", _4_3_3="ecdsa-with-SHA384", _4_3_4="ecdsa-with-SHA512", _1_1="prime-field",
         _1_2="characteristic-two-field"),
    **at("1.3.101", _110="X25519", _111="X448", _112="Ed25519", _113="Ed448"),
    **at("1.3.14.3.2", _7="desCBC", _26="sha1", _29="sha1WithRSA"),
    **at("1.2.840.113549", _2_5="md5", _3_2="rc2CBC", _3_4="rc4", _3_7="des-EDE3-CBC"),
    f"{PKCS}.3.1": "dhKeyAgreement",
    "1.2.840.10046.2.1": "dhpublicnumber",
    "1.2.156.10197.1.301": "sm2",
    "1.2.156.10197.1.401": "sm3",
    "1.2.156.10197.1.501": "sm2-with-SM3",
    **at(f"{PKIX}.6", _30="RSASSA-PSS-SHAKE128", _31="RSASSA-PSS-SHAKE256", _32="ecdsa-with-SHAKE128", _33="ecdsa-with-SHAKE256"),
    **at("2.16.840.1.101.3.4", _3_17="id-ml-dsa-44", _3_18="id-ml-dsa-65", _3_19="id-ml-dsa-87", _4_1="id-alg-ml-kem-512",
         _4_2="id-alg-ml-kem-768", _4_3="id-alg-ml-kem-1024"),
    **at("1.2.643", _2_2_19="gostR3410-2001", _2_2_3="gostR3411-94-with-gostR3410-2001", _7_1_1_1_1="gost3410-2012-256",
         _7_1_1_1_2="gost3410-2012-512", _7_1_1_3_2="gost3410-2012-256-with-gost3411-2012",
         _7_1_1_3_3="gost3410-2012-512-with-gost3411-2012"),
    "1.3.6.1.5.5.8.1.2": "hMAC-SHA1",
    **below("1.2.840.113549.2", "- - - - - - hmacWithSHA1 hmacWithSHA224 hmacWithSHA256 hmacWithSHA384 hmacWithSHA512 "
            "hmacWithSHA512-224 hmacWithSHA512-256"),
    **at(f"{PKCS}.5", _1="pbeWithMD2AndDES-CBC", _3="pbeWithMD5AndDES-CBC", _4="pbeWithMD2AndRC2-CBC", _6="pbeWithMD5AndRC2-CBC",
         _10="pbeWithSHA1AndDES-CBC", _11="pbeWithSHA1AndRC2-CBC", _12="PBKDF2", _13="PBES2", _14="PBMAC1"),
    **below(f"{PKCS}.12.1", "pbeWithSHAAnd128BitRC4 pbeWithSHAAnd40BitRC4 pbeWithSHAAnd3-KeyTripleDES-CBC "
            "pbeWithSHAAnd2-KeyTripleDES-CBC pbeWithSHAAnd128BitRC2-CBC pbewithSHAAnd40BitRC2-CBC"),
    "1.3.6.1.4.1.11591.4.11": "scrypt",
    **{f"{AES}.{20 * row + last}": f"aes{size}-{mode}" for row, size in enumerate((128, 192, 256))
       for last, mode in ((2, "CBC"), (5, "wrap"), (6, "GCM"), (7, "CCM"))},
    **at(f"{PKCS}.9.16.3", _5="ESDH", _6="CMS3DESwrap", _9="PWRI-KEK", _18="AEADChaCha20Poly1305"),
    "1.3.133.16.840.63.0.2": "dhSinglePass-stdDH-sha1kdf-scheme",
    **{f"1.3.132.1.11.{at}": f"dhSinglePass-stdDH-sha{size}kdf-scheme" for at, size in enumerate((224, 256, 384, 512))},
}

CONTENTS = {
    **below(f"{PKCS}.7", "data signedData envelopedData signedAndEnvelopedData digestedData encryptedData"),
    **at(f"{PKCS}.9", _3="contentType", _4="messageDigest", _5="signingTime", _6="countersignature", _14="extensionRequest",
         _15="smimeCapabilities", _52="CMSAlgorithmProtect", _22_1="x509Certificate", _22_2="sdsiCertificate", _23_1="x509CRL",
         _16_1_2="authData", _16_1_4="TSTInfo", _16_1_6="contentInfo", _16_1_9="compressedData", _16_1_23="authEnvelopedData",
         _16_2_11="encrypKeyPref", _16_2_12="signingCertificate", _16_2_14="timeStampToken", _16_2_47="signingCertificateV2"),
    **below(f"{PKCS}.12.10.1", "keyBag pkcs8ShroudedKeyBag certBag crlBag secretBag safeContentsBag"),
}

# The bits of an element of the field (SEC 2, RFC 5639).
CURVES = {
    **{f"1.2.840.10045.3.1.{last}": (name, bits) for last, name, bits in (
        (1, "secp192r1", 192), (2, "prime192v2", 192), (3, "prime192v3", 192), (4, "prime239v1", 239), (5, "prime239v2", 239),
        (6, "prime239v3", 239), (7, "secp256r1", 256))},
    **{f"1.3.132.0.{last}": (name, int("".join(filter(str.isdigit, name[4:7])))) for last, name in (
        (1, "sect163k1"), (2, "sect163r1"), (3, "sect239k1"), (4, "sect113r1"), (5, "sect113r2"), (6, "secp112r1"),
        (7, "secp112r2"), (8, "secp160r1"), (9, "secp160k1"), (10, "secp256k1"), (15, "sect163r2"), (16, "sect283k1"),
        (17, "sect283r1"), (22, "sect131r1"), (23, "sect131r2"), (24, "sect193r1"), (25, "sect193r2"), (26, "sect233k1"),
        (27, "sect233r1"), (28, "secp128r1"), (29, "secp128r2"), (30, "secp160r2"), (31, "secp192k1"), (32, "secp224k1"),
        (33, "secp224r1"), (34, "secp384r1"), (35, "secp521r1"), (36, "sect409k1"), (37, "sect409r1"), (38, "sect571k1"),
        (39, "sect571r1"))},
    **{f"1.3.36.3.3.2.8.1.1.{2 * row + 1 + twisted}": (f"brainpoolP{bits}{'t' if twisted else 'r'}1", bits)
       for row, bits in enumerate((160, 192, 224, 256, 320, 384, 512)) for twisted in (0, 1)},
}

NAMES = {**EXTENSIONS, **PURPOSES, **ALGORITHMS, **CONTENTS, **{key: name for key, (name, _) in CURVES.items()}}
