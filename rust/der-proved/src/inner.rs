//! Messages that stand within others: the values of extensions, parameters of algorithms, keys, and parts of requests, of
//! encrypted messages, of time stamps and of PKCS #12 files.

use crate::place::{fields, message, optional_fields};

/// `Debug` that shows no octets.
macro_rules! without_octets {
    ($name:ident) => {
        impl core::fmt::Debug for $name<'_> {
            fn fmt(&self, f: &mut core::fmt::Formatter<'_>) -> core::fmt::Result {
                f.debug_struct(stringify!($name)).field("at", &self.at).finish_non_exhaustive()
            }
        }
    };
}

// written by tools/bindings: messages
message! {
    /// An algorithm identifier (AlgorithmIdentifier, RFC 5280 4.1.1.2).
    #[derive(Debug)]
    AlgorithmIdentifier, algorithm_identifier, AlgorithmIdentifierAt
}

impl<'a> AlgorithmIdentifier<'a> {
    fields! {
        /// `oid`, an OBJECT IDENTIFIER.
        oid
    }

    optional_fields! {
        /// `parameters`, what the identifier defines; a NULL has the octets 05 00.
        parameters
    }
}

message! {
    /// A set of parameters of RSASSA-PSS (RSASSA-PSS-params, RFC 4055 3.1). An absent field has its default: SHA-1,
    /// MGF1 with SHA-1, 20 octets of salt, trailer field 1.
    #[derive(Debug)]
    RsassaPssParams, rsassa_pss_params, RsassaPssParamsAt
}

impl<'a> RsassaPssParams<'a> {
    optional_fields! {
        /// `hashAlgorithm`, an AlgorithmIdentifier, with the explicit tag \[0\].
        hash_algorithm
        /// `maskGenAlgorithm`, an AlgorithmIdentifier, with the explicit tag \[1\].
        mask_gen_algorithm
        /// `saltLength`, an INTEGER, with the explicit tag \[2\].
        salt_length
        /// `trailerField`, an INTEGER, with the explicit tag \[3\]; absent where it is the default, 1.
        trailer_field
    }
}

message! {
    /// An ECDSA signature (ECDSA-Sig-Value, RFC 3279 2.2.3).
    #[derive(Debug)]
    EcdsaSigValue, ecdsa_sig_value, EcdsaSigValueAt
}

impl<'a> EcdsaSigValue<'a> {
    fields! {
        /// `r`, an INTEGER.
        r
        /// `s`, an INTEGER.
        s
    }
}

message! {
    /// A set of parameters of PBES2 (PBES2-params, RFC 8018 A.4).
    #[derive(Debug)]
    Pbes2Params, pbes2_params, Pbes2ParamsAt
}

impl<'a> Pbes2Params<'a> {
    fields! {
        /// `keyDerivationFunc`, an AlgorithmIdentifier.
        key_derivation_func
        /// `encryptionScheme`, an AlgorithmIdentifier.
        encryption_scheme
    }
}

message! {
    /// A set of parameters of PBKDF2 (PBKDF2-params, RFC 8018 A.2).
    #[derive(Debug)]
    Pbkdf2Params, pbkdf2_params, Pbkdf2ParamsAt
}

impl<'a> Pbkdf2Params<'a> {
    fields! {
        /// `salt`, a CHOICE: an OCTET STRING, or an AlgorithmIdentifier.
        salt
        /// `iterationCount`, an INTEGER.
        iteration_count
    }

    optional_fields! {
        /// `keyLength`, an INTEGER.
        key_length
        /// `prf`, an AlgorithmIdentifier.
        prf
    }
}

message! {
    /// A public key of RSA (RSAPublicKey, RFC 8017 A.1.1).
    #[derive(Debug)]
    RsaPublicKey, rsa_public_key, RsaPublicKeyAt
}

impl<'a> RsaPublicKey<'a> {
    fields! {
        /// `modulus`, an INTEGER.
        modulus
        /// `publicExponent`, an INTEGER.
        public_exponent
    }
}

message! {
    /// A private key of RSA (RSAPrivateKey, RFC 8017 A.1.2).
    RsaPrivateKey, rsa_private_key, RsaPrivateKeyAt
}

impl<'a> RsaPrivateKey<'a> {
    fields! {
        /// `version`, an INTEGER.
        version
        /// `modulus`, an INTEGER.
        modulus
        /// `publicExponent`, an INTEGER.
        public_exponent
        /// `privateExponent`, an INTEGER.
        private_exponent
        /// `prime1`, an INTEGER.
        prime1
        /// `prime2`, an INTEGER.
        prime2
        /// `exponent1`, an INTEGER.
        exponent1
        /// `exponent2`, an INTEGER.
        exponent2
        /// `coefficient`, an INTEGER.
        coefficient
    }

    optional_fields! {
        /// `otherPrimeInfos`, a SEQUENCE OF OtherPrimeInfo.
        other_prime_infos
    }
}

without_octets!(RsaPrivateKey);

message! {
    /// A private key of an elliptic curve (ECPrivateKey, RFC 5915 section 3).
    EcPrivateKey, ec_private_key, EcPrivateKeyAt
}

impl<'a> EcPrivateKey<'a> {
    fields! {
        /// `version`, an INTEGER.
        version
        /// `privateKey`, an OCTET STRING.
        private_key
    }

    optional_fields! {
        /// `parameters`, a CHOICE: an OBJECT IDENTIFIER, which names the curve, a NULL, or the curve as a SEQUENCE,
        /// with the explicit tag \[0\].
        parameters
        /// `publicKey`, a BIT STRING, with the explicit tag \[1\].
        public_key
    }
}

without_octets!(EcPrivateKey);

message! {
    /// An encrypted private key (EncryptedPrivateKeyInfo, RFC 5958 section 3).
    #[derive(Debug)]
    EncryptedPrivateKeyInfo, encrypted_private_key_info, EncryptedPrivateKeyInfoAt
}

impl<'a> EncryptedPrivateKeyInfo<'a> {
    fields! {
        /// `encryptionAlgorithm`, an AlgorithmIdentifier.
        encryption_algorithm
        /// `encryptedData`, an OCTET STRING.
        encrypted_data
    }
}

message! {
    /// An authority key identifier (AuthorityKeyIdentifier, RFC 5280 4.2.1.1).
    #[derive(Debug)]
    AuthorityKeyIdentifier, authority_key_identifier, AuthorityKeyIdentifierAt
}

impl<'a> AuthorityKeyIdentifier<'a> {
    optional_fields! {
        /// `keyIdentifier`, an OCTET STRING, with the implicit tag \[0\].
        key_identifier
        /// `authorityCertIssuer`, a SEQUENCE OF GeneralName, with the implicit tag \[1\].
        authority_cert_issuer
        /// `authorityCertSerialNumber`, an INTEGER, with the implicit tag \[2\].
        authority_cert_serial_number
    }
}

message! {
    /// A certificate policy (PolicyInformation, RFC 5280 4.2.1.4).
    #[derive(Debug)]
    PolicyInformation, policy_information, PolicyInformationAt
}

impl<'a> PolicyInformation<'a> {
    fields! {
        /// `policyIdentifier`, an OBJECT IDENTIFIER.
        policy_identifier
    }

    optional_fields! {
        /// `policyQualifiers`, a SEQUENCE OF PolicyQualifierInfo.
        policy_qualifiers
    }
}

message! {
    /// A policy qualifier (PolicyQualifierInfo, RFC 5280 4.2.1.4).
    #[derive(Debug)]
    PolicyQualifierInfo, policy_qualifier_info, PolicyQualifierInfoAt
}

impl<'a> PolicyQualifierInfo<'a> {
    fields! {
        /// `policyQualifierId`, an OBJECT IDENTIFIER.
        policy_qualifier_id
        /// `qualifier`, what `policyQualifierId` defines.
        qualifier
    }
}

message! {
    /// A policy mapping (PolicyMapping, RFC 5280 4.2.1.5).
    #[derive(Debug)]
    PolicyMapping, policy_mapping, PolicyMappingAt
}

impl<'a> PolicyMapping<'a> {
    fields! {
        /// `issuerDomainPolicy`, an OBJECT IDENTIFIER.
        issuer_domain_policy
        /// `subjectDomainPolicy`, an OBJECT IDENTIFIER.
        subject_domain_policy
    }
}

message! {
    /// A set of basic constraints (BasicConstraints, RFC 5280 4.2.1.9).
    #[derive(Debug)]
    BasicConstraints, basic_constraints, BasicConstraintsAt
}

impl<'a> BasicConstraints<'a> {
    optional_fields! {
        /// `cA`, a BOOLEAN; absent where it is the default, FALSE.
        ca
        /// `pathLenConstraint`, an INTEGER.
        path_len_constraint
    }
}

message! {
    /// A set of name constraints (NameConstraints, RFC 5280 4.2.1.10).
    #[derive(Debug)]
    NameConstraints, name_constraints, NameConstraintsAt
}

impl<'a> NameConstraints<'a> {
    optional_fields! {
        /// `permittedSubtrees`, a SEQUENCE OF GeneralSubtree, with the implicit tag \[0\].
        permitted_subtrees
        /// `excludedSubtrees`, a SEQUENCE OF GeneralSubtree, with the implicit tag \[1\].
        excluded_subtrees
    }
}

message! {
    /// A subtree of names (GeneralSubtree, RFC 5280 4.2.1.10).
    #[derive(Debug)]
    GeneralSubtree, general_subtree, GeneralSubtreeAt
}

impl<'a> GeneralSubtree<'a> {
    fields! {
        /// `base`, a GeneralName.
        base
    }

    optional_fields! {
        /// `minimum`, an INTEGER, with the implicit tag \[0\]; absent where it is the default, 0.
        minimum
        /// `maximum`, an INTEGER, with the implicit tag \[1\].
        maximum
    }
}

message! {
    /// A set of policy constraints (PolicyConstraints, RFC 5280 4.2.1.11).
    #[derive(Debug)]
    PolicyConstraints, policy_constraints, PolicyConstraintsAt
}

impl<'a> PolicyConstraints<'a> {
    optional_fields! {
        /// `requireExplicitPolicy`, an INTEGER, with the implicit tag \[0\].
        require_explicit_policy
        /// `inhibitPolicyMapping`, an INTEGER, with the implicit tag \[1\].
        inhibit_policy_mapping
    }
}

message! {
    /// A distribution point (DistributionPoint, RFC 5280 4.2.1.13).
    #[derive(Debug)]
    DistributionPoint, distribution_point, DistributionPointAt
}

impl<'a> DistributionPoint<'a> {
    optional_fields! {
        /// `distributionPoint`, a CHOICE of `fullName`, with the implicit tag \[0\], and `nameRelativeToCRLIssuer`,
        /// with \[1\], with the explicit tag \[0\].
        distribution_point
        /// `reasons`, a BIT STRING, with the implicit tag \[1\].
        reasons
        /// `cRLIssuer`, a SEQUENCE OF GeneralName, with the implicit tag \[2\].
        crl_issuer
    }
}

message! {
    /// An access description (AccessDescription, RFC 5280 4.2.2.1).
    #[derive(Debug)]
    AccessDescription, access_description, AccessDescriptionAt
}

impl<'a> AccessDescription<'a> {
    fields! {
        /// `accessMethod`, an OBJECT IDENTIFIER.
        access_method
        /// `accessLocation`, a GeneralName.
        access_location
    }
}

message! {
    /// An issuing distribution point (IssuingDistributionPoint, RFC 5280 5.2.5).
    #[derive(Debug)]
    IssuingDistributionPoint, issuing_distribution_point, IssuingDistributionPointAt
}

impl<'a> IssuingDistributionPoint<'a> {
    optional_fields! {
        /// `distributionPoint`, a CHOICE of `fullName`, with the implicit tag \[0\], and `nameRelativeToCRLIssuer`,
        /// with \[1\], with the explicit tag \[0\].
        distribution_point
        /// `onlyContainsUserCerts`, a BOOLEAN, with the implicit tag \[1\]; absent where it is the default, FALSE.
        only_contains_user_certs
        /// `onlyContainsCACerts`, a BOOLEAN, with the implicit tag \[2\]; absent where it is the default, FALSE.
        only_contains_ca_certs
        /// `onlySomeReasons`, a BIT STRING, with the implicit tag \[3\].
        only_some_reasons
        /// `indirectCRL`, a BOOLEAN, with the implicit tag \[4\]; absent where it is the default, FALSE.
        indirect_crl
        /// `onlyContainsAttributeCerts`, a BOOLEAN, with the implicit tag \[5\]; absent where it is the default, FALSE.
        only_contains_attribute_certs
    }
}

message! {
    /// An OCSP request (OCSPRequest, RFC 6960 4.1.1).
    #[derive(Debug)]
    OcspRequest, ocsp_request, OcspRequestAt
}

impl<'a> OcspRequest<'a> {
    fields! {
        /// `tbsRequest`, a TBSRequest.
        tbs_request
    }

    optional_fields! {
        /// `optionalSignature`, a Signature, with the explicit tag \[0\].
        optional_signature
    }
}

message! {
    /// A body of an OCSP request (TBSRequest, RFC 6960 4.1.1).
    #[derive(Debug)]
    TbsRequest, tbs_request, TbsRequestAt
}

impl<'a> TbsRequest<'a> {
    fields! {
        /// `requestList`, a SEQUENCE OF Request.
        request_list
    }

    optional_fields! {
        /// `version`, an INTEGER, with the explicit tag \[0\]; absent where it is the default, v1.
        version
        /// `requestorName`, a GeneralName, with the explicit tag \[1\].
        requestor_name
        /// `requestExtensions`, a SEQUENCE OF Extension, with the explicit tag \[2\].
        request_extensions
    }
}

message! {
    /// A request about one certificate (Request, RFC 6960 4.1.1).
    #[derive(Debug)]
    Request, request, RequestAt
}

impl<'a> Request<'a> {
    fields! {
        /// `reqCert`, a CertID.
        req_cert
    }

    optional_fields! {
        /// `singleRequestExtensions`, a SEQUENCE OF Extension, with the explicit tag \[0\].
        single_request_extensions
    }
}

message! {
    /// A certificate's identifier in OCSP (CertID, RFC 6960 4.1.1).
    #[derive(Debug)]
    CertId, cert_id, CertIdAt
}

impl<'a> CertId<'a> {
    fields! {
        /// `hashAlgorithm`, an AlgorithmIdentifier.
        hash_algorithm
        /// `issuerNameHash`, an OCTET STRING.
        issuer_name_hash
        /// `issuerKeyHash`, an OCTET STRING.
        issuer_key_hash
        /// `serialNumber`, an INTEGER.
        serial_number
    }
}

message! {
    /// An issuer and serial number (IssuerAndSerialNumber, RFC 5652 10.2.4).
    #[derive(Debug)]
    IssuerAndSerialNumber, issuer_and_serial_number, IssuerAndSerialNumberAt
}

impl<'a> IssuerAndSerialNumber<'a> {
    fields! {
        /// `issuer`, a Name.
        issuer
        /// `serialNumber`, an INTEGER.
        serial_number
    }
}

message! {
    /// An enveloped message (EnvelopedData, RFC 5652 6.1).
    #[derive(Debug)]
    EnvelopedData, enveloped_data, EnvelopedDataAt
}

impl<'a> EnvelopedData<'a> {
    fields! {
        /// `version`, an INTEGER.
        version
        /// `recipientInfos`, a SET OF RecipientInfo.
        recipient_infos
        /// `encryptedContentInfo`, an EncryptedContentInfo.
        encrypted_content_info
    }

    optional_fields! {
        /// `originatorInfo`, an OriginatorInfo, with the implicit tag \[0\].
        originator_info
        /// `unprotectedAttrs`, a SET OF Attribute, with the implicit tag \[1\].
        unprotected_attrs
    }
}

message! {
    /// An encrypted content (EncryptedContentInfo, RFC 5652 6.1).
    #[derive(Debug)]
    EncryptedContentInfo, encrypted_content_info, EncryptedContentInfoAt
}

impl<'a> EncryptedContentInfo<'a> {
    fields! {
        /// `contentType`, an OBJECT IDENTIFIER.
        content_type
        /// `contentEncryptionAlgorithm`, an AlgorithmIdentifier.
        content_encryption_algorithm
    }

    optional_fields! {
        /// `encryptedContent`, an OCTET STRING, with the implicit tag \[0\].
        encrypted_content
    }
}

message! {
    /// A recipient with a key that is transported (KeyTransRecipientInfo, RFC 5652 6.2.1).
    #[derive(Debug)]
    KeyTransRecipientInfo, key_trans_recipient_info, KeyTransRecipientInfoAt
}

impl<'a> KeyTransRecipientInfo<'a> {
    fields! {
        /// `version`, an INTEGER.
        version
        /// `rid`, a CHOICE: an IssuerAndSerialNumber, or with its implicit tag \[0\] a key identifier.
        rid
        /// `keyEncryptionAlgorithm`, an AlgorithmIdentifier.
        key_encryption_algorithm
        /// `encryptedKey`, an OCTET STRING.
        encrypted_key
    }
}

message! {
    /// An encrypted message (EncryptedData, RFC 5652 section 8).
    #[derive(Debug)]
    EncryptedData, encrypted_data, EncryptedDataAt
}

impl<'a> EncryptedData<'a> {
    fields! {
        /// `version`, an INTEGER.
        version
        /// `encryptedContentInfo`, an EncryptedContentInfo.
        encrypted_content_info
    }

    optional_fields! {
        /// `unprotectedAttrs`, a SET OF Attribute, with the implicit tag \[1\].
        unprotected_attrs
    }
}

message! {
    /// A list of the certificates of a signer (SigningCertificateV2, RFC 5035 section 3).
    #[derive(Debug)]
    SigningCertificateV2, signing_certificate_v2, SigningCertificateV2At
}

impl<'a> SigningCertificateV2<'a> {
    fields! {
        /// `certs`, a SEQUENCE OF ESSCertIDv2.
        certs
    }

    optional_fields! {
        /// `policies`, a SEQUENCE OF PolicyInformation.
        policies
    }
}

message! {
    /// A certificate's hash value (ESSCertIDv2, RFC 5035 section 4).
    #[derive(Debug)]
    EssCertIdv2, ess_cert_idv2, EssCertIdv2At
}

impl<'a> EssCertIdv2<'a> {
    fields! {
        /// `certHash`, an OCTET STRING.
        cert_hash
    }

    optional_fields! {
        /// `hashAlgorithm`, an AlgorithmIdentifier.
        hash_algorithm
        /// `issuerSerial`, an IssuerSerial.
        issuer_serial
    }
}

message! {
    /// A request for a time stamp (TimeStampReq, RFC 3161 2.4.1).
    #[derive(Debug)]
    TimeStampReq, time_stamp_req, TimeStampReqAt
}

impl<'a> TimeStampReq<'a> {
    fields! {
        /// `version`, an INTEGER.
        version
        /// `messageImprint`, a MessageImprint.
        message_imprint
    }

    optional_fields! {
        /// `reqPolicy`, an OBJECT IDENTIFIER.
        req_policy
        /// `nonce`, an INTEGER.
        nonce
        /// `certReq`, a BOOLEAN; absent where it is the default, FALSE.
        cert_req
        /// `extensions`, a SEQUENCE OF Extension, with the implicit tag \[0\].
        extensions
    }
}

message! {
    /// A hash value of what is stamped (MessageImprint, RFC 3161 2.4.1).
    #[derive(Debug)]
    MessageImprint, message_imprint, MessageImprintAt
}

impl<'a> MessageImprint<'a> {
    fields! {
        /// `hashAlgorithm`, an AlgorithmIdentifier.
        hash_algorithm
        /// `hashedMessage`, an OCTET STRING.
        hashed_message
    }
}

message! {
    /// A response with a time stamp (TimeStampResp, RFC 3161 2.4.2).
    #[derive(Debug)]
    TimeStampResp, time_stamp_resp, TimeStampRespAt
}

impl<'a> TimeStampResp<'a> {
    fields! {
        /// `status`, a PKIStatusInfo.
        status
    }

    optional_fields! {
        /// `timeStampToken`, a ContentInfo.
        time_stamp_token
    }
}

message! {
    /// A status of a response (PKIStatusInfo, RFC 3161 2.4.2).
    #[derive(Debug)]
    PkiStatusInfo, pki_status_info, PkiStatusInfoAt
}

impl<'a> PkiStatusInfo<'a> {
    fields! {
        /// `status`, an INTEGER.
        status
    }

    optional_fields! {
        /// `statusString`, a SEQUENCE OF UTF8String.
        status_string
        /// `failInfo`, a BIT STRING.
        fail_info
    }
}

message! {
    /// A time stamp (TSTInfo, RFC 3161 2.4.2).
    #[derive(Debug)]
    TstInfo, tst_info, TstInfoAt
}

impl<'a> TstInfo<'a> {
    fields! {
        /// `version`, an INTEGER.
        version
        /// `policy`, an OBJECT IDENTIFIER.
        policy
        /// `messageImprint`, a MessageImprint.
        message_imprint
        /// `serialNumber`, an INTEGER.
        serial_number
        /// `genTime`, a GeneralizedTime.
        gen_time
    }

    optional_fields! {
        /// `accuracy`, an Accuracy.
        accuracy
        /// `ordering`, a BOOLEAN; absent where it is the default, FALSE.
        ordering
        /// `nonce`, an INTEGER.
        nonce
        /// `tsa`, a GeneralName, with the explicit tag \[0\].
        tsa
        /// `extensions`, a SEQUENCE OF Extension, with the implicit tag \[1\].
        extensions
    }
}

message! {
    /// An accuracy of a time (Accuracy, RFC 3161 2.4.2).
    #[derive(Debug)]
    Accuracy, accuracy, AccuracyAt
}

impl<'a> Accuracy<'a> {
    optional_fields! {
        /// `seconds`, an INTEGER.
        seconds
        /// `millis`, an INTEGER, with the implicit tag \[0\].
        millis
        /// `micros`, an INTEGER, with the implicit tag \[1\].
        micros
    }
}

message! {
    /// A PKCS 12 file (PFX, RFC 7292 section 4).
    #[derive(Debug)]
    Pfx, pfx, PfxAt
}

impl<'a> Pfx<'a> {
    fields! {
        /// `version`, an INTEGER.
        version
        /// `authSafe`, a ContentInfo of RFC 2315 section 7, whose content may be absent.
        auth_safe
    }

    optional_fields! {
        /// `macData`, a MacData.
        mac_data
    }
}

message! {
    /// A MAC of a PKCS 12 file (MacData, RFC 7292 section 4).
    #[derive(Debug)]
    MacData, mac_data, MacDataAt
}

impl<'a> MacData<'a> {
    fields! {
        /// `mac`, a DigestInfo.
        mac
        /// `macSalt`, an OCTET STRING.
        mac_salt
    }

    optional_fields! {
        /// `iterations`, an INTEGER.
        iterations
    }
}

message! {
    /// A hash value with its algorithm (DigestInfo, RFC 8017 9.2).
    #[derive(Debug)]
    DigestInfo, digest_info, DigestInfoAt
}

impl<'a> DigestInfo<'a> {
    fields! {
        /// `digestAlgorithm`, an AlgorithmIdentifier.
        digest_algorithm
        /// `digest`, an OCTET STRING.
        digest
    }
}

message! {
    /// A bag of a PKCS 12 file (SafeBag, RFC 7292 4.2).
    #[derive(Debug)]
    SafeBag, safe_bag, SafeBagAt
}

impl<'a> SafeBag<'a> {
    fields! {
        /// `bagId`, an OBJECT IDENTIFIER.
        bag_id
        /// `bagValue`, what `bagId` defines, with the explicit tag \[0\].
        bag_value
    }

    optional_fields! {
        /// `bagAttributes`, a SET OF Attribute.
        bag_attributes
    }
}

message! {
    /// A certificate in a bag (CertBag, RFC 7292 4.2.3).
    #[derive(Debug)]
    CertBag, cert_bag, CertBagAt
}

impl<'a> CertBag<'a> {
    fields! {
        /// `certId`, an OBJECT IDENTIFIER.
        cert_id
        /// `certValue`, what `certId` defines, with the explicit tag \[0\].
        cert_value
    }
}
// end of messages
