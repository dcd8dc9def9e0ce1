"""What stands where: for each class of derproved the class of asn1crypto, and what stands in its members."""

from asn1crypto import algos, cms, crl, csr, keys, ocsp, pkcs12, tsp, x509

# The class of asn1crypto for each class of derproved, where the names of the members are the same but for ALIASES.
PEERS = {
    "Certificate": x509.Certificate,
    "Extension": x509.Extension,
    "CertificateList": crl.CertificateList,
    "RevokedCertificate": crl.RevokedCertificate,
    "SubjectPublicKeyInfo": keys.PublicKeyInfo,
    "PrivateKeyInfo": keys.PrivateKeyInfo,
    "CertificationRequest": csr.CertificationRequest,
    "OcspResponse": ocsp.OCSPResponse,
    "BasicOcspResponse": ocsp.BasicOCSPResponse,
    "SingleResponse": ocsp.SingleResponse,
    "ContentInfo": cms.ContentInfo,
    "SignedData": cms.SignedData,
    "SignerInfo": cms.SignerInfo,
    "AttributeTypeAndValue": x509.NameTypeAndValue,
    "Attribute": cms.CMSAttribute,
    "AlgorithmIdentifier": algos.AlgorithmIdentifier,
    "RsassaPssParams": algos.RSASSAPSSParams,
    "EcdsaSigValue": algos.DSASignature,
    "Pbes2Params": algos.Pbes2Params,
    "Pbkdf2Params": algos.Pbkdf2Params,
    "RsaPublicKey": keys.RSAPublicKey,
    "RsaPrivateKey": keys.RSAPrivateKey,
    "EcPrivateKey": keys.ECPrivateKey,
    "EncryptedPrivateKeyInfo": keys.EncryptedPrivateKeyInfo,
    "AuthorityKeyIdentifier": x509.AuthorityKeyIdentifier,
    "PolicyInformation": x509.PolicyInformation,
    "PolicyQualifierInfo": x509.PolicyQualifierInfo,
    "PolicyMapping": x509.PolicyMapping,
    "BasicConstraints": x509.BasicConstraints,
    "NameConstraints": x509.NameConstraints,
    "GeneralSubtree": x509.GeneralSubtree,
    "PolicyConstraints": x509.PolicyConstraints,
    "DistributionPoint": x509.DistributionPoint,
    "AccessDescription": x509.AccessDescription,
    "IssuingDistributionPoint": crl.IssuingDistributionPoint,
    "OcspRequest": ocsp.OCSPRequest,
    "TbsRequest": ocsp.TBSRequest,
    "Request": ocsp.Request,
    "CertId": ocsp.CertId,
    "IssuerAndSerialNumber": cms.IssuerAndSerialNumber,
    "EnvelopedData": cms.EnvelopedData,
    "EncryptedContentInfo": cms.EncryptedContentInfo,
    "KeyTransRecipientInfo": cms.KeyTransRecipientInfo,
    "EncryptedData": cms.EncryptedData,
    "SigningCertificateV2": tsp.SigningCertificateV2,
    "EssCertIdv2": tsp.ESSCertIDv2,
    "TimeStampReq": tsp.TimeStampReq,
    "MessageImprint": tsp.MessageImprint,
    "TimeStampResp": tsp.TimeStampResp,
    "PkiStatusInfo": tsp.PKIStatusInfo,
    "TstInfo": tsp.TSTInfo,
    "Accuracy": tsp.Accuracy,
    "Pfx": pkcs12.Pfx,
    "MacData": pkcs12.MacData,
    "DigestInfo": algos.DigestInfo,
    "SafeBag": pkcs12.SafeBag,
    "CertBag": pkcs12.CertBag,
}

# The member of a class whose own members are members of the class too.
WITHIN = {
    "Certificate": "tbs_certificate",
    "CertificateList": "tbs_cert_list",
    "CertificationRequest": "certification_request_info",
    "OcspResponse": "response_bytes",
    "BasicOcspResponse": "tbs_response_data",
    "SignedData": "encap_content_info",
}

# The members that asn1crypto gives another name.
ALIASES = {
    ("CertificateList", "signature_value"): "signature",
    ("CertificateList", "signature"): "tbs_cert_list.signature",
    ("SubjectPublicKeyInfo", "subject_public_key"): "public_key",
    ("PrivateKeyInfo", "public_key"): "4",  # asn1crypto 1.5 knows no such field, but finds its octets
    ("SignedData", "e_content_type"): "encap_content_info.content_type",
    ("SignedData", "e_content"): "encap_content_info.content",
    ("AlgorithmIdentifier", "oid"): "algorithm",
}

# What stands in a member: a class, or a kind of value. Before it stands how it is reached: '<' by the contents octets of the
# member, as behind an explicit tag; '*' in each encoding in the contents octets.
INSIDE = {
    "Certificate": {
        "signature_algorithm": "AlgorithmIdentifier", "signature": "AlgorithmIdentifier", "issuer": "Name", "subject": "Name",
        "subject_public_key_info": "SubjectPublicKeyInfo",
    },
    "CertificateList": {"signature_algorithm": "AlgorithmIdentifier", "signature": "AlgorithmIdentifier", "issuer": "Name"},
    "SubjectPublicKeyInfo": {"algorithm": "AlgorithmIdentifier"},
    "PrivateKeyInfo": {"private_key_algorithm": "AlgorithmIdentifier", "attributes": "*Attribute"},
    "CertificationRequest": {
        "signature_algorithm": "AlgorithmIdentifier", "subject": "Name", "subject_pk_info": "SubjectPublicKeyInfo",
    },
    "BasicOcspResponse": {"signature_algorithm": "AlgorithmIdentifier", "certs": "<*Certificate"},
    "SingleResponse": {"cert_id": "CertId"},
    "SignedData": {"digest_algorithms": "*AlgorithmIdentifier", "certificates": "*Certificate", "crls": "*CertificateList"},
    "SignerInfo": {"digest_algorithm": "AlgorithmIdentifier", "signature_algorithm": "AlgorithmIdentifier"},
    "RsassaPssParams": {"hash_algorithm": "<AlgorithmIdentifier", "mask_gen_algorithm": "<AlgorithmIdentifier"},
    "Pbes2Params": {"key_derivation_func": "AlgorithmIdentifier", "encryption_scheme": "AlgorithmIdentifier"},
    "Pbkdf2Params": {"prf": "AlgorithmIdentifier"},
    "EncryptedPrivateKeyInfo": {"encryption_algorithm": "AlgorithmIdentifier"},
    "AuthorityKeyIdentifier": {"authority_cert_issuer": "*GeneralName"},
    "PolicyInformation": {"policy_qualifiers": "*PolicyQualifierInfo"},
    "NameConstraints": {"permitted_subtrees": "*GeneralSubtree", "excluded_subtrees": "*GeneralSubtree"},
    "GeneralSubtree": {"base": "GeneralName"},
    "DistributionPoint": {"crl_issuer": "*GeneralName"},
    "AccessDescription": {"access_location": "GeneralName"},
    "OcspRequest": {"tbs_request": "TbsRequest"},
    "TbsRequest": {"requestor_name": "<GeneralName", "request_list": "*Request", "request_extensions": "<*Extension"},
    "Request": {"req_cert": "CertId", "single_request_extensions": "<*Extension"},
    "CertId": {"hash_algorithm": "AlgorithmIdentifier"},
    "IssuerAndSerialNumber": {"issuer": "Name"},
    "EnvelopedData": {"encrypted_content_info": "EncryptedContentInfo", "unprotected_attrs": "*Attribute"},
    "EncryptedContentInfo": {"content_encryption_algorithm": "AlgorithmIdentifier"},
    "KeyTransRecipientInfo": {"key_encryption_algorithm": "AlgorithmIdentifier"},
    "EncryptedData": {"encrypted_content_info": "EncryptedContentInfo", "unprotected_attrs": "*Attribute"},
    "SigningCertificateV2": {"certs": "*EssCertIdv2", "policies": "*PolicyInformation"},
    "EssCertIdv2": {"hash_algorithm": "AlgorithmIdentifier"},
    "TimeStampReq": {"message_imprint": "MessageImprint", "extensions": "*Extension"},
    "MessageImprint": {"hash_algorithm": "AlgorithmIdentifier"},
    "TimeStampResp": {"status": "PkiStatusInfo", "time_stamp_token": "ContentInfo"},
    "TstInfo": {"message_imprint": "MessageImprint", "accuracy": "Accuracy", "tsa": "<GeneralName", "extensions": "*Extension"},
    "Pfx": {"auth_safe": "ContentInfo", "mac_data": "MacData"},
    "MacData": {"mac": "DigestInfo"},
    "DigestInfo": {"digest_algorithm": "AlgorithmIdentifier"},
    "SafeBag": {"bag_attributes": "*Attribute"},
}

# What the contents octets of extnValue encode (RFC 5280 4.2, 5.2, 5.3; RFC 6960 4.4), by the identifier.
EXTENSIONS = {
    "2.5.29.15": "bits", "2.5.29.17": "*GeneralName", "2.5.29.18": "*GeneralName", "2.5.29.19": "BasicConstraints",
    "2.5.29.20": "number", "2.5.29.27": "number", "2.5.29.28": "IssuingDistributionPoint", "2.5.29.29": "*GeneralName",
    "2.5.29.24": "time", "2.5.29.30": "NameConstraints", "2.5.29.31": "*DistributionPoint", "2.5.29.32": "*PolicyInformation",
    "2.5.29.33": "*PolicyMapping", "2.5.29.35": "AuthorityKeyIdentifier", "2.5.29.36": "PolicyConstraints",
    "2.5.29.37": "*identifier", "2.5.29.46": "*DistributionPoint", "2.5.29.54": "number",
    "1.3.6.1.5.5.7.1.1": "*AccessDescription", "1.3.6.1.5.5.7.1.11": "*AccessDescription",
    "1.3.6.1.5.5.7.48.1.6": "time", "1.3.6.1.5.5.7.48.1.7": "*AccessDescription",
}

# What the parameters of an algorithm encode, by its identifier.
PARAMETERS = {
    "1.2.840.113549.1.1.10": "RsassaPssParams", "1.2.840.113549.1.5.13": "Pbes2Params", "1.2.840.113549.1.5.12": "Pbkdf2Params",
}

# What the content of a message encodes, by its type: in its contents octets, or in the OCTET STRING there.
CONTENTS = {
    "1.2.840.113549.1.7.2": "<SignedData", "1.2.840.113549.1.7.3": "<EnvelopedData", "1.2.840.113549.1.7.6": "<EncryptedData",
}
