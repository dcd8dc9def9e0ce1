//! Signed messages.

use crate::place::{fields, if_there, items, message, optional_fields};
use crate::Attributes;

message! {
    /// A ContentInfo (RFC 5652 section 3).
    #[derive(Debug)]
    ContentInfo, content_info, ContentInfoAt
}

impl<'a> ContentInfo<'a> {
    // written by tools/bindings: fields of ContentInfo
    fields! {
        /// `contentType`, an OBJECT IDENTIFIER.
        content_type
        /// `content`, with its explicit tag \[0\]; if contentType is id-signedData, a SignedData is to be read from its
        /// contents octets.
        content
    }
    // end of fields of ContentInfo
}

message! {
    /// A SignedData (RFC 5652 5.1).
    #[derive(Debug)]
    SignedData, signed_data, SignedDataAt
}

impl<'a> SignedData<'a> {
    // written by tools/bindings: fields of SignedData
    fields! {
        /// `digestAlgorithms`, a SET OF AlgorithmIdentifier.
        digest_algorithms
        /// `eContentType` of `encapContentInfo`, an OBJECT IDENTIFIER.
        e_content_type
    }

    optional_fields! {
        /// `certificates`, with their implicit tag \[0\].
        certificates
        /// `crls`, with their implicit tag \[1\].
        crls
        /// `eContent` of `encapContentInfo`, an OCTET STRING with its explicit tag \[0\].
        e_content
    }
    // end of fields of SignedData

    /// `version`, 0 to 5.
    pub fn version(&self) -> u64 {
        self.at.version_number
    }

    /// The signers, in their order.
    pub fn signer_infos(&self) -> SignerInfos<'a> {
        SignerInfos::listed(if_there(self.octets, self.at.signer_infos))
    }
}

items! {
    /// Goes over the signers of a message.
    SignerInfos,
    /// A SignerInfo (RFC 5652 5.3).
    SignerInfo, signer_info, SignerInfoAt
}

impl<'a> SignerInfo<'a> {
    // written by tools/bindings: fields of SignerInfo
    fields! {
        /// `sid`, a CHOICE: a SEQUENCE of issuer and serial number, or with its implicit tag \[0\] a key's identifier.
        sid
        /// `digestAlgorithm`, an AlgorithmIdentifier.
        digest_algorithm
        /// `signatureAlgorithm`, an AlgorithmIdentifier.
        signature_algorithm
        /// `signature`, an OCTET STRING.
        signature
    }

    optional_fields! {
        /// `signedAttrs`, with their implicit tag \[0\].
        signed_attrs
        /// `unsignedAttrs`, with their implicit tag \[1\].
        unsigned_attrs
    }
    // end of fields of SignerInfo

    /// `version`, 0 to 5.
    pub fn version(&self) -> u64 {
        self.at.version_number
    }

    /// The signed attributes, in their order.
    pub fn signed_attributes(&self) -> Attributes<'a> {
        Attributes::listed(self.signed_attrs())
    }

    /// The unsigned attributes, in their order.
    pub fn unsigned_attributes(&self) -> Attributes<'a> {
        Attributes::listed(self.unsigned_attrs())
    }
}

