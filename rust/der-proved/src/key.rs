//! Public and private keys.

use crate::place::{fields, message, optional_fields};

message! {
    /// A SubjectPublicKeyInfo (RFC 5280 4.1.2.7).
    #[derive(Debug)]
    SubjectPublicKeyInfo, subject_public_key_info, SubjectPublicKeyInfoAt
}

impl<'a> SubjectPublicKeyInfo<'a> {
    // written by tools/bindings: fields of SubjectPublicKeyInfo
    fields! {
        /// `algorithm`, an AlgorithmIdentifier.
        algorithm
        /// `subjectPublicKey`, a BIT STRING.
        subject_public_key
    }
    // end of fields of SubjectPublicKeyInfo
}

message! {
    /// A PrivateKeyInfo, which is a OneAsymmetricKey (RFC 5958 section 2). `Debug` shows no octets of it.
    PrivateKeyInfo, private_key_info, PrivateKeyInfoAt
}

impl<'a> PrivateKeyInfo<'a> {
    // written by tools/bindings: fields of PrivateKeyInfo
    fields! {
        /// `privateKeyAlgorithm`, an AlgorithmIdentifier.
        private_key_algorithm
        /// `privateKey`, an OCTET STRING.
        private_key
    }

    optional_fields! {
        /// `attributes`, with their implicit tag \[0\].
        attributes
        /// `publicKey`, with its implicit tag \[1\].
        public_key
    }
    // end of fields of PrivateKeyInfo

    /// 1 or 2; one more than the number that stands in `version`.
    pub fn version(&self) -> u64 {
        self.at.version_number + 1
    }
}

impl core::fmt::Debug for PrivateKeyInfo<'_> {
    fn fmt(&self, f: &mut core::fmt::Formatter<'_>) -> core::fmt::Result {
        f.debug_struct("PrivateKeyInfo").field("at", &self.at).finish_non_exhaustive()
    }
}
