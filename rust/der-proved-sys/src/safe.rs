//! Safe calls. Each passes a slice as its pointer and its length.

use crate::{
    Fault, ListStatusAt, OcspInputs, OcspStatusAt, PathAt, PathInputs, Place, ResponderAt, RevocationStatusAt, VerificationAt,
};
use core::ffi::CStr;

/// Panics if the library that was linked has another version of its interface.
fn check_version() {
    // SAFETY: the call takes nothing.
    let version = unsafe { crate::der_abi_version() };
    let own = crate::ABI_VERSION;
    assert!(version == own, "libder_c has version {version} of its interface, and der-proved-sys is for version {own}");
}

/// A call in C that reads octets.
type Read<T> = unsafe extern "C" fn(*const u8, usize, *mut T, *mut Fault) -> u32;

/// The value that a call writes, or the fault.
fn read<T: Default>(call: Read<T>, octets: &[u8]) -> Result<T, Fault> {
    check_version();
    let (mut out, mut fault) = (T::default(), Fault::default());
    // SAFETY: the slice has so many octets, which nothing writes while they are borrowed; `out` and `fault` are values of
    // this function, which overlap neither them nor each other.
    match unsafe { call(octets.as_ptr(), octets.len(), &mut out, &mut fault) } {
        0 => Ok(out),
        _ => Err(fault),
    }
}

macro_rules! reads {
    ($($name:ident: $call:ident -> $at:ty,)*) => {
        $(
            #[doc = concat!("What `", stringify!($call), "` returns for these octets.")]
            pub fn $name(octets: &[u8]) -> Result<$at, Fault> {
                read(crate::$call, octets)
            }
        )*
    };
}

reads! {
    // written by tools/bindings: safe calls
    certificate: der_certificate -> crate::CertificateAt,
    extension: der_extension -> crate::ExtensionAt,
    certificate_list: der_certificate_list -> crate::CertificateListAt,
    revoked_certificate: der_revoked_certificate -> crate::RevokedCertificateAt,
    subject_public_key_info: der_subject_public_key_info -> crate::SubjectPublicKeyInfoAt,
    private_key_info: der_private_key_info -> crate::PrivateKeyInfoAt,
    certification_request: der_certification_request -> crate::CertificationRequestAt,
    ocsp_response: der_ocsp_response -> crate::OcspResponseAt,
    basic_ocsp_response: der_basic_ocsp_response -> crate::BasicOcspResponseAt,
    single_response: der_single_response -> crate::SingleResponseAt,
    content_info: der_content_info -> crate::ContentInfoAt,
    signed_data: der_signed_data -> crate::SignedDataAt,
    signer_info: der_signer_info -> crate::SignerInfoAt,
    attribute_type_and_value: der_attribute_type_and_value -> crate::AttributeTypeAndValueAt,
    attribute: der_attribute -> crate::AttributeAt,
    algorithm_identifier: der_algorithm_identifier -> crate::AlgorithmIdentifierAt,
    rsassa_pss_params: der_rsassa_pss_params -> crate::RsassaPssParamsAt,
    ecdsa_sig_value: der_ecdsa_sig_value -> crate::EcdsaSigValueAt,
    pbes2_params: der_pbes2_params -> crate::Pbes2ParamsAt,
    pbkdf2_params: der_pbkdf2_params -> crate::Pbkdf2ParamsAt,
    rsa_public_key: der_rsa_public_key -> crate::RsaPublicKeyAt,
    rsa_private_key: der_rsa_private_key -> crate::RsaPrivateKeyAt,
    ec_private_key: der_ec_private_key -> crate::EcPrivateKeyAt,
    encrypted_private_key_info: der_encrypted_private_key_info -> crate::EncryptedPrivateKeyInfoAt,
    authority_key_identifier: der_authority_key_identifier -> crate::AuthorityKeyIdentifierAt,
    policy_information: der_policy_information -> crate::PolicyInformationAt,
    policy_qualifier_info: der_policy_qualifier_info -> crate::PolicyQualifierInfoAt,
    policy_mapping: der_policy_mapping -> crate::PolicyMappingAt,
    basic_constraints: der_basic_constraints -> crate::BasicConstraintsAt,
    name_constraints: der_name_constraints -> crate::NameConstraintsAt,
    general_subtree: der_general_subtree -> crate::GeneralSubtreeAt,
    policy_constraints: der_policy_constraints -> crate::PolicyConstraintsAt,
    distribution_point: der_distribution_point -> crate::DistributionPointAt,
    access_description: der_access_description -> crate::AccessDescriptionAt,
    issuing_distribution_point: der_issuing_distribution_point -> crate::IssuingDistributionPointAt,
    ocsp_request: der_ocsp_request -> crate::OcspRequestAt,
    tbs_request: der_tbs_request -> crate::TbsRequestAt,
    request: der_request -> crate::RequestAt,
    cert_id: der_cert_id -> crate::CertIdAt,
    issuer_and_serial_number: der_issuer_and_serial_number -> crate::IssuerAndSerialNumberAt,
    enveloped_data: der_enveloped_data -> crate::EnvelopedDataAt,
    encrypted_content_info: der_encrypted_content_info -> crate::EncryptedContentInfoAt,
    key_trans_recipient_info: der_key_trans_recipient_info -> crate::KeyTransRecipientInfoAt,
    encrypted_data: der_encrypted_data -> crate::EncryptedDataAt,
    signing_certificate_v2: der_signing_certificate_v2 -> crate::SigningCertificateV2At,
    ess_cert_idv2: der_ess_cert_idv2 -> crate::EssCertIdv2At,
    time_stamp_req: der_time_stamp_req -> crate::TimeStampReqAt,
    message_imprint: der_message_imprint -> crate::MessageImprintAt,
    time_stamp_resp: der_time_stamp_resp -> crate::TimeStampRespAt,
    pki_status_info: der_pki_status_info -> crate::PkiStatusInfoAt,
    tst_info: der_tst_info -> crate::TstInfoAt,
    accuracy: der_accuracy -> crate::AccuracyAt,
    pfx: der_pfx -> crate::PfxAt,
    mac_data: der_mac_data -> crate::MacDataAt,
    digest_info: der_digest_info -> crate::DigestInfoAt,
    safe_bag: der_safe_bag -> crate::SafeBagAt,
    cert_bag: der_cert_bag -> crate::CertBagAt,
    // end of safe calls
    unsigned_integer: der_unsigned_integer -> u64,
    time: der_time -> u64,
    fractional_time: der_fractional_time -> u64,
    named_bits: der_named_bits -> u32,
    general_name: der_general_name -> u32,
    check_rfc5280: der_check_rfc5280 -> u64,
    check_rfc5280_list: der_check_rfc5280_list -> u64,
}

/// What `der_canonical` returns: how many octets it wrote to the buffer, or the fault. If the buffer is too short (103),
/// `needed` is the length that is enough.
pub fn canonical(name: &str, octets: &[u8], buffer: &mut [u8], needed: &mut usize) -> Result<usize, Fault> {
    check_version();
    let mut fault = Fault::default();
    // SAFETY: the slices have so many octets, which nothing else writes while they are borrowed, and the buffer overlaps
    // none of them; `needed` and `fault` overlap nothing.
    let number = unsafe {
        crate::der_canonical(
            name.as_ptr(),
            name.len(),
            octets.as_ptr(),
            octets.len(),
            buffer.as_mut_ptr(),
            buffer.len(),
            needed,
            &mut fault,
        )
    };
    if number == 0 { Ok(*needed) } else { Err(fault) }
}

/// A call in C that writes a message from the fields at places in octets.
type Write<T> = unsafe extern "C" fn(*const u8, usize, *const T, *mut u8, usize, *mut usize, *mut Fault) -> u32;

/// How many octets a call writes to the buffer, or the fault. If the buffer is too short (103), `needed` is the length that
/// is enough.
fn write<T>(call: Write<T>, octets: &[u8], at: &T, buffer: &mut [u8], needed: &mut usize) -> Result<usize, Fault> {
    check_version();
    let mut fault = Fault::default();
    // SAFETY: the slices have so many octets, which nothing else writes while they are borrowed, and the buffer overlaps
    // neither the octets nor `at`; `needed` and `fault` overlap nothing.
    let number = unsafe {
        call(octets.as_ptr(), octets.len(), at, buffer.as_mut_ptr(), buffer.len(), needed, &mut fault)
    };
    if number == 0 { Ok(*needed) } else { Err(fault) }
}

macro_rules! writes {
    ($($name:ident: $call:ident <- $at:ty,)*) => {
        $(
            #[doc = concat!("How many octets `", stringify!($call), "` writes to the buffer. If it is too short (103), `needed`")]
            /// is the length that is enough.
            pub fn $name(octets: &[u8], at: &$at, buffer: &mut [u8], needed: &mut usize) -> Result<usize, Fault> {
                write(crate::$call, octets, at, buffer, needed)
            }
        )*
    };
}

writes! {
    // written by tools/bindings: safe writing calls
    write_tbs_certificate: der_write_tbs_certificate <- crate::CertificateAt,
    write_certificate: der_write_certificate <- crate::CertificateAt,
    write_extension: der_write_extension <- crate::ExtensionAt,
    write_tbs_cert_list: der_write_tbs_cert_list <- crate::CertificateListAt,
    write_certificate_list: der_write_certificate_list <- crate::CertificateListAt,
    write_revoked_certificate: der_write_revoked_certificate <- crate::RevokedCertificateAt,
    write_certification_request_info: der_write_certification_request_info <- crate::CertificationRequestAt,
    write_certification_request: der_write_certification_request <- crate::CertificationRequestAt,
    write_ocsp_response: der_write_ocsp_response <- crate::OcspResponseAt,
    write_response_data: der_write_response_data <- crate::BasicOcspResponseAt,
    write_basic_ocsp_response: der_write_basic_ocsp_response <- crate::BasicOcspResponseAt,
    write_single_response: der_write_single_response <- crate::SingleResponseAt,
    write_ocsp_request: der_write_ocsp_request <- crate::OcspRequestAt,
    write_tbs_request: der_write_tbs_request <- crate::TbsRequestAt,
    write_request: der_write_request <- crate::RequestAt,
    write_cert_id: der_write_cert_id <- crate::CertIdAt,
    // end of safe writing calls
}

/// A call in C that writes an encoding of octets.
type WriteOctets = unsafe extern "C" fn(*const u8, usize, *mut u8, usize, *mut usize, *mut Fault) -> u32;

/// The same as `write` of a call that takes octets alone.
fn write_octets(call: WriteOctets, octets: &[u8], buffer: &mut [u8], needed: &mut usize) -> Result<usize, Fault> {
    check_version();
    let mut fault = Fault::default();
    // SAFETY: as in `write`.
    let number = unsafe { call(octets.as_ptr(), octets.len(), buffer.as_mut_ptr(), buffer.len(), needed, &mut fault) };
    if number == 0 { Ok(*needed) } else { Err(fault) }
}

macro_rules! writes_octets {
    ($($name:ident: $call:ident,)*) => {
        $(
            #[doc = concat!("How many octets `", stringify!($call), "` writes to the buffer. If it is too short (103), `needed`")]
            /// is the length that is enough.
            pub fn $name(octets: &[u8], buffer: &mut [u8], needed: &mut usize) -> Result<usize, Fault> {
                write_octets(crate::$call, octets, buffer, needed)
            }
        )*
    };
}

writes_octets! {
    write_bit_string: der_write_bit_string,
    write_named_bits: der_write_named_bits,
    write_unsigned_integer: der_write_unsigned_integer,
    write_ed25519_key: der_write_ed25519_key,
    write_p256_key: der_write_p256_key,
    write_rsa_key: der_write_rsa_key,
}

/// A call in C that writes a date.
type WriteSeconds = unsafe extern "C" fn(u64, *mut u8, usize, *mut usize, *mut Fault) -> u32;

/// The same of a call that takes seconds.
fn write_seconds(call: WriteSeconds, seconds: u64, buffer: &mut [u8], needed: &mut usize) -> Result<usize, Fault> {
    check_version();
    let mut fault = Fault::default();
    // SAFETY: as in `write`.
    let number = unsafe { call(seconds, buffer.as_mut_ptr(), buffer.len(), needed, &mut fault) };
    if number == 0 { Ok(*needed) } else { Err(fault) }
}

/// How many octets `der_write_time` writes to the buffer. If it is too short (103), `needed` is the length that is enough.
pub fn write_time(seconds: u64, buffer: &mut [u8], needed: &mut usize) -> Result<usize, Fault> {
    write_seconds(crate::der_write_time, seconds, buffer, needed)
}

/// How many octets `der_write_generalized_time` writes to the buffer. If it is too short (103), `needed` is the length that
/// is enough.
pub fn write_generalized_time(seconds: u64, buffer: &mut [u8], needed: &mut usize) -> Result<usize, Fault> {
    write_seconds(crate::der_write_generalized_time, seconds, buffer, needed)
}

/// How many octets `der_write_encoding` writes to the buffer. If it is too short (103), `needed` is the length that is
/// enough.
pub fn write_encoding(identifier: u32, contents: &[u8], buffer: &mut [u8], needed: &mut usize) -> Result<usize, Fault> {
    check_version();
    let mut fault = Fault::default();
    let (address, len) = (buffer.as_mut_ptr(), buffer.len());
    // SAFETY: as in `write`.
    let number = unsafe {
        crate::der_write_encoding(identifier, contents.as_ptr(), contents.len(), address, len, needed, &mut fault)
    };
    if number == 0 { Ok(*needed) } else { Err(fault) }
}

/// How many octets `der_write_name_attribute` writes to the buffer. If it is too short (103), `needed` is the length that is
/// enough.
pub fn write_name_attribute(type_: &[u8], text: &[u8], buffer: &mut [u8], needed: &mut usize) -> Result<usize, Fault> {
    check_version();
    let mut fault = Fault::default();
    // SAFETY: as in `write`.
    let number = unsafe {
        crate::der_write_name_attribute(
            type_.as_ptr(),
            type_.len(),
            text.as_ptr(),
            text.len(),
            buffer.as_mut_ptr(),
            buffer.len(),
            needed,
            &mut fault,
        )
    };
    if number == 0 { Ok(*needed) } else { Err(fault) }
}

/// What `der_check_path` writes to the buffers and to `out`, or the fault. All places are within the octets.
pub fn check_path(
    octets: &[u8],
    inputs: &PathInputs,
    chain: &[Place],
    verifications: &mut [VerificationAt],
    policies: &mut [u8],
    out: &mut PathAt,
) -> Result<(), Fault> {
    check_version();
    let mut fault = Fault::default();
    // SAFETY: the slices have so many items, which nothing else writes while they are borrowed, and the buffers overlap
    // nothing; `out` and `fault` overlap nothing either.
    let number = unsafe {
        crate::der_check_path(
            octets.as_ptr(),
            octets.len(),
            inputs,
            chain.as_ptr(),
            chain.len(),
            verifications.as_mut_ptr(),
            verifications.len(),
            policies.as_mut_ptr(),
            policies.len(),
            out,
            &mut fault,
        )
    };
    if number == 0 { Ok(()) } else { Err(fault) }
}

/// What `der_list_status` writes to `out`, or the fault. Both places are within the octets.
pub fn list_status(
    octets: &[u8],
    certificate: Place,
    list: Place,
    moment: u64,
    out: &mut ListStatusAt,
) -> Result<(), Fault> {
    check_version();
    let mut fault = Fault::default();
    // SAFETY: as in `read`; `out` and `fault` overlap nothing.
    let number = unsafe {
        crate::der_list_status(octets.as_ptr(), octets.len(), &certificate, &list, moment, out, &mut fault)
    };
    if number == 0 { Ok(()) } else { Err(fault) }
}

/// What `der_revocation_status` writes to `out`, or the fault. All places are within the octets.
pub fn revocation_status(
    octets: &[u8],
    certificate: Place,
    lists: &[Place],
    moment: u64,
    use_deltas: bool,
    out: &mut RevocationStatusAt,
) -> Result<(), Fault> {
    check_version();
    let mut fault = Fault::default();
    // SAFETY: as in `read`; the slice of places has so many; `out` and `fault` overlap nothing.
    let number = unsafe {
        crate::der_revocation_status(
            octets.as_ptr(),
            octets.len(),
            &certificate,
            lists.as_ptr(),
            lists.len(),
            moment,
            u32::from(use_deltas),
            out,
            &mut fault,
        )
    };
    if number == 0 { Ok(()) } else { Err(fault) }
}

/// What `der_ocsp_status` writes to the buffers and to `out`, or the fault. All places are within the octets.
pub fn ocsp_status(
    octets: &[u8],
    inputs: &OcspInputs,
    responders: &mut [ResponderAt],
    key_hash: &mut [u8],
    out: &mut OcspStatusAt,
) -> Result<(), Fault> {
    check_version();
    let mut fault = Fault::default();
    // SAFETY: the slices have so many items, which nothing else writes while they are borrowed, and the buffers overlap
    // nothing; `out` and `fault` overlap nothing either.
    let number = unsafe {
        crate::der_ocsp_status(
            octets.as_ptr(),
            octets.len(),
            inputs,
            responders.as_mut_ptr(),
            responders.len(),
            key_hash.as_mut_ptr(),
            key_hash.len(),
            out,
            &mut fault,
        )
    };
    if number == 0 { Ok(()) } else { Err(fault) }
}

/// What `der_contents` returns for a place.
pub fn contents(octets: &[u8], place: Place) -> Place {
    // SAFETY: as in `read`.
    unsafe { crate::der_contents(octets.as_ptr(), octets.len(), &place) }
}

/// What `der_next_encoding` returns for a place.
pub fn next_encoding(octets: &[u8], last: Place) -> Place {
    // SAFETY: as in `read`.
    unsafe { crate::der_next_encoding(octets.as_ptr(), octets.len(), &last) }
}

/// What `der_signed_octets` returns.
pub fn signed_octets(octets: &[u8]) -> Place {
    // SAFETY: as in `read`.
    unsafe { crate::der_signed_octets(octets.as_ptr(), octets.len()) }
}

/// The meaning of a number, in English.
pub fn number_text(number: u32) -> &'static str {
    // SAFETY: the call returns a text that ends with an octet 0 and is never freed.
    let text = unsafe { CStr::from_ptr(crate::der_number_text(number)) };
    text.to_str().unwrap_or("no such number")
}

/// The section and the letter of a step of RFC 5280 6.1.
pub fn step_text(step: u32) -> &'static str {
    // SAFETY: as in `number_text`.
    let text = unsafe { CStr::from_ptr(crate::der_step_text(step)) };
    text.to_str().unwrap_or("no step")
}

/// The section and the letter of a step that refuses a list.
pub fn list_step_text(step: u32) -> &'static str {
    // SAFETY: as in `number_text`.
    let text = unsafe { CStr::from_ptr(crate::der_list_step_text(step)) };
    text.to_str().unwrap_or("no step")
}

/// The section and the letter of a step that refuses an answer.
pub fn ocsp_step_text(step: u32) -> &'static str {
    // SAFETY: as in `number_text`.
    let text = unsafe { CStr::from_ptr(crate::der_ocsp_step_text(step)) };
    text.to_str().unwrap_or("no step")
}
