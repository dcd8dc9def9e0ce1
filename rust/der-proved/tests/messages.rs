//! Messages that OpenSSL wrote: a request, an answer about the status of two certificates, and a signed message.

use der_proved::{
    contents, signed_octets, BasicOcspResponse, CertStatus, CertificationRequest, ContentInfo, Error, Name, OcspResponse,
    SignedData,
};

/// `openssl req -new -key mill.key -subj /CN=mill -addext subjectAltName=DNS:mill`.
const REQUEST: &str = "3081b03064020100300f310d300b06035504030c046d696c6c302a300506032b6570032100bc883ff0865c26f855de8d898353a85b35f40de18d795018e9e51bf923732a84a022302006092a864886f70d01090e31133011300f0603551d110408300682046d696c6c300506032b6570034100e041477978c28f4d2e36bd0f0ced526489df9700c404a525288e85c0a3691a273507375851bcb9c33b8d351c7cb9589ba1ba5270cc281ac04f7cb12d27fd4e09";

/// `openssl ocsp -index index -CA mill.pem -rsigner mill.pem -rkey mill.key -reqin o.req -ndays 7 -resp_no_certs
/// -resp_key_id`.
const ANSWER: &str = "308201820a0100a082017b3082017706092b060105050730010104820168308201643082010aa2160414420a99e3653456b1094d5e1d440a30017e90f1b9180f32303236313132383038323532395a3081de3062303a300906052b0e03021a050004141dd2f1ee5750656f97110b338c846ee99db6d7670414420a99e3653456b1094d5e1d440a30017e90f1b90201018000180f32303236313132383038323532395aa011180f32303236313230353038323532395a3078303a300906052b0e03021a050004141dd2f1ee5750656f97110b338c846ee99db6d7670414420a99e3653456b1094d5e1d440a30017e90f1b9020102a116180f32303236303130323033303430355aa0030a0101180f32303236313132383038323532395aa011180f32303236313230353038323532395a300a06082a8648ce3d040302034800304502200885cf84626f7a3ae683035288c9e9231ded87cf66f4f1434885e86c1fdd607a022100ea1fd4ba60a25b1423c6659367b8e4f6154a11421dab500a2e3f0e2637846af3";

/// `openssl cms -sign -in hello.txt -signer mill.pem -inkey mill.key -nodetach -nocerts -binary -nosmimecap`.
const MESSAGE: &str = "3082013a06092a864886f70d010702a082012b30820127020101310d300b0609608648016503040201301406092a864886f70d010701a007040568656c6c6f3181fc3081f90201013027300f310d300b06035504030c046d696c6c02145f33fbe19b5fb474022799b0529eae0e2f197060300b0609608648016503040201a069301806092a864886f70d010903310b06092a864886f70d010701301c06092a864886f70d010905310f170d3236313132383038323532395a302f06092a864886f70d010904312204202cf24dba5fb0a30e26e83b2ac5b9e29e1b161e5c1fa7425e73043362938b9824300a06082a8648ce3d0403020447304502206c4ce2feaf5f52685d4179299e8a4eb83848f3f5016d7700a53885ffc7b0c3d1022100903cca7f2f6e3c90c4873b3df407dfd98aa66c7b3b40e65e2c50ea89ae2e0fb6";

fn octets(digits: &str) -> Vec<u8> {
    (0..digits.len()).step_by(2).map(|i| u8::from_str_radix(&digits[i..i + 2], 16).unwrap()).collect()
}

#[test]
fn a_request() -> Result<(), Error> {
    let octets = octets(REQUEST);
    let request = CertificationRequest::from_der(&octets)?;
    assert_eq!(request.certification_request_info(), signed_octets(&octets));
    let names: Vec<_> = request.subject_attributes().collect::<Result<_, _>>()?;
    assert_eq!(names.len(), 1);
    assert_eq!((names[0].identifier(), contents(names[0].value())), (&[0x55, 4, 3][..], &b"mill"[..]));
    let attributes: Vec<_> = request.attributes().collect::<Result<_, _>>()?;
    assert_eq!(attributes.len(), 1);
    assert_eq!(attributes[0].identifier(), [0x2a, 0x86, 0x48, 0x86, 0xf7, 0x0d, 1, 9, 14]);
    Ok(())
}

#[test]
fn an_answer() -> Result<(), Error> {
    let octets = octets(ANSWER);
    let answer = OcspResponse::from_der(&octets)?;
    assert_eq!(answer.response_status(), 0);
    assert_eq!(answer.response_type().map(contents), Some(&[0x2b, 6, 1, 5, 5, 7, 0x30, 1, 1][..]));
    let response = answer.response().expect("an answer that is successful has one");
    let basic = BasicOcspResponse::from_der(contents(response))?;
    assert_eq!(basic.certs(), None);
    let found: Vec<_> = basic.responses().collect::<Result<_, _>>()?;
    let states: Vec<_> = found.iter().map(|single| single.cert_status()).collect();
    assert_eq!(states, [CertStatus::Good, CertStatus::Revoked(1_767_323_045)]);
    assert_eq!(found[1].next_update(), Some(found[1].this_update() + 7 * 86_400));
    assert_eq!(found[0].extensions().count() + basic.extensions().count(), 0);
    Ok(())
}

#[test]
fn an_answer_that_says_why_there_is_none() -> Result<(), Error> {
    let answer = OcspResponse::from_der(&[0x30, 3, 0x0a, 1, 6])?;
    assert_eq!(answer.response_status(), 6);
    assert_eq!((answer.response_type(), answer.response()), (None, None));
    Ok(())
}

#[test]
fn a_signed_message() -> Result<(), Error> {
    let octets = octets(MESSAGE);
    let message = ContentInfo::from_der(&octets)?;
    let data = SignedData::from_der(contents(message.content()))?;
    assert_eq!(data.e_content().map(contents).map(contents), Some(&b"hello"[..]));
    let signers: Vec<_> = data.signer_infos().collect::<Result<_, _>>()?;
    assert_eq!((signers.len(), signers[0].version(), data.version()), (1, 1, 1));
    let attributes: Vec<_> = signers[0].signed_attributes().collect::<Result<_, _>>()?;
    let last: Vec<_> = attributes.iter().map(|attribute| attribute.identifier()[8]).collect();
    assert_eq!(last, [3, 5, 4]);
    assert_eq!(signers[0].unsigned_attributes().count(), 0);
    Ok(())
}

#[test]
fn what_is_no_name_is_refused() {
    for (octets, number) in [(&[0x30, 2, 0x31, 0][..], 2), (&[0x30, 4, 0x31, 2, 0x30, 0], 2), (&[0x30, 4, 0x31, 2, 5, 0], 4)] {
        let mut name = Name::of(octets);
        assert_eq!(name.next().unwrap().unwrap_err().number(), number);
        assert!(name.next().is_none());
    }
    assert!(Name::of(&[0x30, 0]).next().is_none());
}
