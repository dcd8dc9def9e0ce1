//! The messages of PEM files: those that `DER_TEST_FILES` names, and the system's certificates.
#![allow(dead_code)]

pub mod signer;

use std::path::PathBuf;
use std::{env, fs};

const SYSTEM: &str = "/etc/ssl/certs/ca-certificates.crt";

/// A message with the label of its first line.
pub struct Message {
    pub label: String,
    pub octets: Vec<u8>,
}

fn base64(text: &str) -> Vec<u8> {
    let (mut octets, mut bits, mut count) = (Vec::new(), 0u32, 0);
    for letter in text.bytes() {
        let digit = match letter {
            b'A'..=b'Z' => letter - b'A',
            b'a'..=b'z' => letter - b'a' + 26,
            b'0'..=b'9' => letter - b'0' + 52,
            b'+' => 62,
            b'/' => 63,
            _ => continue,
        };
        (bits, count) = (bits << 6 | u32::from(digit), count + 6);
        if count >= 8 {
            count -= 8;
            octets.push((bits >> count) as u8);
        }
    }
    octets
}

fn messages_of(text: &str) -> Vec<Message> {
    let mut found = Vec::new();
    for block in text.split("-----BEGIN ").skip(1) {
        let Some((label, rest)) = block.split_once("-----") else { continue };
        let body = rest.split("-----END").next().unwrap_or("");
        found.push(Message { label: label.to_string(), octets: base64(body) });
    }
    found
}

/// All messages of the files.
pub fn messages() -> Vec<Message> {
    let named = env::var_os("DER_TEST_FILES").unwrap_or_default();
    let mut files: Vec<PathBuf> = env::split_paths(&named).filter(|file| !file.as_os_str().is_empty()).collect();
    files.extend([PathBuf::from(SYSTEM)].into_iter().filter(|file| file.exists()));
    files.iter().flat_map(|file| messages_of(&fs::read_to_string(file).expect("a PEM file is read"))).collect()
}
