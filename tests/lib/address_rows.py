"""Values of RFC 3779's extensions, which openssl writes, for own_repository.py: a file of tests in Rattle that reads each, writes
it again, and reads spoilt ones."""
import shutil
import subprocess
import tempfile

# The extension in openssl, its type, and the last octet of its identifier, 1.3.6.1.5.5.7.1.n.
BLOCKS = ("sbgp-ipAddrBlock", "IpAddrBlocks", 7)
NUMBERS = ("sbgp-autonomousSysNum", "AsIdentifiers", 8)
VALUES = [
    (BLOCKS, "IPv4:192.0.2.0/24"),
    (BLOCKS, "IPv4:0.0.0.0/0,IPv6:2001:db8::/32"),
    (BLOCKS, "IPv4:10.0.0.1-10.0.0.77,IPv4:192.0.2.128/25,IPv4:198.51.100.7"),
    (BLOCKS, "IPv6:2001:db8::1-2001:db8::ffff"),
    (BLOCKS, "IPv4:inherit,IPv6:inherit"),
    (BLOCKS, "IPv4-SAFI:1:10.0.0.0/8,IPv6-SAFI:2:inherit"),
    (NUMBERS, "AS:64496"),
    (NUMBERS, "AS:64496-64511,AS:65536,AS:4294967295"),
    (NUMBERS, "AS:inherit"),
    (NUMBERS, "RDI:inherit"),
    (NUMBERS, "AS:1-2,RDI:64500"),
]
# What is spoilt by hand: octets that stand in a value, what stands in their place, and the number of the refusal.
SPOILT = [
    (BLOCKS, "IPv4:192.0.2.0/24", "030400c00002", "030408c00002", 13),  # eight unused bits
    (BLOCKS, "IPv4:192.0.2.0/24", "030400c00002", "030401c00003", 8),  # an unused bit that is 1
    (BLOCKS, "IPv4:192.0.2.0/24", "030400c00002", "040400c00002", 4),  # an OCTET STRING, which is no alternative
    (BLOCKS, "IPv4:inherit,IPv6:inherit", "040200020500", "040200020501", 2),  # a NULL with a contents octet, which is not there
    (NUMBERS, "AS:inherit", "a0020500", "a2020500", 3),  # a tag that no field has
    (NUMBERS, "AS:64496", "020300fbf0", "02030000f0", 8),  # an octet too many before the number
]
HEAD = """use der_asn1_types::{Encode, FromDer};
use my_addresses::addresses::{AsIdentifiers, IpAddrBlocks};
use std::alloc::Global;
use std::process::Abort;
use std::test::Fail;

/// 0 where the octets are read, and are written again; else the number of why they are refused, or 255.
fn number<'a, T: FromDer<'a> + Encode>(alloc: Global, octets: &'a [u8]) -> u8 {
    match T::from_der(alloc, octets) {
        Ok(value) => match value.to_der(alloc) {
            Ok(written) => if written.as_slice() == octets { 0 } else { 255 },
            Err(_) => 255,
        },
        Err(error) => error.kind().number(),
    }
}

fn same(rt: &impl Abort, case: &str, found: u8, wanted: u8) {
    assert_eq!(rt; found, wanted, "{case}");
}
"""


def has_openssl():
    return shutil.which("openssl") is not None


def value_of(extension, text):
    """The octets of the extension of a certificate that openssl makes."""
    name, _, last = extension
    with tempfile.TemporaryDirectory() as folder:
        subprocess.run(
            ["openssl", "req", "-x509", "-newkey", "ed25519", "-nodes", "-keyout", f"{folder}/key", "-subj", "/CN=a",
             "-addext", f"{name} = {text}", "-outform", "DER", "-out", f"{folder}/certificate"], check=True, capture_output=True,
        )
        with open(f"{folder}/certificate", "rb") as it:
            octets = it.read()
    # the identifier, and an OCTET STRING of fewer than 128 octets
    identifier = bytes([0x06, 0x08, 0x2B, 6, 1, 5, 5, 7, 1, last, 0x04])
    at = octets.index(identifier) + len(identifier)
    return octets[at + 1 : at + 1 + octets[at]]


def rows():
    """The type, the case, the octets, and the number of the answer: 0 where they are read."""
    made = {(extension, text): value_of(extension, text) for extension, text in VALUES}
    for (extension, text), octets in made.items():
        yield extension[1], text, octets, 0
        yield extension[1], f"{text}, one octet less", octets[:-1], 2
        yield extension[1], f"{text}, one octet more", octets + b"\0", 3
        yield extension[1], f"{text}, a SET", bytes([0x31]) + octets[1:], 4
    for extension, text, old, new, number in SPOILT:
        digits = made[extension, text].hex()
        assert digits.count(old) == 1, (text, digits)
        yield extension[1], f"{text}, {new}", bytes.fromhex(digits.replace(old, new)), number


def tests():
    """The file of tests, one a type, and how many rows it has."""
    found, by_type = [HEAD], {}
    for type_, case, octets, number in rows():
        by_type.setdefault(type_, []).append(f'        ("{case}", "{octets.hex()}", {number}),\n')
    for type_, lines in by_type.items():
        snake = "".join(f"_{it.lower()}" if it.isupper() else it for it in type_)
        found.append(
            f"fn number_of{snake}(alloc: Global, octets: &[u8]) -> u8 {{ number::<{type_}>(alloc, octets) }}\n\n"
            f"#[test]\nfn rows_of{snake}(rt: HostRuntime) -> Result<(), Fail> {{\n    let rows = [\n{''.join(lines)}    ];\n"
            f"    for (case, digits, wanted) in rows {{\n        let octets = hex::decode(rt.alloc(), digits)?;\n"
            f"        same(&rt, case, number_of{snake}(rt.alloc(), octets.as_slice()), wanted);\n    }}\n    Ok(())\n}}\n"
        )
    return "\n".join(found)
