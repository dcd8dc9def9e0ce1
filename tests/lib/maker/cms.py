"""Messages of CMS: signed, for recipients, digested, encrypted, and data alone."""

import os

from ..octets import tlv
from .signed import RECEIVERS, SIGNERS
from .workshop import Made

CIPHERS = ("-aes-128-cbc", "-aes-192-cbc", "-aes-256-cbc", "-des3", "-aes-128-gcm", "-aes-256-gcm", "-camellia128")
SECRET = "000102030405060708090a0b0c0d0e0f"
STREAMED = "the lengths are indefinite, which DER has not (X.690 10.1): README of certview"


def make_texts(shop):
    shop.write("short.txt", "barley\n")
    shop.write("long.bin", bytes(range(256)) * 20)
    shop.write("empty.bin", b"")


def add(shop, stem, about, *words, refused=""):
    made = shop.out(stem, "CMS message", about, "cms", "-binary", *words)
    made.refused = refused


def signed(shop):
    text = shop.pick(("short.txt", "long.bin", "empty.bin"))
    words, keys = ["-sign", "-in", text], shop.some(SIGNERS, 1, shop.pick((1, 1, 2, 4)))
    for key in keys:
        words += ["-signer", f"{key}.crt", "-inkey", f"{key}.key"]
        if key.startswith("rsa") and shop.random.random() < 0.4:
            words += ["-keyopt", "rsa_padding_mode:pss"]
    words += ["-md", shop.pick(("sha1", "sha224", "sha256") if "dsa2048" in keys else ("sha1", "sha224", "sha256", "sha384", "sha512"))]
    words += shop.pick(((), ("-nodetach",))) + shop.pick(((), ("-keyid",))) + shop.pick(((), ("-nocerts",), ("-certfile", "below.pem")))
    words += shop.pick(((), ("-noattr",), ("-nosmimecap",), ("-cades",)))
    words += shop.pick(((), (), ("-econtent_type", "1.2.3.4"), ("-receipt_request_to", "a@b.example", "-receipt_request_all")))
    if "-noattr" in words and ("-cades" in words or "-receipt_request_all" in words):
        words.remove("-noattr")
    add(shop, "signed", " ".join(words), *words)


# The octets of a SEQUENCE, which stand in signed data that is then made PKCS #7.
CONTENTS = bytes.fromhex("300d06012a3008040662617274656e0500")
OTHER_TYPES = ("1.3.6.1.4.1.311.2.1.4", "1.3.6.1.4.1.311.10.1", "1.2.3.4")


def of_other_content(shop):
    """Signed data of PKCS #7 whose content is a SEQUENCE (RFC 2315 section 9.1): that of CMS, with another tag of the content. The
    contents octets are what is signed (section 9.3)."""
    shop.write("contents.bin", CONTENTS)
    string, sequence = (tlv(0xA0, tlv(tag, CONTENTS)) for tag in (0x04, 0x30))
    for key in SIGNERS:
        for kind in OTHER_TYPES:
            name = shop.name("pkcs7", "der")
            words = ["-sign", "-in", "contents.bin", "-signer", f"{key}.crt", "-inkey", f"{key}.key", "-econtent_type", kind, "-md", "sha256"]
            octets = shop.run("cms", "-binary", "-nodetach", "-outform", "DER", *words)
            shop.write(name, octets.replace(string, sequence))
            shop.made.append(Made(shop.path(name), "CMS message", f"PKCS #7 of {kind}, signed by {key}", unasked="openssl cms reads it as CMS"))


def enveloped(shop):
    words = ["-encrypt", "-in", shop.pick(("short.txt", "long.bin")), shop.pick(CIPHERS)]
    for _ in range(shop.pick((1, 1, 2, 3))):
        key = shop.pick(RECEIVERS)
        words += ["-recip", f"{key}.crt"]
        if key.startswith("rsa"):
            words += shop.pick(((), ("-keyopt", "rsa_padding_mode:oaep"), ("-keyopt", "rsa_padding_mode:oaep", "-keyopt", "rsa_oaep_md:sha256")))
        else:
            words += shop.pick(((), ("-keyopt", "ecdh_kdf_md:sha256"), ("-keyopt", "ecdh_cofactor_mode:1"), ("-keyopt", "ecdh_kdf_md:sha384")))
    words += shop.pick(((), ("-keyid",))) + shop.pick(((), (), ("-secretkey", SECRET, "-secretkeyid", "0102"), ("-pwri_password", "barley")))
    if "-pwri_password" in words and "gcm" in words[3]:
        words[3] = "-aes-128-cbc"
    add(shop, "enveloped", " ".join(words), *words)


def others(shop):
    for digest in ("sha1", "sha256", "sha512", "md5", "sha3-256"):
        add(shop, "digested", digest, "-digest_create", "-in", "short.txt", "-md", digest, "-nodetach")
        add(shop, "digested", digest, "-digest_create", "-in", "long.bin", "-md", digest)
    for cipher, key in (("-aes-128-cbc", SECRET), ("-aes-256-cbc", SECRET * 2), ("-des3", SECRET + SECRET[:16]), ("-aes-192-cbc", SECRET + SECRET[16:])):
        add(shop, "encrypted-data", cipher, "-EncryptedData_encrypt", "-in", "short.txt", cipher, "-secretkey", key)
    for cipher in ("-aes-128-cbc", "-aes-256-cbc"):
        add(shop, "enveloped", f"a password, {cipher}", "-encrypt", "-in", "short.txt", cipher, "-pwri_password", "barley")
        add(shop, "enveloped", f"a secret key, {cipher}", "-encrypt", "-in", "short.txt", cipher, "-secretkey", SECRET, "-secretkeyid", "aabb")
    add(shop, "data", "data alone", "-data_create", "-in", "short.txt")
    add(shop, "data", "much data alone", "-data_create", "-in", "long.bin")
    for words in (("-sign", "-signer", "rsa2048.crt", "-inkey", "rsa2048.key", "-nodetach"), ("-encrypt", "-aes-128-cbc", "-recip", "rsa2048.crt")):
        for text in ("short.txt", "long.bin"):
            add(shop, "streamed", " ".join(words), *words, "-in", text, "-stream", refused=STREAMED)


def carried(shop):
    """Certificates and lists that PKCS 7 carries, signed by no one."""
    known = {os.path.basename(made.path) for made in shop.made}
    for number in range(1, 16):
        certificates = [it for name in shop.some(("root.pem", "below.pem", "P-256.crt", "issuer3.pem", "dsa2048.crt"), 1, 4) for it in ("-certfile", name)]
        lists = ["-in", f"list-{number}.pem"] if number % 2 and f"list-{number}.pem" in known else ["-nocrl"]
        shop.out("carried", "CMS message", f"{' '.join(certificates)} {' '.join(lists)}", "crl2pkcs7", *certificates, *lists)


def cms_files(shop):
    make_texts(shop)
    for _ in range(130):
        signed(shop)
    for _ in range(90):
        enveloped(shop)
    others(shop)
    carried(shop)
    of_other_content(shop)
