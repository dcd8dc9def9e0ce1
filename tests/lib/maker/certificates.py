"""Certificates, of all keys, algorithms, names, dates and extensions; and requests."""

from . import extensions, keys, names
from .workshop import Made

DIGESTS = ("sha256", "sha1", "sha224", "sha384", "sha512", "sha512-256", "sha512-224", "sha3-256", "sha3-512", "md5")
OF_DSA = ("sha256", "sha1", "sha224", "sha384", "sha512", "sha3-256", "sha3-384")
SERIALS = ("0", "1", "127", "128", "255", "256", "0x7f", "0x00ff", "-1", "-128", "-129", "-256", "0x0102030405060708090a0b0c0d0e0f10111213",
           "0xffffffffffffffffffffffffffffffffffffffff", "-0x80", "0x80000000000000000000", "99999999999999999999")


def signing(shop):
    """A key, and the words that say how it signs."""
    key = shop.pick((*keys.SIGNS, *keys.SIGNS_ALONE, *keys.PSS, "rsa2048", "P-256", "rsa1024", "explicit", "hybrid", "compressed"))
    if key in keys.SIGNS_ALONE:
        return key, []
    if key == "pss2048":
        return key, ["-sha256", "-sigopt", "rsa_pss_saltlen:32"]
    if key == "pss1024" or key == "rsa1024" and shop.random.random() < 0.5:
        digest = shop.pick(("sha1", "sha256", "sha384", "sha224"))
        salt = shop.pick(("20", "32", "-1", "0"))
        return key, [f"-{digest}", "-sigopt", "rsa_padding_mode:pss", "-sigopt", f"rsa_pss_saltlen:{salt}"]
    return key, [f"-{shop.pick(DIGESTS if key.startswith('rsa') else OF_DSA)}"]


def configuration(shop, name, most=7, least=0, mask=None):
    """A file of the configuration: a name, and extensions if there are any."""
    mask, subject = names.section(shop, "subject", mask)
    section, has_some = extensions.section(shop, "more", most, least)
    text = f"{names.OWN}[req]\nprompt=no\nutf8=yes\ndistinguished_name=subject\n{mask}{subject}{section}"
    return shop.write(name, text), has_some, [] if subject.count("=") else ["-subj", "/"]


def self_signed(shop, number):
    """A certificate with a configuration of its own; with no extension it is one of version 1."""
    key, how = signing(shop)
    config, has_some, empty = configuration(shop, f"own{number}.cnf")
    more = [*empty, *(["-extensions", "more"] if has_some else [])]
    days = str(shop.pick((1, 30, 365, 3650, 10000, 30000, 100000)))
    words = ["req", "-x509", "-utf8", "-config", config, "-key", f"{key}.key", *how, *more, "-days", days, "-set_serial", shop.pick(SERIALS)]
    shop.out("certificate", "certificate", f"of itself, {key} {' '.join(how)}, {config}", *words)


def of_authority(shop, number):
    """A certificate of any key, which an authority has signed."""
    key = shop.pick(keys.ALL)
    authority = shop.pick(("root", "below"))
    config, has_some, _ = configuration(shop, f"leaf{number}.cnf")
    text = open(shop.path(config), encoding="utf-8").read()
    if has_some and shop.random.random() < 0.7:
        more = "authorityKeyIdentifier=" + shop.pick(("keyid", "keyid:always,issuer:always", "issuer:always")) + "\n"
        shop.write(config, text.replace("[more]\n", f"[more]\n{more}"))
    name = shop.pick(("/CN=leaf", "/C=SE/O=Barley/CN=le af", "/", "/DC=example/DC=barley/UID=u", "/CN=a+OU=b/O=c"))
    words = ["x509", "-new", "-subj", name, "-force_pubkey", f"{key}.pub", "-CA", f"{authority}.pem", "-CAkey", "rsa2048.key",
             "-set_serial", shop.pick(SERIALS), "-days", shop.pick(("30", "20000"))]
    words += ["-extfile", config, "-extensions", "more"] if has_some else []
    shop.out("leaf", "certificate", f"of an authority, {key}, {config}", *words)


DATES = ("19700101000000Z", "19991231235959Z", "20000229120000Z", "20260102030405Z", "20491231235959Z", "20500101000000Z",
         "20680101000000Z", "21000228235959Z", "99991231235959Z", "20380119031407Z")


def with_dates(shop, number, first=None):
    """A certificate of the command ca, which takes dates."""
    dates = sorted(shop.random.sample(DATES, 2))
    first, last = first or dates[0], dates[1]
    folder = f"ca{number}"
    shop.write(f"{folder}.txt", "")
    shop.write(f"{folder}.srl", f"{shop.random.getrandbits(8 * shop.random.randint(1, 19)) | 1:040x}"[-2 * shop.random.randint(1, 20):] + "\n")
    config = shop.write(f"{folder}.cnf", (
        f"[ca]\ndefault_ca=own\n[own]\ndatabase={folder}.txt\nserial={folder}.srl\nnew_certs_dir=.\ndefault_md=sha256\npolicy=any\n"
        "email_in_dn=no\n[any]\ncommonName=optional\norganizationName=optional\ncountryName=optional\n"
    ))
    name = shop.name("dated", "pem")
    words = ["ca", "-batch", "-config", config, "-notext", "-in", "plain.csr", "-cert", "root.pem", "-keyfile", "rsa2048.key",
             "-startdate", first, "-enddate", last, "-out", name, "-preserveDN", "-utf8"]
    made = Made(shop.path(name), "certificate", f"from {first} to {last}")
    shop.later([words], made)
    return made


EARLY = "a UTCTime of 1950 to 1969, which is no time of the layer (docs/FORMAT.md, Contents octets)"


def of_early_dates(shop):
    """Certificates that begin before 1970."""
    for number, first in enumerate(("500101000000Z", "691231235959Z", "19600101000000Z"), 100):
        with_dates(shop, number, first).refused = EARLY


def make_authorities(shop):
    """What signs others: a root, and one below it."""
    config = shop.write("root.cnf", (
        "[req]\nprompt=no\nutf8=yes\ndistinguished_name=subject\n[subject]\nC=SE\nO=Barley & Co\nCN=root\n[more]\n"
        "basicConstraints=critical,CA:true\nsubjectKeyIdentifier=hash\nkeyUsage=keyCertSign,cRLSign,digitalSignature\n"
    ))
    for name, subject in (("root", ""), ("below", "/DC=example/CN=below+OU=x")):
        words = ["req", "-x509", "-config", config, "-extensions", "more", "-key", "rsa2048.key", "-days", "3000", "-out", f"{name}.pem"]
        shop.later([[*words, *(["-subj", subject] if subject else [])]])
    shop.later([["req", "-new", "-config", config, "-key", "P-256.key", "-out", "plain.csr"]])
    shop.finish()


def certificate_files(shop):
    for number in range(420):
        self_signed(shop, number)
    for number in range(200):
        of_authority(shop, number)
    for number in range(40):
        with_dates(shop, number)
    of_early_dates(shop)


ASKED = ("challengePassword", "unstructuredName", "1.2.840.113549.1.9.2", "own1")


def request_files(shop):
    """Certification requests, with attributes and without."""
    for number in range(260):
        key, how = signing(shop)
        config, has_some, empty = configuration(shop, f"request{number}.cnf", most=5)
        text = open(shop.path(config), encoding="utf-8").read()
        lines = [f"{it}={shop.pick(('secret', 'Grüße', 'a,b'))}\n" for it in shop.some(ASKED[:2], 0, 2)]
        text = text.replace("[req]\n", "[req]\nattributes=asked\n") + "[asked]\n" + "".join(lines)
        shop.write(config, text)
        words = ["req", "-new", "-utf8", "-config", config, "-key", f"{key}.key", *how]
        words += [*empty, *(["-reqexts", "more"] if has_some else [])]
        shop.out("request", "certification request", f"{key} {' '.join(how)}, {config}", *words)
