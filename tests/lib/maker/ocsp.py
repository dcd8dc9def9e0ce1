"""Requests and responses of OCSP: of one certificate and several, with a nonce and without, good, revoked and unknown."""

from .lists import REASONS
from .workshop import Made

DIGESTS = ("-sha1", "-sha256", "-sha384", "-sha512", "-sha224")
COUNT = 110


def index(shop, name):
    """A database: serial numbers 1 to 60, of which some are revoked."""
    lines = []
    for number in range(1, 61):
        if number % 3:
            when = shop.pick(("260102030405Z", "491231235959Z", "000229120000Z")) + shop.pick(REASONS)
            lines.append(f"R\t491231235959Z\t{when}\t{number:02X}\tunknown\t/CN={number}\n")
        else:
            lines.append(f"V\t491231235959Z\t\t{number:02X}\tunknown\t/CN={number}\n")
    return shop.write(name, "".join(lines))


def asked(shop):
    """Words for the certificates that are asked for: a digest before each, 61 and more being unknown."""
    words = []
    for _ in range(shop.pick((1, 1, 1, 2, 3, 8))):
        number = shop.pick(("1", "2", "3", "30", "61", "255", "128", "0x0102030405060708090a0b0c0d0e0f10111213", "33", "7"))
        words += [shop.pick(DIGESTS), "-serial", number]
    return words


def ocsp_files(shop):
    database = index(shop, "ocsp.txt")
    for number in range(COUNT):
        request = shop.name("ocsp-request", "der")
        words = ["ocsp", "-issuer", shop.pick(("root.pem", "below.pem")), *asked(shop), shop.pick(("-nonce", "-no_nonce")), "-reqout", request]
        if shop.random.random() < 0.3:
            key = shop.pick(("rsa2048", "P-256", "P-384"))
            words += ["-signer", f"{key}.crt", "-signkey", f"{key}.key", *(shop.pick(((), ("-sign_other", "below.pem"))))]
        shop.later([words], Made(shop.path(request), "OCSP request", " ".join(words[2:])))
    shop.finish()
    for number in range(1, COUNT + 1):
        response = shop.name("ocsp-response", "der")
        key = shop.pick(("rsa2048", "rsa1024", "P-256", "P-521"))
        more = [*shop.pick(((), ("-resp_key_id",))), *shop.pick(((), ("-resp_no_certs",), ("-rother", "below.pem")))]
        more += [*shop.pick(((), ("-ndays", "7"), ("-nmin", "5"))), *shop.pick(((), ("-rmd", "sha512"), ("-rmd", "sha1"), ("-badsig",)))]
        words = ["ocsp", "-index", database, "-CA", "root.pem", "-rsigner", f"{key}.crt", "-rkey", f"{key}.key",
                 "-reqin", f"ocsp-request-{number}.der", "-respout", response, "-noverify", *more]
        shop.later([words], Made(shop.path(response), "OCSP response", f"of {key} {' '.join(more)}"))
    for number in (1, 2, 3, 5, 6):
        config = shop.write(f"status{number}.cnf", f"asn1=SEQUENCE:response\n[response]\na=ENUM:{number}\n")
        name = shop.name("ocsp-response", "der")
        words = ["asn1parse", "-genconf", config, "-noout", "-out", name]
        shop.later([words], Made(shop.path(name), "OCSP response", f"the status {number}"))
