"""Files of PKCS #12: encrypted in whole, in part and not at all, with a MAC and without."""

from .keys import PASSWORD
from .signed import SIGNERS
from .workshop import Made

SCHEMES = ("NONE", "NONE", "AES-256-CBC", "AES-128-CBC", "PBE-SHA1-3DES", "PBE-SHA1-2DES", "DES-EDE3-CBC")


def pkcs12_files(shop):
    for number in range(110):
        key = shop.pick(SIGNERS)
        words = ["pkcs12", "-export", "-in", f"{key}.crt", "-passout", PASSWORD]
        words += ["-nokeys"] if shop.random.random() < 0.15 else ["-inkey", f"{key}.key"]
        words += ["-certpbe", shop.pick(SCHEMES), "-keypbe", shop.pick(SCHEMES)]
        words += shop.pick(((), ("-name", "barley"), ("-name", "Grüße, \"x\" + y"), ("-name", "日本", "-CSP", "a provider")))
        words += shop.pick(((), ("-certfile", "root.pem", "-caname", "the root"), ("-certfile", "below.pem")))
        words += shop.pick(((), ("-nomac",), ("-macalg", "sha1"), ("-macalg", "sha512"), ("-nomaciter",), ("-maciter",)))
        words += shop.pick(((), ("-noiter",), ("-iter", "3"), ("-iter", "70000"))) if number % 8 == 0 else ("-iter", "2")
        words += shop.pick(((), (), ("-keysig",), ("-keyex",), ("-LMK",)))
        name = shop.name("file", "p12")
        shop.later([[*words, "-out", name]], Made(shop.path(name), "PKCS #12 file", " ".join(words[2:])))
