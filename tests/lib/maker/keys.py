"""Keys, in all forms that openssl writes, and parameters."""

from .workshop import Made

CURVES = ("P-256", "P-384", "P-521", "brainpoolP256r1", "brainpoolP384t1", "secp256k1", "secp224r1", "sect283k1", "prime192v2")
RSA = {"rsa1024": 1024, "rsa2048": 2048, "rsa3072": 3072, "rsa1025": 1025, "rsa-e3": 1024}
# The keys that may sign with a digest of one's choice, those that have their own, and those that sign nothing.
SIGNS = ["rsa1024", "rsa2048", "rsa3072", "rsa1025", "rsa-e3", "dsa1024", "dsa2048", *CURVES]
SIGNS_ALONE = ["ed25519", "ed448"]
PSS = ["pss1024", "pss2048"]
SIGNS_NOT = ["x25519", "x448", "dh", "dhx"]
ALL = [*SIGNS, *SIGNS_ALONE, *PSS, *SIGNS_NOT, "explicit", "hybrid", "compressed"]
PASSWORD = "pass:barley"


def make_keys(shop):
    """One of each; the others are made of these."""
    def make(name, *words):
        shop.later([["genpkey", *words, "-out", f"{name}.key"]])

    for name, bits in RSA.items():
        more = ["-pkeyopt", "rsa_keygen_pubexp:3"] if name == "rsa-e3" else []
        make(name, "-algorithm", "RSA", "-pkeyopt", f"rsa_keygen_bits:{bits}", *more)
    make("pss1024", "-algorithm", "RSA-PSS", "-pkeyopt", "rsa_keygen_bits:1024")
    limits = ("rsa_pss_keygen_md:sha256", "rsa_pss_keygen_mgf1_md:sha256", "rsa_pss_keygen_saltlen:32")
    make("pss2048", "-algorithm", "RSA-PSS", "-pkeyopt", "rsa_keygen_bits:2048", *(it for limit in limits for it in ("-pkeyopt", limit)))
    for curve in CURVES:
        make(curve, "-algorithm", "EC", "-pkeyopt", f"ec_paramgen_curve:{curve}")
    make("explicit", "-algorithm", "EC", "-pkeyopt", "ec_paramgen_curve:P-256", "-pkeyopt", "ec_param_enc:explicit")
    for form in ("hybrid", "compressed"):
        make(f"{form}-first", "-algorithm", "EC", "-pkeyopt", "ec_paramgen_curve:P-256")
    for name in ("ed25519", "ed448", "x25519", "x448"):
        make(name, "-algorithm", name.upper())
    for bits, size in ((1024, 160), (2048, 256)):
        words = ["genpkey", "-genparam", "-algorithm", "DSA", "-pkeyopt", f"dsa_paramgen_bits:{bits}", "-pkeyopt", f"dsa_paramgen_q_bits:{size}"]
        shop.later([[*words, "-out", f"dsa{bits}.prm"], ["genpkey", "-paramfile", f"dsa{bits}.prm", "-out", f"dsa{bits}.key"]])
    groups = (("dh", "DH", "group:ffdhe2048"), ("dhx", "DHX", "dh_rfc5114:2"))
    for name, kind, group in groups:
        words = ["genpkey", "-genparam", "-algorithm", kind, "-pkeyopt", group, "-out", f"{name}.prm"]
        shop.later([words, ["genpkey", "-paramfile", f"{name}.prm", "-out", f"{name}.key"]])
    shop.finish()
    for form in ("hybrid", "compressed"):
        shop.later([["ec", "-in", f"{form}-first.key", "-conv_form", form, "-out", f"{form}.key"]])
    for name in ALL:
        shop.later([["pkey", "-in", f"{name}.key", "-pubout", "-out", f"{name}.pub"]])
    shop.finish()


def key_files(shop):
    for name in ALL:
        shop.out("public", "public key", f"{name}, public", "pkey", "-in", f"{name}.key", "-pubout", form="DER")
        shop.out("public", "public key", f"{name}, public", "pkey", "-in", f"{name}.key", "-pubout", form="PEM")
        for form in ("DER", "PEM"):
            shop.out("private", "private key", f"{name}, PKCS 8", "pkcs8", "-topk8", "-nocrypt", "-in", f"{name}.key", form=form)
        encrypted_files(shop, name)
    for name in (*RSA,):
        for form in ("DER", "PEM"):
            shop.out("rsa", "private key of RSA", f"{name}, PKCS 1", "rsa", "-in", f"{name}.key", "-traditional", form=form)
            shop.out("rsa", "public key of RSA", f"{name}, public, PKCS 1", "rsa", "-in", f"{name}.key", "-RSAPublicKey_out", form=form)
    for name in (*CURVES, "explicit", "hybrid", "compressed"):
        for form in ("DER", "PEM"):
            more = shop.pick(((), ("-no_public",), ("-param_enc", "explicit"), ("-conv_form", "compressed")))
            shop.out("curve", "private key of an elliptic curve", f"{name} {more}, SEC 1", "ec", "-in", f"{name}.key", *more, form=form)
    multi_prime(shop)
    odd_exponent(shop)


def odd_exponent(shop):
    """RSA with an exponent of three octets that differ, 010203."""
    words = ["genpkey", "-algorithm", "RSA", "-pkeyopt", "rsa_keygen_bits:1024", "-pkeyopt", "rsa_keygen_pubexp:66051", "-out"]
    rows = (
        ("public", "public key", ["pkey", "-in", "odd-1.key", "-pubout"]),
        ("rsa", "private key of RSA", ["rsa", "-in", "odd-2.key", "-traditional"]),
        ("rsa", "public key of RSA", ["rsa", "-in", "odd-3.key", "-RSAPublicKey_out"]),
    )
    for number, (stem, kind, command) in enumerate(rows, 1):
        before = [[*words, f"odd-{number}.key"]]
        shop.out(stem, kind, "RSA with the exponent 66051", *command, before=before, form="DER")


def multi_prime(shop):
    """RSA of three primes (RFC 8017 section 3.2)."""
    words = ["genpkey", "-algorithm", "RSA", "-pkeyopt", "rsa_keygen_bits:1024", "-pkeyopt", "rsa_keygen_primes:3", "-out", "three.key"]
    shop.out("rsa", "private key of RSA", "RSA of three primes", "rsa", "-in", "three.key", "-traditional", before=[words], form="DER")


SCHEMES = (
    ("-v2", "aes-128-cbc"), ("-v2", "aes-256-cbc", "-v2prf", "hmacWithSHA512"), ("-v2", "des3", "-v2prf", "hmacWithSHA1"),
    ("-v2", "aes-192-cbc", "-v2prf", "hmacWithSHA224"), ("-v2", "camellia-128-cbc"), ("-v1", "PBE-SHA1-3DES"),
    ("-v1", "PBE-SHA1-2DES"), ("-v2", "aes-256-cbc", "-iter", "1"), ("-scrypt", "-scrypt_N", "2", "-scrypt_r", "1", "-scrypt_p", "1"),
    ("-v2", "aes-128-ofb"), ("-v2", "aes-256-cfb"), ("-v2", "aria-128-cbc"),
)


def encrypted_files(shop, name):
    for scheme in shop.some(SCHEMES, 3, 3):
        words = ["pkcs8", "-topk8", "-in", f"{name}.key", "-passout", PASSWORD, *scheme]
        shop.out("encrypted", "encrypted private key", f"{name}, encrypted {' '.join(scheme)}", *words)


NAMED_CURVES = (
    "secp112r1 secp112r2 secp128r1 secp128r2 secp160k1 secp160r1 secp160r2 secp192k1 secp224k1 secp224r1 secp256k1 secp384r1 "
    "secp521r1 prime192v1 prime192v2 prime192v3 prime239v1 prime239v2 prime239v3 prime256v1 sect113r1 sect113r2 sect131r1 "
    "sect131r2 sect163k1 sect163r1 sect163r2 sect193r1 sect193r2 sect233k1 sect233r1 sect239k1 sect283k1 sect283r1 sect409k1 "
    "sect409r1 sect571k1 sect571r1 brainpoolP160r1 brainpoolP160t1 brainpoolP192r1 brainpoolP224t1 brainpoolP256r1 "
    "brainpoolP320t1 brainpoolP384r1 brainpoolP512r1 brainpoolP512t1"
).split()
KIND_OF_CURVE = "parameters of an elliptic curve"


# In DER two or three numbers do not say of what they are: the label of PEM text alone does (README of certview, "What is read").
TWO_NUMBERS, THREE_NUMBERS = "public key of RSA", "parameters of DSA"


def parameter_files(shop):
    for curve in NAMED_CURVES:
        shop.out("named", KIND_OF_CURVE, f"the curve {curve}", "ecparam", "-name", curve)
        more = shop.pick(((), ("-conv_form", "compressed"), ("-no_seed",)))
        words = ["ecparam", "-name", curve, "-param_enc", "explicit", *more]
        shop.out("explicit", KIND_OF_CURVE, f"the curve {curve}, written out {more}", *words)
    for bits in (1024, 2048):
        in_both(shop, "dsa", "parameters of DSA", f"DSA of {bits} bits", "dsaparam", "-in", f"dsa{bits}.prm")
    for group in ("ffdhe2048", "ffdhe3072", "modp_1536", "modp_2048"):
        words = ("genpkey", "-genparam", "-algorithm", "DH", "-pkeyopt", f"group:{group}")
        in_both(shop, "dh", "parameters of Diffie-Hellman", f"the group {group}", *words).taken_for = TWO_NUMBERS
    for number in (1, 2, 3):
        words = ("genpkey", "-genparam", "-algorithm", "DHX", "-pkeyopt", f"dh_rfc5114:{number}")
        in_both(shop, "dhx", "parameters of Diffie-Hellman (X9.42)", f"group {number} of RFC 5114", *words).taken_for = THREE_NUMBERS


def in_both(shop, stem, kind, about, *words):
    """What a command writes as PEM text alone: that, and its octets in another file, which is answered."""
    text, octets = (shop.name(stem, ending) for ending in ("pem", "der"))
    shop.later([[*words, "-out", text]], Made(shop.path(text), kind, about))
    before = [*words, "-out", f"{octets}.pem"]
    made = Made(shop.path(octets), kind, about)
    shop.later([before, ["asn1parse", "-in", f"{octets}.pem", "-noout", "-out", octets]], made)
    return made
