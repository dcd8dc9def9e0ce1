"""Time stamps: queries, and replies that grant and that reject."""

from .workshop import Made

SIGNERS = ("rsa2048", "P-256", "P-384", "rsa1024")
COUNT = 70


def configuration(shop, name, digits=0):
    accuracy = shop.pick(("", "accuracy=secs:1\n", "accuracy=secs:1, millisecs:500, microsecs:100\n", "accuracy=microsecs:999\n"))
    words = (
        f"[tsa]\ndefault_tsa=own\n[own]\nserial={name}.srl\ncrypto_device=builtin\ndefault_policy=1.2.3.4\nother_policies=1.2.3.5,2.999.1\n"
        f"digests=sha256,sha384,sha512\n{accuracy}clock_precision_digits={digits}\nordering={shop.pick(('yes', 'no'))}\n"
        f"tsa_name={shop.pick(('yes', 'no'))}\ness_cert_id_chain={shop.pick(('yes', 'no'))}\ness_cert_id_alg={shop.pick(('sha1', 'sha256', 'sha512'))}\n"
        "signer_digest=sha256\n"
    )
    shop.write(f"{name}.srl", shop.pick(("01", "7F", "80", "0102030405060708", "FF" * 19)) + "\n")
    return shop.write(f"{name}.cnf", words)


def query(shop):
    """Words of a query; sha1, sha224 and the policy 1.2.9 are rejected."""
    words = ["ts", "-query", "-data", shop.pick(("short.txt", "long.bin")), shop.pick(("-sha256", "-sha384", "-sha512", "-sha256", "-sha1", "-sha224"))]
    words += shop.pick(((), ("-no_nonce",))) + shop.pick(((), ("-cert",))) + shop.pick(((), (), ("-tspolicy", "1.2.3.5"), ("-tspolicy", "1.2.9")))
    return words


def stamp_files(shop):
    for _ in range(COUNT):
        name = shop.name("query", "der")
        words = query(shop)
        shop.later([[*words, "-out", name]], Made(shop.path(name), "time stamp query", " ".join(words[2:])))
    shop.finish()
    for number in range(1, COUNT + 1):
        digits = 3 if number % 20 == 0 else 0
        config = configuration(shop, f"tsa{number}", digits)
        key = shop.pick(SIGNERS)
        words = ["ts", "-reply", "-config", config, "-queryfile", f"query-{number}.der", "-signer", f"{key}.tsa", "-inkey", f"{key}.key",
                 *shop.pick(((), ("-chain", "root.pem")))]
        name = shop.name("reply", "der")
        shop.later([[*words, "-out", name]], Made(shop.path(name), "time stamp reply", f"{key}, {config}, query-{number}.der"))
    shop.finish()
    for number in range(1, COUNT + 1):
        token(shop, number)


def token(shop, number):
    """The token alone, where a reply has one: a message of CMS."""
    with open(shop.path(f"reply-{number}.der"), "rb") as file:
        if len(file.read()) < 200:
            return
    name = shop.name("token", "der")
    words = ["ts", "-reply", "-in", f"reply-{number}.der", "-token_out", "-out", name]
    shop.later([words], Made(shop.path(name), "CMS message", f"the token of reply-{number}.der"))
