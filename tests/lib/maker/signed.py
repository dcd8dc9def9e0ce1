"""Who signs and receives messages: a certificate for each key, of an authority."""

SIGNERS = ("rsa1024", "rsa2048", "rsa3072", "P-256", "P-384", "P-521", "brainpoolP256r1", "secp256k1", "dsa2048")
RECEIVERS = ("rsa2048", "rsa3072", "P-256", "P-384", "brainpoolP256r1")


def make_signers(shop):
    """`KEY.crt` for each, which may sign, agree on keys and stamp."""
    config = shop.write("signer.cnf", (
        "[more]\nsubjectKeyIdentifier=hash\nauthorityKeyIdentifier=keyid\nkeyUsage=digitalSignature,keyAgreement,keyEncipherment\n"
        "[stamper]\nsubjectKeyIdentifier=hash\nextendedKeyUsage=critical,timeStamping\nkeyUsage=critical,digitalSignature\n"
    ))
    for number, key in enumerate(dict.fromkeys((*SIGNERS, *RECEIVERS, "dh"))):
        for ending, part in (("crt", "more"), ("tsa", "stamper")):
            words = ["x509", "-new", "-subj", f"/C=SE/O=Barley, {key}/CN=signer {number}", "-force_pubkey", f"{key}.pub", "-CA", "root.pem",
                     "-CAkey", "rsa2048.key", "-set_serial", f"0x{'a5' * (1 + number)}", "-days", "3000", "-extfile", config, "-extensions", part]
            shop.later([[*words, "-out", f"{key}.{ending}"]])
