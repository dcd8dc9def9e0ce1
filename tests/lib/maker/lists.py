"""Lists of revoked certificates: of no entry to a thousand, with all reasons that openssl knows, of version 1 and 2."""

from . import certificates, extensions, names
from .workshop import Made

REASONS = ("", "", ",unspecified", ",keyCompromise", ",CACompromise", ",affiliationChanged", ",superseded", ",cessationOfOperation",
           ",certificateHold", ",removeFromCRL", ",holdInstruction,holdInstructionReject", ",holdInstruction,1.2.3.4",
           ",holdInstruction,holdInstructionCallIssuer", ",keyTime,20250102030405Z", ",CAkeyTime,20491231235959Z")
COUNTS = (0, 0, 1, 1, 2, 3, 5, 8, 20, 60)
MOMENTS = ("700101000000Z", "260102030405Z", "491231235959Z", "991231235959Z", "000229120000Z")
SCOPES = ("onlyuser=TRUE\n", "onlyCA=TRUE\n", "onlyAA=TRUE\n", "indirectCRL=TRUE\n", "onlysomereasons=keyCompromise,CACompromise\n",
          "onlysomereasons=superseded,AACompromise\n")
WHERE = ("fullname=URI:http://l.example/\n", "fullname=dirName:directory\n", "relativename=relative\n", "fullname=URI:a:,DNS:b\n", "")


def entries(shop, count):
    """The lines of the database: one that is not revoked is not in the list."""
    lines, serials = [], {}
    while len(serials) < count:
        serials[shop.random.getrandbits(shop.pick((7, 8, 16, 64, 152, 160)))] = None
    for number, found in enumerate(serials):
        serial = f"{found:X}"
        serial = "0" * (len(serial) % 2) + serial
        revoked = shop.pick(MOMENTS) + shop.pick(REASONS)
        lines.append(f"R\t360101000000Z\t{revoked}\t{serial}\tunknown\t/CN={number}\n")
    return "".join(lines) + "V\t360101000000Z\t\tFEDCBA\tunknown\t/CN=valid\n"


def point(shop):
    """Sections for where the list is to be had, and what it has entries of."""
    scope = shop.pick(SCOPES[:4]) if shop.random.random() < 0.7 else ""
    more = shop.pick(SCOPES[4:]) if shop.random.random() < 0.4 else ""
    where = shop.pick(WHERE)
    return f"[idp]\n{where or ('' if scope or more else WHERE[0])}{scope}{more}"


MORE = (
    "authorityKeyIdentifier={c}keyid", "authorityKeyIdentifier=issuer:always", "issuerAltName={c}DNS:a.example,dirName:directory",
    "issuingDistributionPoint={c}@idp", "freshestCRL=URI:http://d.example", "authorityInfoAccess={c}caIssuers;URI:http://c.example",
    "2.5.29.27={c}ASN1:INTEGER:{n}", "1.2.3.4={c}DER:0500", "1.3.6.1.4.1.311.21.4=ASN1:UTC:260102030405Z",
    "1.3.6.1.4.1.311.21.1=ASN1:INTEGER:65537", "2.5.29.46={c}ASN1:SEQUENCE:wrong",
)
WRONG = "[wrong]\na=UTF8:none\n"


def configuration(shop, name, count):
    kinds = {}
    for line in shop.some(MORE[:-1] if shop.random.random() < 0.97 else MORE, 0, 5):
        line = line.format(c=extensions.critical(shop, ""), n=shop.pick((0, 1, 300, 1 << 70)))
        kinds.setdefault(line.partition("=")[0], line + "\n")
    shop.write(f"{name}.txt", entries(shop, count))
    shop.write(f"{name}.num", f"{shop.random.getrandbits(shop.pick((4, 8, 16, 160))):X}".zfill(42)[-2 * shop.random.randint(1, 21):] + "\n")
    numbered = f"crlnumber={name}.num\n" if shop.random.random() < 0.6 else ""
    listed = "crl_extensions=list\n" if kinds else ""
    text = (
        f"[ca]\ndefault_ca=own\n[own]\ndatabase={name}.txt\n{numbered}default_crl_days={shop.pick((1, 30, 20000))}\n{listed}"
        f"unique_subject=no\n[list]\n{''.join(kinds.values())}{point(shop)}{extensions.SECTIONS}{WRONG}"
    )
    return shop.write(f"{name}.cnf", text), any("SEQUENCE:wrong" in it for it in kinds.values())


def make_issuers(shop):
    """Certificates of the issuers, for each key that signs."""
    for number in range(24):
        key, how = certificates.signing(shop)
        mask, subject = names.section(shop, "subject", most=4)
        text = (f"{names.OWN}[req]\nprompt=no\nutf8=yes\ndistinguished_name=subject\n{mask}{subject}[more]\n"
                "subjectKeyIdentifier=hash\nkeyUsage=cRLSign,digitalSignature\n")
        config = shop.write(f"issuer{number}.cnf", text)
        words = ["req", "-x509", "-config", config, "-extensions", "more", "-key", f"{key}.key", *how, "-days", "3000", "-out", f"issuer{number}.pem"]
        shop.later([words])
        yield f"issuer{number}.pem", key, how


def list_files(shop):
    issuers = list(make_issuers(shop))
    shop.finish()
    for number in range(260):
        add_list(shop, issuers, number, shop.pick(COUNTS))
    for number, count in enumerate((300, 1000, 1000), 260):
        add_list(shop, issuers, number, count).large = True


def add_list(shop, issuers, number, count):
    issuer, key, how = shop.pick(issuers)
    config, is_wrong = configuration(shop, f"list{number}", count)
    digest = [it for it in how if it.startswith("-") and it != "-sigopt"]
    words = ["ca", "-gencrl", "-batch", "-config", config, "-keyfile", f"{key}.key", "-cert", issuer]
    words += ["-md", digest[0][1:]] if digest else ["-md", "default"]
    words += [it for it in how if it not in digest]
    if shop.random.random() < 0.3:
        first, last = sorted(shop.random.sample(("700101000000Z", "20260102030405Z", "491231235959Z", "20500101000000Z", "99991231235959Z"), 2))
        words += ["-crl_lastupdate", first, "-crl_nextupdate", last]
    name = shop.name("list", shop.pick(("pem", "der")))
    commands = [[*words, "-out", name]]
    if name.endswith("der"):
        commands = [[*words, "-out", f"{name}.pem"], ["crl", "-in", f"{name}.pem", "-outform", "DER", "-out", name]]
    made = Made(shop.path(name), "list of revoked certificates", f"{count} entries, {key} {' '.join(how)}, {config}")
    made.malformed = "a freshestCRL that has no points" if is_wrong else ""
    shop.later(commands, made)
    return made
