"""The programs of c/examples beside the openssl command, on good and bad inputs that openssl makes: both sides must say what is
wanted."""

import calendar
import os
import re
import subprocess
import time

from . import TESTS
from .trials import pem_blocks

DAY = 86400
# the extensions of certificates and lists, and what openssl's commands read
SETTINGS = """[req]
distinguished_name = name
[name]
[authority]
basicConstraints = critical,CA:true
keyUsage = critical,keyCertSign,cRLSign
subjectKeyIdentifier = hash
[no_use]
basicConstraints = critical,CA:true
keyUsage = critical,digitalSignature
[no_ca]
basicConstraints = critical,CA:false
keyUsage = critical,keyCertSign
[server]
basicConstraints = CA:false
keyUsage = critical,digitalSignature
extendedKeyUsage = serverAuth,clientAuth
subjectAltName = DNS:a.example,DNS:*.b.example,IP:192.0.2.7,IP:2001:db8::7
subjectKeyIdentifier = hash
[bare]
subjectAltName = email:a@c.example
[doubled]
subjectAltName = DNS:c.example
2.5.29.99 = DER:3003820161
[client]
extendedKeyUsage = clientAuth
subjectAltName = DNS:c.example
[unknown]
1.2.3.4 = critical,DER:0500
[responder]
extendedKeyUsage = OCSPSigning
[stamper]
extendedKeyUsage = critical,timeStamping
[stamper_too]
extendedKeyUsage = critical,timeStamping,serverAuth
[ca]
default_ca = list
[list]
database = index
crlnumber = number
default_md = sha256
default_crl_days = 30
[narrow]
issuingDistributionPoint = critical,@point
[point]
onlyCA = TRUE
[tsa]
default_tsa = stamp
[stamp]
serial = stamp_serial
default_policy = 1.2.3.4.1
signer_digest = sha256
digests = sha256,sha512
ess_cert_id_alg = sha256
"""
KEYS = {"ec": "EC -pkeyopt ec_paramgen_curve:P-256", "p384": "EC -pkeyopt ec_paramgen_curve:P-384", "rsa": "RSA", "ed": "ED25519"}
PSS = "rsa_padding_mode:pss {0} rsa_pss_saltlen:32"
# certificates: the key, or the name of the one with this key; the issuer (none: itself), the section, the subject
CERTIFICATES = {
    "ca": ("ec", None, "authority", "/CN=one"),
    "renamed": ("ca", None, "authority", "/CN=two"),
    "again": ("p384", None, "authority", "/CN=one"),
    "other": ("ec", None, "authority", "/CN=other"),
    "rsa_ca": ("rsa", None, "authority", "/CN=rsa"),
    "ed_ca": ("ed", None, "authority", "/CN=ed"),
    "no_use": ("ec", None, "no_use", "/CN=no"),
    "no_ca": ("ec", None, "no_ca", "/CN=no"),
    "leaf": ("p384", "ca", "server", "/CN=leaf"),
    "leaf_again": ("leaf", "ca", "bare", "/CN=leaf"),
    "by_rsa": ("ec", "rsa_ca", "server", "/CN=leaf"),
    "by_pss": ("rsa", "rsa_ca", "server", "/CN=leaf"),
    "by_ed": ("ed", "ed_ca", "server", "/CN=leaf"),
    "by_no_use": ("ec", "no_use", "server", "/CN=leaf"),
    "by_no_ca": ("ec", "no_ca", "server", "/CN=leaf"),
    "by_leaf": ("ec", "leaf", "server", "/CN=below"),
    "bare": ("rsa", "ca", "bare", "/CN=bare"),
    "doubled": ("ec", "ca", "doubled", "/CN=doubled"),
    "client": ("ec", "ca", "client", "/CN=client"),
    "unknown": ("ec", "ca", "unknown", "/CN=unknown"),
    "responder": ("rsa", "ca", "responder", "/CN=responder"),
    "others": ("rsa", "other", "responder", "/CN=responder"),
    "stamper": ("ec", "ca", "stamper", "/CN=stamper"),
    "stamper_again": ("stamper", "ca", "stamper", "/CN=stamper"),
    "stamper_too": ("ec", "ca", "stamper_too", "/CN=stamper"),
    "rsa_stamper": ("rsa", "rsa_ca", "stamper", "/CN=stamper"),
}


class Room:
    """A folder with what openssl makes, and the two sides that judge it."""

    def __init__(self, trials, folder, build):
        self.trials, self.folder, self.build = trials, f"{folder}/examples", build
        self.now = int(time.time()) + 3600
        os.makedirs(self.folder)
        for name, text in {"settings": SETTINGS, "text": "what is signed\n", "altered": "what is Signed\n"}.items():
            self.write(name, text.encode())
        subprocess.run(["cc", "-shared", "-fPIC", "-o", f"{self.folder}/moment.so", f"{TESTS}/lib/moment.c"], check=True)

    def write(self, name, octets):
        with open(f"{self.folder}/{name}", "wb") as file:
            file.write(octets)

    def read(self, name):
        with open(f"{self.folder}/{name}", "rb") as file:
            return file.read()

    def flip(self, name, to, at=-1):
        """Writes a file again with one bit of an octet changed."""
        octets = bytearray(self.read(name))
        octets[at] ^= 1
        self.write(to, bytes(octets))

    def openssl(self, words, moment=None):
        """Runs openssl, at a moment if there is one; gives its status, 0 or 1, and what it printed."""
        settings = {**os.environ, **({"LD_PRELOAD": f"{self.folder}/moment.so", "MOMENT": str(moment)} if moment else {})}
        how = {"stdin": subprocess.DEVNULL, "stdout": subprocess.PIPE, "stderr": subprocess.STDOUT}
        ran = subprocess.run(["openssl", *words.split()], cwd=self.folder, env=settings, **how)
        return min(abs(ran.returncode), 1), ran.stdout.decode(errors="replace")

    def make(self, words):
        """Runs openssl, which must succeed."""
        status, told = self.openssl(words)
        if status:
            raise RuntimeError(f"openssl {words}: {told}")

    def program(self, name, *words):
        """Runs a program; gives its status and what it printed: text, or a certificate in DER."""
        ran = subprocess.run([f"{self.build}/{name}", *map(str, words)], cwd=self.folder, capture_output=True)
        return ran.returncode, ran.stdout if name == "csr_to_certificate" else ran.stdout.decode()

    def same(self, what, wanted, found, beside):
        """Both sides must say what is wanted."""
        self.trials.count(what, (found, beside) != (wanted, wanted) and f"{wanted} is wanted, the program says {found}, openssl {beside}")

    def holds(self, what, fact, found):
        self.trials.count(what, not fact and f"{found}")


def make_certificates(room):
    """A key and a certificate for each name, in PEM and in DER."""
    for name, (key, issuer, section, subject) in CERTIFICATES.items():
        room.make(f"genpkey -algorithm {KEYS[key]} -out {name}.key" if key in KEYS else f"pkey -in {key}.key -out {name}.key")
        asked = f"req -new -key {name}.key -config settings -subj {subject} -set_serial {serial_of(name)} -out {name}"
        if issuer is None:
            room.make(f"{asked}.pem -x509 -extensions {section} -days 300")
        else:
            room.make(f"{asked}.csr")
            signed = f"-CA {issuer}.pem -CAkey {issuer}.key -set_serial {serial_of(name)} -extfile settings -extensions {section}"
            words = "-sigopt " + PSS.format("-sigopt") if "pss" in name else ""
            room.make(f"x509 -req -in {name}.csr -days {90 if 'again' in name else 100} {signed} {words} -out {name}.pem")
        room.make(f"x509 -in {name}.pem -outform DER -out {name}.der")


def seconds_of(text):
    """The seconds from 1970 of a date as openssl prints it."""
    return calendar.timegm(time.strptime(text, "%b %d %H:%M:%S %Y GMT"))


def serial_of(name):
    """A number of its own; stamper_again has that of stamper."""
    return list(CERTIFICATES).index("stamper" if name == "stamper_again" else name) + 1


def sequence(contents):
    """The encoding of a SEQUENCE with at least 256 contents octets."""
    return b"\x30\x82" + len(contents).to_bytes(2, "big") + contents


def make_twice(room):
    """A certificate with two extensions of one identifier, which openssl does not write; signed by that of ca."""
    room.make("asn1parse -inform DER -in doubled.der -strparse 4 -noout -out signed")
    room.write("signed", room.read("signed").replace(bytes.fromhex("0603551d63"), bytes.fromhex("0603551d11")))
    room.make("dgst -sha256 -sign ca.key -out signature signed")
    signature = room.read("signature")
    algorithm = bytes.fromhex("300a06082a8648ce3d040302")
    room.write("twice.der", sequence(room.read("signed") + algorithm + bytes([3, len(signature) + 1, 0]) + signature))


def try_certificates(room):
    """peer_certificate beside openssl verify."""
    make_twice(room)
    room.flip("leaf.der", "bad_signature.der")
    room.write("bad_name.der", room.read("leaf.der").replace(b"a.example", b"o.example"))
    for name in ("bad_signature", "bad_name", "twice"):
        room.make(f"x509 -inform DER -in {name}.der -out {name}.pem")
    rows = [
        (0, "leaf", "ca", 0), (0, "leaf", "ca", 99), (0, "by_rsa", "rsa_ca", 0), (0, "by_pss", "rsa_ca", 0),
        (0, "by_ed", "ed_ca", 0), (0, "bare", "ca", 0), (1, "leaf", "ca", 101), (1, "leaf", "ca", 400), (1, "leaf", "ca", -1),
        (1, "leaf", "again", 0), (1, "leaf", "other", 0), (1, "bad_signature", "ca", 0), (1, "bad_name", "ca", 0),
        (1, "client", "ca", 0), (1, "unknown", "ca", 0), (1, "by_no_use", "no_use", 0), (1, "by_leaf", "leaf", 0),
        (1, "by_no_ca", "no_ca", 0), (1, "leaf", "renamed", 0), (0, "doubled", "ca", 0), (1, "twice", "ca", 0),
    ]
    for wanted, name, issuer, days in rows:
        moment = room.now + days * DAY
        found, _ = room.program("peer_certificate", f"{name}.der", f"{issuer}.der", moment)
        words = f"verify -no-CApath -no-CAfile -partial_chain -purpose sslserver -attime {moment} -trusted {issuer}.pem {name}.pem"
        room.same(f"peer_certificate: {name} by {issuer}, in {days} days", wanted, found, room.openssl(words)[0])


def try_hosts(room):
    """host_name beside openssl x509 -checkhost and -checkip."""
    good = ["a.example", "A.EXAMPLE", "x.b.example", "192.0.2.7", "2001:db8::7"]
    bad = ["b.example", "x.y.b.example", "aa.example", "example", "192.0.2.8", "2001:db8::8", "leaf"]
    rows = [(0, "leaf", it) for it in good] + [(1, "leaf", it) for it in bad] + [(1, "bare", "a.example"), (1, "responder", "a.example")]
    for wanted, name, host in rows:
        asked = "-checkip" if ":" in host or host[0].isdigit() else "-checkhost"
        _, told = room.openssl(f"x509 -in {name}.pem -noout {asked} {host}")
        room.same(f"host_name: {host}, {name}", wanted, room.program("host_name", f"{name}.der", host)[0], int("does match" not in told))


def make_answers(room):
    """OCSP responses: by the file of the CA's database, the signer, and words for openssl."""
    line = f"\t{serial_of('leaf'):02X}\tunknown\t/CN=leaf\n"
    room.write("valid", f"V\t360101000000Z\t{line}".encode())
    room.write("revoked", f"R\t360101000000Z\t260102030405Z,keyCompromise{line}".encode())
    room.write("none", b"")
    for name, words in {"asked": "-cert leaf.pem", "asked256": "-sha256 -cert leaf.pem", "asked_other": "-cert bare.pem"}.items():
        room.make(f"ocsp -issuer ca.pem {words} -reqout {name} -no_nonce")
    made = {
        "by_ca": "asked valid ca", "short": "asked valid ca -resp_no_certs", "sha256": "asked256 valid ca",
        "by_delegate": "asked valid responder", "by_key": "asked valid responder -resp_key_id", "late": "asked revoked ca",
        "late_by_delegate": "asked revoked responder", "nothing": "asked none ca", "about_other": "asked_other valid ca",
        "not_delegated": "asked valid client", "of_other": "asked valid others",
    }
    for name, words in made.items():
        asked, index, signer, *more = words.split()
        signed = f"-rsigner {signer}.pem -rkey {signer}.key {' '.join(more)}"
        room.make(f"ocsp -index {index} -CA ca.pem -reqin {asked} -respout {name} -ndays 7 {signed}")
    room.flip("short", "bad_signature")
    room.flip("by_delegate", "bad_time", room.read("by_delegate").index(b"\x80\x00\x18") + 17)
    room.write("unauthorized", bytes.fromhex("30030a0106"))
    room.write("bad_status", room.read("by_ca").replace(bytes.fromhex("0a0100"), bytes.fromhex("0a0106"), 1))


def try_answers(room):
    """ocsp_answer beside openssl ocsp."""
    make_answers(room)
    rows = [
        ("good", "by_ca", 0), ("good", "by_ca", 6), ("good", "short", 0), ("good", "sha256", 0), ("good", "by_delegate", 0),
        ("good", "by_key", 0), ("revoked", "late", 0), ("revoked", "late_by_delegate", 0), ("unknown", "nothing", 0),
        ("refused", "about_other", 0), ("refused", "not_delegated", 0), ("refused", "of_other", 0),
        ("refused", "bad_signature", 0), ("refused", "bad_time", 0), ("refused", "unauthorized", 0), ("refused", "bad_status", 0), ("refused", "by_ca", 8),
        ("refused", "by_ca", -1), ("refused", "by_delegate", 101),
    ]
    for wanted, name, days in rows:
        moment = room.now + days * DAY
        status, told = room.program("ocsp_answer", name, "leaf.der", "ca.der", moment)
        words = f"-issuer ca.pem {'-sha256' if name == 'sha256' else ''} -cert leaf.pem -CAfile ca.pem -no-CApath -no_nonce"
        _, beside = room.openssl(f"ocsp -respin {name} {words}", moment)
        found = re.search(r"^leaf\.pem: (\w+)$", beside, re.M) if "Response verify OK" in beside and "WARNING" not in beside else None
        told = re.match(r"\w*", told)[0] or "refused"
        room.same(f"ocsp_answer: {name}, in {days} days", wanted, told, found[1] if found else "refused")
        room.holds(f"ocsp_answer: the status for {name}", (status == 0) == (told == "good"), status)


def make_lists(room):
    """Lists of revoked certificates, of which one has entries with and without a reason."""
    rows = [(serial_of("bare"), ",keyCompromise"), (serial_of("client"), "")]
    room.write("index", "".join(f"R\t360101000000Z\t260102030405Z{why}\t{it:02X}\tunknown\t/CN=it\n" for it, why in rows).encode())
    room.write("number", b"1000\n")
    made = {"list": "ca", "ed_list": "ed_ca", "pss_list": "rsa_ca -sigopt " + PSS.format("-sigopt"), "no_use_list": "no_use",
            "by_other": "other", "by_again": "again", "narrow": "ca -crlexts narrow"}
    for name, words in made.items():
        signer, *more = words.split()
        room.make(f"ca -gencrl -config settings -keyfile {signer}.key -cert {signer}.pem {' '.join(more)} -out {name}.pem")
        room.make(f"crl -in {name}.pem -outform DER -out {name}.der")
    room.flip("list.der", "bad_list.der")
    room.make("crl -inform DER -in bad_list.der -out bad_list.pem")


def try_lists(room):
    """crl_check beside openssl verify -crl_check."""
    make_lists(room)
    rows = [
        ("not revoked", "list", "leaf", "ca", 0), ("not revoked", "list", "leaf", "ca", 29),
        ("not revoked", "ed_list", "by_ed", "ed_ca", 0), ("not revoked", "pss_list", "by_pss", "rsa_ca", 0),
        ("revoked", "list", "bare", "ca", 0), ("revoked", "list", "client", "ca", 0), ("refused", "list", "leaf", "ca", 31),
        ("refused", "list", "leaf", "ca", -1), ("refused", "bad_list", "leaf", "ca", 0),
        ("refused", "by_other", "leaf", "ca", 0), ("refused", "by_again", "leaf", "ca", 0),
        ("refused", "narrow", "leaf", "ca", 0), ("refused", "no_use_list", "by_no_use", "no_use", 0),
    ]
    for wanted, name, of, issuer, days in rows:
        moment = room.now + days * DAY
        status, told = room.program("crl_check", f"{name}.der", f"{of}.der", f"{issuer}.der", moment)
        words = f"-attime {moment} -trusted {issuer}.pem -CRLfile {name}.pem {of}.pem"
        other, beside = room.openssl(f"verify -no-CApath -no-CAfile -partial_chain -crl_check {words}")
        beside = "not revoked" if not other else "revoked" if "error 23 at" in beside else "refused"
        told = told.strip().split(",")[0] or "refused"
        room.same(f"crl_check: {of} in {name}, in {days} days", wanted, told, beside)
        room.holds(f"crl_check: the status for {of} in {name}", (status == 0) == (told == "not revoked"), status)
    _, told = room.program("crl_check", "list.der", "bare.der", "ca.der", room.now)
    room.holds("crl_check: the entry", told == "revoked, at 1767323045, reason keyCompromise\n", told)


def try_chains(room):
    """path beside openssl verify -crl_check_all, after the lists."""
    rows = [
        ("valid", "ca.der leaf.der", "list.der", 0), ("valid", "ca.pem leaf.pem", "list.pem", 0), ("valid", "ed_ca.der by_ed.der", "ed_list.der", 0),
        ("valid", "rsa_ca.der by_pss.der", "pss_list.der", 0), ("valid", "ca.der leaf.der", "by_other.der list.der", 0),
        ("refused 1 6.1.3 (a)(1)", "again.der leaf.der", "list.der", 0), ("refused 1 6.1.3 (a)(2)", "ca.der leaf.der", "list.der", 101),
        ("refused 1 6.1.3 (a)(3)", "ca.der bare.der", "list.der", 0), ("refused 1 6.1.3 (a)(3)", "ca.der leaf.der", "bad_list.der", 0),
        ("refused 1 6.1.3 (a)(3)", "ca.der leaf.der", "by_other.der", 0), ("refused 1 6.1.3 (a)(3)", "ca.der leaf.der", "list.der", 31),
        ("refused 1 6.1.3 (a)(4)", "other.der leaf.der", "by_other.der", 0), ("refused 1 6.1.4 (k)", "ca.der leaf.der by_leaf.der", "list.der", 0),
        ("refused 1 6.1.5 (f)", "ca.der unknown.der", "list.der", 0),
    ]
    for wanted, names, lists, days in rows:
        moment = room.now + days * DAY
        status, told = room.program("path", moment, "-", "-", *names.split(), "-", *lists.split())
        anchor, *others = (f"{name.split('.')[0]}.pem" for name in names.split())
        words = " ".join(f"-CRLfile {name.split('.')[0]}.pem" for name in lists.split())
        words += "".join(f" -untrusted {name}" for name in others[:-1])
        beside, _ = room.openssl(f"verify -no-CApath -no-CAfile -partial_chain -crl_check_all -attime {moment} -trusted {anchor} {words} {others[-1]}")
        room.same(f"path: {names}, {lists}, in {days} days", wanted, told.strip(), wanted if bool(beside) == wanted.startswith("refused") else beside)
        room.holds(f"path: the status for {names}, {lists}", (status == 0) == (wanted == "valid"), status)


def make_requests(room):
    """Requests of several keys, with and without names of hosts, and spoilt ones."""
    names = "-addext subjectAltName=DNS:r.example,IP:192.0.2.9"
    made = {"named": f"leaf {names}", "rsa_named": f"bare {names}", "ed_named": f"by_ed {names}", "unnamed": "leaf",
            "asks_much": "leaf -addext basicConstraints=critical,CA:true"}
    for name, words in made.items():
        key, *more = words.split()
        room.make(f"req -new -key {key}.key -config settings -subj /O=two/CN={name} {' '.join(more)} -outform DER -out {name}.req")
    octets = room.read("named.req")
    room.flip("named.req", "bad_signature.req")
    room.write("bad_name.req", octets.replace(b"r.example", b"o.example"))
    room.write("bad_subject.req", octets.replace(b"named", b"Named"))
    room.write("cut.req", octets[:-1])
    room.write("certificate.req", room.read("leaf.der"))


def try_requests(room):
    """csr_to_certificate beside openssl x509 -req: both issue certificates for the same names and keys."""
    make_requests(room)
    rows = [(0, name, issuer, issuer) for name in ("named", "rsa_named", "ed_named", "unnamed") for issuer in ("ca", "rsa_ca", "ed_ca")]
    rows += [(1, name, "ca", "ca") for name in ("bad_signature", "bad_name", "bad_subject", "cut", "certificate")]
    rows += [(1, "named", "ca", "other"), (1, "named", "ca", "rsa_ca")]
    for wanted, name, issuer, key in rows:
        words = f"-CA {issuer}.pem -CAkey {key}.key -set_serial 0x00a1b2c3 -copy_extensions copy -days 30 -out beside.pem"
        beside, _ = room.openssl(f"x509 -req -inform DER -in {name}.req {words}")
        found, octets = room.program("csr_to_certificate", f"{name}.req", f"{issuer}.der", f"{key}.key", "a1b2c3", 30)
        room.same(f"csr_to_certificate: {name} by {issuer} with the key of {key}", wanted, found, beside)
        if not wanted:
            room.write("issued.der", octets)
            room.make("x509 -inform DER -in issued.der -out issued.pem")
            shown = "-noout -subject -issuer -serial -pubkey -ext subjectAltName"
            told = [room.openssl(f"x509 -in {it}.pem {shown}")[1] for it in ("issued", "beside")]
            room.holds(f"csr_to_certificate: what {name} by {issuer} has", told[0] == told[1], told)
            ends = [seconds_of(room.openssl(f"x509 -in {it}.pem -noout -enddate")[1].split("=")[1].strip()) for it in ("issued", "beside")]
            room.holds(f"csr_to_certificate: the end of {name} by {issuer}", abs(ends[0] - ends[1]) < 60, ends)
            verified, _ = room.openssl(f"verify -no-CApath -no-CAfile -partial_chain -trusted {issuer}.pem issued.pem")
            room.holds(f"csr_to_certificate: {name} by {issuer} is verified", verified == 0, verified)
    _, octets = room.program("csr_to_certificate", "asks_much.req", "ca.der", "ca.key", "01", 30)
    room.write("issued.der", octets)
    told = room.openssl("x509 -inform DER -in issued.der -noout -text")[1]
    room.holds("csr_to_certificate: nothing but names is granted", "CN = asks_much" in told and "CA:TRUE" not in told, told)


def try_pkcs12(room):
    """pkcs12 beside openssl pkcs12: the same certificates and keys."""
    made = {
        "plain": "", "none": "", "chain": "-certfile ca.pem", "open": "-certpbe NONE", "clear": "-keypbe NONE -certpbe NONE",
        "small": "-keypbe AES-128-CBC -certpbe AES-192-CBC -macalg sha512 -iter 5000", "key": "-nocerts",
        "certificate": "-nokeys",
    }
    passwords = {"none": "", "small": "pässwort"}
    for name, words in made.items():
        key = "" if name == "certificate" else "-inkey leaf.key"
        room.make(f"pkcs12 -export -in leaf.pem {key} {words} -passout pass:{passwords.get(name, 'secret')} -out {name}.p12")
    octets = room.read("plain.p12")
    room.flip("plain.p12", "bad.p12", len(octets) // 2)
    room.flip("plain.p12", "bad_mac.p12", octets.rindex(b"\x04\x20") + 5)
    room.write("cut.p12", octets[:-1])
    room.write("leaf.p12", room.read("leaf.der"))
    rows = [(0, name, passwords.get(name, "secret")) for name in made] + [(1, name, "secret") for name in ("bad", "bad_mac", "cut", "leaf")]
    rows += [(1, "plain", "Secret"), (1, "plain", ""), (1, "small", "passwort")]
    for wanted, name, password in rows:
        found, told = room.program("pkcs12", f"{name}.p12", password)
        other, beside = room.openssl(f"pkcs12 -in {name}.p12 -passin pass:{password} -nodes")
        room.same(f"pkcs12: {name}.p12 with '{password}'", wanted, found, other)
        blocks = [[sorted(pem_blocks(it, label)) for label in ("CERTIFICATE", "PRIVATE KEY")] for it in (told, beside)]
        room.holds(f"pkcs12: what is in {name}.p12", wanted or (blocks[0] == blocks[1] != [[], []]), told)


def try_signatures(room):
    """cms_signature beside openssl cms -verify."""
    made = {
        "attached": "leaf -nodetach", "detached": "leaf", "by_identifier": "leaf -keyid -nodetach", "bare": "leaf -noattr",
        "sha512": "leaf -md sha512 -nodetach", "rsa": "bare -nodetach",
        "two": "leaf -nodetach -signer bare.pem -inkey bare.key",
        "pss": "bare -nodetach -keyopt " + PSS.format("-keyopt"),
    }
    for name, words in made.items():
        signer, *more = words.split()
        room.make(f"cms -sign -binary -in text -signer {signer}.pem -inkey {signer}.key -outform DER -out {name}.cms {' '.join(more)}")
    octets = room.read("attached.cms")
    room.flip("attached.cms", "bad_signature.cms")
    room.write("bad_content.cms", octets.replace(b"what is s", b"what is S"))
    room.write("bad_type.cms", octets.replace(bytes.fromhex("2a864886f70d010701"), bytes.fromhex("2a864886f70d010705"), 1))
    rows = [
        (0, "attached", "leaf", ""), (0, "detached", "leaf", "text"), (0, "by_identifier", "leaf", ""),
        (0, "bare", "leaf", "text"), (0, "sha512", "leaf", ""), (0, "rsa", "bare", ""), (0, "pss", "bare", ""),
        (1, "detached", "leaf", "altered"), (1, "detached", "leaf", ""), (1, "bare", "leaf", "altered"),
        (1, "attached", "bare", ""), (1, "attached", "leaf_again", ""), (1, "by_identifier", "bare", ""), (1, "rsa", "leaf", ""), (1, "two", "leaf", ""),
        (1, "bad_signature", "leaf", ""), (1, "bad_content", "leaf", ""),
    ]
    for wanted, name, by, content in rows:
        found, _ = room.program("cms_signature", f"{name}.cms", f"{by}.der", *content.split())
        words = f"cms -verify -inform DER -binary -in {name}.cms -certfile {by}.pem -nointern -noverify -out out"
        beside, _ = room.openssl(words + (f" -content {content}" if content else ""))
        room.same(f"cms_signature: {name}, {by}, {content}", wanted, found, beside)
    # (openssl does not compare the type of the content with the signed attribute, as RFC 5652 11.1 has it)
    found, _ = room.program("cms_signature", "bad_type.cms", "leaf.der")
    room.holds("cms_signature: another type of the content", found == 1, found)


def make_stamps(room):
    """Requests and time stamps; one of another policy is refused."""
    room.write("stamp_serial", b"01\n")
    for name, words in {"one": "-sha256", "two": "-sha512 -cert", "other": "-sha256", "policy": "-sha256 -tspolicy 1.2.3.9"}.items():
        room.make(f"ts -query -data text {words} -out {name}.tsq")
    for name, words in {"one": "one stamper", "two": "two stamper", "by_rsa": "one rsa_stamper", "policy": "policy stamper"}.items():
        query, signer = words.split()
        words = f"-queryfile {query}.tsq -signer {signer}.pem -inkey {signer}.key -out {name}.tsr"
        room.openssl(f"ts -reply -config settings {words}")
    room.flip("one.tsr", "bad_signature.tsr")
    octets = room.read("one.tsr")
    room.flip("one.tsr", "bad_time.tsr", octets.index(b"Z", octets.index(b"\x18\x0f20")) - 1)


def make_tokens(room):
    """Tokens that cms signs, since ts does not with such keys, in responses; and one that is not granted."""
    room.make("ts -reply -in one.tsr -token_out -out one.token")
    room.make("cms -verify -inform DER -in one.token -certfile stamper.pem -noverify -out info")
    for name in ("stamper", "client", "stamper_too"):
        words = f"-econtent_type 1.2.840.113549.1.9.16.1.4 -signer {name}.pem -inkey {name}.key -out {name}.token"
        room.make(f"cms -sign -binary -nodetach -cades -in info -outform DER {words}")
        room.write(f"{name}.tsr", sequence(bytes.fromhex("3003020100") + room.read(f"{name}.token")))
    room.write("rejected.tsr", sequence(bytes.fromhex("3003020102") + room.read("stamper.token")))


def try_stamps(room):
    """time_stamp beside openssl ts -verify."""
    make_stamps(room)
    make_tokens(room)
    rows = [
        (0, "stamper", "text", "stamper", ""), (1, "client", "text", "client", ""), (1, "stamper_too", "text", "stamper_too", ""),
        (1, "rejected", "text", "stamper", ""), (1, "one", "text", "stamper_again", ""),
        (0, "one", "text", "stamper", ""), (0, "two", "text", "stamper", ""), (0, "by_rsa", "text", "rsa_stamper", ""),
        (0, "one", "text", "stamper", "one"), (0, "two", "text", "stamper", "two"), (1, "one", "altered", "stamper", ""),
        (1, "one", "text", "rsa_stamper", ""), (1, "by_rsa", "text", "stamper", ""), (1, "one", "text", "stamper", "other"),
        (1, "bad_signature", "text", "stamper", ""), (1, "bad_time", "text", "stamper", ""),
        (1, "policy", "text", "stamper", ""),
    ]
    for wanted, name, data, by, query in rows:
        nonce = re.findall(r"Nonce: (0x\w+)", room.openssl(f"ts -query -in {query}.tsq -text")[1])
        found, told = room.program("time_stamp", f"{name}.tsr", data, f"{by}.der", *nonce)
        asked = f"-queryfile {query}.tsq" if query else f"-data {data}"
        authority = CERTIFICATES[by][1]
        beside, _ = room.openssl(f"ts -verify -in {name}.tsr {asked} -CAfile {authority}.pem -untrusted {by}.pem")
        room.same(f"time_stamp: {name} of {data}, {by}, {query}", wanted, found, beside)
        if not wanted:
            at = re.search(r"Time stamp: (.*)", room.openssl(f"ts -reply -in {name}.tsr -text")[1])[1]
            room.holds(f"time_stamp: the time of {name}", int(told) == seconds_of(at), told)


def try_examples(trials, folder, build):
    """Tries each program on what openssl makes in a folder."""
    before, room = trials.passed, Room(trials, folder, build)
    make_certificates(room)
    for of in (try_certificates, try_hosts, try_answers, try_lists, try_chains, try_requests, try_pkcs12, try_signatures, try_stamps):
        of(room)
    print(f"c: the programs of c/examples, beside openssl: {trials.passed - before} answers", flush=True)
