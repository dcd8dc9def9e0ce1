#!/usr/bin/env python3
"""Builds the library for C, links it and calls it: from C beside OpenSSL, from Rust, from Python beside `cryptography`, and
from Go beside crypto/x509; and compiles README.md's lines in these languages.

    python3 tests/c.py [--built TREE]

TREE is a copy of the repository in which 'rt ci' has proved the crates; without it, what 'rt check' has proved is taken.
What a machine has no tool for is named and left out. The last line counts what was tried."""

import base64
import glob
import os
import re
import shutil
import subprocess
import sys
import tempfile
import warnings

from lib import ROOT, text_of
from lib.c_examples import try_examples
from lib.c_paths import try_pkits
from lib.packages import try_go, try_other_version, try_python, try_rust
from lib.readme_lines import try_lines
from lib.trials import Trials, write_files

SYSTEM = "/etc/ssl/certs/ca-certificates.crt"
# what the shared object may ask of the C library, and of the linker
ASKED = re.compile(r"^(malloc|realloc|free|mem(cpy|move|set|cmp)|bcmp|str(len|cmp|chr)|_ITM_.*|__gmon_start__|__cxa_finalize|__stack_chk_fail)$")
# the calls that the header declares
CALL = re.compile(r"^\w[\w *]*\bder_(\w+)\(", re.M)
# A file that includes the header, with members of a struct that have the names of calls.
INCLUDED = """struct own { int der_certificate, der_contents; };
#include <barleypulley/der.h>
int sum_of(const struct own *own);
int sum_of(const struct own *own) { return own->der_certificate + own->der_contents; }
"""
# the versions of the languages that include the header
HEADERS = {version: ["cc", f"-std={version}", "-x", "c"] for version in ("c89", "c99", "c11", "c17")}
HEADERS.update({version: ["c++", f"-std={version}", "-x", "c++"] for version in ("c++98", "c++11", "c++17")})


def make_answers(room):
    """Answers about the status of three certificates, with and without the responder's, and one with no answer; their files."""
    answers = {"answer": [], "short": ["-resp_no_certs", "-resp_key_id"]}
    numbers = [word for number in ("0x01", "0xFF", "0x02", "0x03") for word in ("-serial", number)]
    asked = ["openssl", "ocsp", "-issuer", "own.pem", *numbers, "-reqout", "asked", "-no_nonce"]
    subprocess.run(asked, cwd=room, check=True, capture_output=True)
    for name, words in answers.items():
        told = ["openssl", "ocsp", "-index", "index", "-CA", "own.pem", "-rsigner", "own.pem", "-rkey", "ec.pem", "-ndays", "7"]
        subprocess.run([*told, "-reqin", "asked", "-respout", name, *words], cwd=room, check=True, capture_output=True)
    found = [open(f"{room}/{name}", "rb").read() for name in answers]
    with open(f"{room}/answers.pem", "w", encoding="utf-8") as file:
        for octets in [*found, bytes.fromhex("30030a0106")]:
            text = base64.encodebytes(octets).decode()
            file.write(f"-----BEGIN OCSP RESPONSE-----\n{text}-----END OCSP RESPONSE-----\n")
    return [f"{room}/answers.pem"]


def make_messages(room):
    """A certificate, a list with two entries, keys of three kinds, requests, signed messages and answers about the status of
    certificates, which the openssl command writes; their files."""
    with open(f"{room}/ca.cnf", "w", encoding="utf-8") as file:
        file.write(
            "[req]\ndistinguished_name=name\n[name]\n[ca]\ndefault_ca=own\n[own]\ndatabase=index\ncrlnumber=number\n"
            "default_md=sha256\ndefault_crl_days=30\ncrl_extensions=list\n[list]\nauthorityKeyIdentifier=keyid\n"
            "[ext]\nbasicConstraints=critical,CA:true\nsubjectKeyIdentifier=hash\n"
            "[plain]\nsubjectKeyIdentifier=hash\nextendedKeyUsage=serverAuth\n"
        )
    with open(f"{room}/index", "w", encoding="utf-8") as file:
        file.write("R\t360101000000Z\t260102030405Z,keyCompromise\t01\tunknown\t/CN=one\n")
        file.write("R\t360101000000Z\t260102030406Z\t00FF\tunknown\t/CN=two\n")
        file.write("V\t360101000000Z\t\t02\tunknown\t/CN=three\n")
    with open(f"{room}/number", "w", encoding="utf-8") as file:
        file.write("1000\n")
    commands = (
        "openssl genpkey -algorithm ED25519 -out ed.pem",
        "openssl genpkey -algorithm EC -pkeyopt ec_paramgen_curve:P-256 -out ec.pem",
        "openssl genpkey -algorithm RSA -pkeyopt rsa_keygen_bits:2048 -out rsa.pem",
        "openssl pkey -in ec.pem -pubout -out ec-public.pem",
        "openssl pkey -in rsa.pem -pubout -out rsa-public.pem",
        "openssl req -x509 -new -key ec.pem -config ca.cnf -extensions ext -subj /CN=own -days 30 -out own.pem",
        "openssl req -x509 -new -key ec.pem -config ca.cnf -extensions plain -subj /CN=plain -days 30 -outform DER -out plain.der",
        "openssl ca -gencrl -config ca.cnf -keyfile ec.pem -cert own.pem -out list.pem",
        "openssl req -new -key ec.pem -config ca.cnf -subj /O=one+OU=two/CN=own -addext subjectAltName=DNS:own -out request.pem",
        "openssl req -new -key ed.pem -config ca.cnf -subj /CN=bare -out bare.pem",
        "openssl cms -sign -binary -in ca.cnf -signer own.pem -inkey ec.pem -outform PEM -nodetach -out signed.pem",
        "openssl cms -sign -binary -in ca.cnf -signer own.pem -inkey ec.pem -outform PEM -nocerts -keyid -out detached.pem",
    )
    for command in commands:
        subprocess.run(command.split(), cwd=room, check=True, capture_output=True)
    names = "ed ec rsa ec-public rsa-public own list request bare signed detached".split()
    return [f"{room}/{name}.pem" for name in names] + make_answers(room)


def make_der(room):
    """The certificate, the list, the requests and the answers in DER; their files."""
    found = []
    for kind, names in {"x509": ["own"], "crl": ["list"], "req": ["request", "bare"]}.items():
        for name in names:
            found.append(f"{room}/{name}.der")
            words = ["openssl", kind, "-in", f"{room}/{name}.pem", "-outform", "DER", "-out", found[-1]]
            subprocess.run(words, check=True, capture_output=True)
    return found + [f"{room}/{name}" for name in ("asked", "answer", "short")]


def make_many(trials, room):
    """The file of more than 500 messages that `cryptography` writes."""
    try:
        from lib import made_messages
    except ImportError:
        trials.left_out("more than 500 messages", "cryptography")
        return []
    warnings.simplefilter("ignore")
    count = made_messages.write(f"{room}/many.pem", f"{room}/ec.pem", f"{room}/own.pem")
    trials.tell(f"{count} messages of cryptography", count <= 500 and "they are too few")
    return [f"{room}/many.pem"]


def try_symbols(trials, room):
    """The shared object has the calls and no other name, and asks for no more than memory."""
    shared = f"{room}/build/libder_c.so.2"
    found = subprocess.run(["nm", "-D", shared], text=True, capture_output=True, check=True).stdout.splitlines()
    rows = [row.split()[-2:] for row in found]
    given = sorted(name.split("@")[0] for kind, name in rows if kind in "TDBR")
    asked = [name.split("@")[0] for kind, name in rows if kind in "Uw"]
    wanted = sorted(f"der_{name}" for name in CALL.findall(text_of("c/include/barleypulley/der.h")))
    trials.tell("the names of the shared object", given != wanted and f"{given}, not {wanted}")
    rows = subprocess.run(["nm", "-g", "--defined-only", f"{room}/build/libder_c.a"], text=True, capture_output=True, check=True)
    given = sorted(row.split()[2] for row in rows.stdout.splitlines() if len(row.split()) == 3)
    trials.tell("the names of the archive", given != wanted and f"{given}, not {wanted}")
    other = [name for name in asked if not ASKED.match(name)]
    trials.tell("what the shared object asks for", other)
    sections = subprocess.run(["size", "-A", shared], text=True, capture_output=True, check=True).stdout
    trials.tell("no storage of each thread", ".tdata" in sections or ".tbss" in sections)


def try_c(trials, room, sample, files):
    """The tests in C, beside OpenSSL where its headers are there, and under valgrind where that is there."""
    make = ["make", "-s", "-C", f"{ROOT}/c", f"BUILD={room}/build", f"OBJECT={room}/proved.a"]
    trials.run("make", make)
    trials.run("make install", [*make, "install", f"PREFIX={room}/prefix"])
    names = {"calls": "calls from C", "inner": "comparisons and texts from C", "canonical": "canonical encodings from C", "chains": "chains from C", "rules": "rules of RFC 5280 from C", "statuses": "statuses from C", "build": "messages written from C"}
    # (the rules are broken by single octets of a certificate of openssl's, whose extensions are known)
    given = {name: [f"{room}/plain.der" if name == "rules" else sample] for name in names}
    given["build"] += make_der(room) if os.path.isfile(f"{room}/own.pem") else []
    names = {name: what for name, what in names.items() if os.path.isfile(given[name][0])}
    for name, what in names.items():
        trials.run(f"make build/{name}", [*make, f"{room}/build/{name}"])
        trials.run(what, [f"{room}/build/{name}", *given[name]])
    trials.run("the example in C", [f"{room}/build/certificate", sample])
    if subprocess.run(["cc", "-E", "-x", "c", "-"], input="#include <openssl/x509.h>\n", text=True, capture_output=True).returncode:
        trials.left_out("C beside OpenSSL", "openssl/x509.h")
    else:
        for name in ("beside_openssl", "signed_beside_openssl"):
            trials.run(f"make build/{name}", [*make, f"{room}/build/{name}"])
            print(trials.run(f"C: {name}", [f"{room}/build/{name}", *files]), end="")
        trials.run("make examples", [*make, "examples"])
        if shutil.which("openssl"):
            try_examples(trials, room, f"{room}/build")
        else:
            trials.left_out("the other examples in C", "openssl")
        try_pkits(trials, f"{room}/build/path")
    if shutil.which("valgrind"):
        for name, what in names.items():
            words = ["valgrind", "-q", "--error-exitcode=9", "--leak-check=full", f"{room}/build/{name}", *given[name]]
            trials.run(f"{what}, under valgrind", words)
    else:
        trials.left_out("calls under valgrind", "valgrind")
    try_header(trials, room)


def try_header(trials, room):
    """The header in old and new versions of C and C++; none of them takes it with a struct that is laid out otherwise."""
    with open(f"{ROOT}/c/include/barleypulley/der.h", encoding="utf-8") as file:
        header = file.read()
    for name, words in HEADERS.items():
        if not shutil.which(words[0]):
            trials.left_out(f"the header in {name}", words[0])
            continue
        trials.tell(f"the header in {name}", refusal_of_header(words, room, header))
        other = header.replace("    der_place critical;", "    uint32_t critical;")
        trials.tell(f"another struct in {name}", not refusal_of_header(words, room, other) and "it is taken")
    macros = subprocess.run(["cc", "-E", "-dM", f"-I{room}", "-"], input=INCLUDED, text=True, capture_output=True).stdout
    named = re.findall(r"^#define ((?:BARLEYPULLEY_|DER_|der_)\w+)", macros, re.M)
    rules = [name for name in named if name.startswith(("DER_CERTIFICATE_", "DER_LIST_"))]
    other = [name for name in named if name not in (*rules, "BARLEYPULLEY_DER_H", "DER_ABI_VERSION")]
    trials.tell("the macros of the header", other or len(rules) != header.count("(uint64_t)1 << ") or len(named) != len(rules) + 2)


def refusal_of_header(words, room, header):
    """What a compiler says of a header that a file includes; nothing where it takes it."""
    os.makedirs(f"{room}/barleypulley", exist_ok=True)
    with open(f"{room}/barleypulley/der.h", "w", encoding="utf-8") as file:
        file.write(header)
    command = [*words, "-Wall", "-Wextra", "-Werror", "-pedantic", "-fsyntax-only", f"-I{room}", "-"]
    ran = subprocess.run(command, input=INCLUDED, text=True, capture_output=True)
    return ran.returncode and (ran.stderr[-2000:] or f"status {ran.returncode}")


def try_fuzzer(trials, room, samples):
    """libFuzzer, over octets that stand before a page which cannot be read. The files of c/ have sanitizers in them."""
    compiler = "clang -g -O1 -fno-sanitize-recover=all -fsanitize=address,undefined"
    built = [f"BUILD={room}/fuzzed", f"OBJECT={room}/proved.a", f"CC={compiler},fuzzer-no-link", f"{room}/fuzzed/libder_c.a"]
    sources = [f"{ROOT}/c/tests/{name}.c" for name in ("fuzz", "fuzz_inner")]
    words = [*f"{compiler},fuzzer".split(), f"-I{ROOT}/c/include", *sources, built[-1], "-o", f"{room}/fuzz"]
    commands = [["make", "-s", "-C", f"{ROOT}/c", *built], words]
    if not shutil.which("clang") or any(subprocess.run(it, capture_output=True).returncode for it in commands):
        trials.left_out("the fuzzer", "clang's runtime of it")
        return
    os.mkdir(f"{room}/seeds")
    for sample in samples:
        shutil.copy(sample, f"{room}/seeds")
    rows = "".join(text_of(path) for path in glob.glob(f"{ROOT}/tests/messages/*.rows"))
    for number, digits in enumerate(re.findall(r"^[a-z0-9]+ ((?:[0-9a-f]{2})+) ", rows, re.M)):
        with open(f"{room}/seeds/{number}", "wb") as file:
            file.write(bytes.fromhex(digits))
    words = [f"{room}/fuzz", "-max_total_time=30", "-max_len=4096", "-rss_limit_mb=1024", f"{room}/seeds"]
    told = trials.run("the fuzzer", words, cwd=room)
    print("c: the fuzzer:", *re.findall(r"Done \d+ runs.*|^\d+ calls$", told, re.M))


def main(words):
    tree = words[1] if words[:1] == ["--built"] else ROOT
    trials = Trials("c")
    if not trials.can_build("the library for C"):
        return trials.end()
    with tempfile.TemporaryDirectory(prefix="der-c-") as room:
        trials.run("rt lib", ["rt", "lib"], cwd=f"{tree}/crates/der_c")
        shutil.copy(f"{tree}/crates/der_c/out/libder_c.a", f"{room}/proved.a")
        with open(f"{ROOT}/crates/certview/stdin", encoding="utf-8") as file:
            samples = write_files(file.read(), "CERTIFICATE", room)
        own = make_messages(room) if shutil.which("openssl") else []
        own += make_many(trials, room) if own else []
        files = own + glob.glob(SYSTEM)
        system = [name for path in glob.glob(SYSTEM) for name in write_files(open(path, encoding="utf-8").read(), "CERTIFICATE", room)]
        try_c(trials, room, samples[0], files)
        try_symbols(trials, room)
        text = "".join(open(name, encoding="utf-8").read() for name in own)
        seeds = [name for label in ("CERTIFICATE REQUEST", "OCSP RESPONSE", "CMS", "X509 CRL") for name in write_files(text, label, room)]
        seeds += [name for end in ("p12", "cms", "tsq", "tsr") for name in glob.glob(f"{room}/examples/*.{end}")]
        try_fuzzer(trials, room, (system or samples) + seeds)
        try_rust(trials, room, system or samples, own)
        try_python(trials, room, own)
        try_go(trials, room, own)
        try_other_version(trials, room, samples[0])
        try_lines(trials, room, samples[0])
    return trials.end()


if __name__ == "__main__":
    sys.exit(main(sys.argv[1:]))
