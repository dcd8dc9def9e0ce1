"""The packages for Rust, Python and Go over the library for C: their tests beside other readers, their fuzzers, the crates, the
sdist and the wheel; and each with a library of another version."""

import os
import re
import shutil
import subprocess
import sys
import time
import warnings

from . import ROOT

# how long each language reads changed messages
FUZZ_SECONDS = "5"
# a key of Ed25519 (RFC 8410 10.1)
KEY = "302a300506032b657003210019bf44096984cdfe8541bac167dc3b96c85086aa30b6b6cb0c5c38ad703166e1"


def told_by_cryptography(names):
    """What the example in Rust must print of certificates, by `cryptography`; or none, where that is not there."""
    try:
        from cryptography import x509
        from cryptography.hazmat.primitives.serialization import Encoding, PublicFormat
    except ImportError:
        return None
    warnings.simplefilter("ignore")
    lines = []
    for name in names:
        with open(name, "rb") as file:
            one = x509.load_der_x509_certificate(file.read())
        key = one.public_key().public_bytes(Encoding.DER, PublicFormat.SubjectPublicKeyInfo)
        lines += [f"version {one.version.value + 1}", f"not before {int(one.not_valid_before_utc.timestamp())}"]
        lines += [f"not after {int(one.not_valid_after_utc.timestamp())}", f"signed {one.tbs_certificate_bytes.hex()}"]
        lines += [f"issuer {one.issuer.public_bytes().hex()}", f"subject {one.subject.public_bytes().hex()}"]
        lines += [f"key {key.hex()}", f"signature 00{one.signature.hex()}"]
        lines += ["critical" if extension.critical else "other" for extension in one.extensions]
    return lines


def try_path(trials, language, room, command, **others):
    """What the example `path` says of chains of one certificate: of the anchor's own, of one whose signature is wrong, and of one
    that the anchor has not issued."""
    if not os.path.isfile(f"{room}/own.der"):
        return
    with open(f"{room}/own.der", "rb") as file:
        octets = file.read()
    with open(f"{room}/broken.der", "wb") as file:
        file.write(octets[:-1] + bytes([octets[-1] ^ 1]))
    for name, text in {"own": "valid", "broken": "refused 0 6.1.3 (a)(1)", "plain": "refused 0 6.1.3 (a)(4)"}.items():
        words = [*command, str(int(time.time())), f"{room}/own.der", f"{room}/{name}.der"]
        ran = subprocess.run(words, text=True, capture_output=True, **others)
        told = ran.stdout.strip()
        trials.tell(f"a chain in {language}: {text}", told != text and f"{told}{ran.stderr[-500:]}")


def seen_by_cryptography(line):
    """A line of the example in Rust as `cryptography` tells it; none of what it does not tell."""
    if line.startswith("extension "):
        return line.split()[2]
    return None if line.startswith(("serial number", "algorithm of the key")) else line


def try_rust(trials, room, names, files):
    """The crates in Rust: their tests and packages, and the fields of certificates beside `cryptography`."""
    if not shutil.which("cargo"):
        trials.left_out("Rust", "cargo")
        return
    settings = {"DER_C_LIB": f"{room}/build", "CARGO_TARGET_DIR": f"{room}/target", "DER_TEST_FILES": os.pathsep.join(files)}
    others = {"cwd": f"{ROOT}/rust", "env": {**os.environ, **settings, "DER_FUZZ_SECONDS": FUZZ_SECONDS}}
    told = trials.run("the tests in Rust", ["cargo", "test", "-q", "--offline", "--", "--nocapture"], **others)
    print("c: Rust:", *re.findall(r"^\d+ (?:messages|changed messages).*", told, re.M), sep="\n")
    version = subprocess.run(["cargo", "--version"], text=True, capture_output=True, check=True).stdout
    if int(re.search(r"1\.(\d+)", version)[1]) < 90:
        trials.left_out("the packages in Rust", "cargo 1.90, which packages a workspace with no registry,")
    else:
        trials.run("the packages in Rust", ["cargo", "package", "-q", "--workspace", "--offline", "--allow-dirty"], **others)
    others["env"]["RUSTDOCFLAGS"] = "-D warnings"
    trials.run("the pages of the crates in Rust", ["cargo", "doc", "-q", "--offline", "--no-deps"], **others)
    trials.run("the crate in Rust without memory", ["cargo", "check", "-q", "--offline", "-p", "der-proved", "--no-default-features"], **others)
    trials.run("the examples in Rust", ["cargo", "build", "-q", "--offline", "--release", "--examples"], **others)
    if shutil.which("openssl"):
        try_path(trials, "Rust", room, [f"{room}/target/release/examples/path"])
    ran = subprocess.run([f"{room}/target/release/examples/fields", *names], text=True, capture_output=True)
    wanted = told_by_cryptography(names)
    if wanted is None:
        trials.left_out("Rust beside cryptography", "cryptography")
        return
    found = [line for line in map(seen_by_cryptography, ran.stdout.splitlines()) if line]
    differ = [f"{one[:80]}, not {other[:80]}" for one, other in zip(found, wanted) if one != other]
    trials.tell(f"Rust beside cryptography, {len(wanted)} lines", ran.stderr or len(found) != len(wanted) or differ[:3])


def has_wheel(python):
    return os.path.isfile(python) and subprocess.run([python, "-c", "import setuptools, wheel"], capture_output=True).returncode == 0


def try_wheel(trials, room):
    """An sdist, the wheel that is built from it over the installed library, and its module; with no network."""
    python = next(filter(has_wheel, (sys.executable, "/usr/bin/python3")), None)
    if not python or not shutil.which("pkg-config"):
        trials.left_out("the sdist and the wheel", "wheel or pkg-config")
        return
    shutil.copytree(f"{ROOT}/python", f"{room}/package", ignore=shutil.ignore_patterns("build", "*.egg-info", "__pycache__"))
    build = "import sys; from setuptools import build_meta; print(getattr(build_meta, sys.argv[1])(sys.argv[2]))"
    settings = {**os.environ, "PKG_CONFIG_PATH": f"{room}/prefix/lib/pkgconfig"}
    settings.pop("DER_C_LIB", None)
    told = trials.run("the sdist", [python, "-c", build, "build_sdist", room], cwd=f"{room}/package", env=settings)
    shutil.unpack_archive(f"{room}/{told.split()[-1]}", f"{room}/sdist")
    folder = f"{room}/sdist/{told.split()[-1].removesuffix('.tar.gz')}"
    told = trials.run("the wheel, of the sdist", [python, "-c", build, "build_wheel", room], cwd=folder, env=settings)
    shutil.unpack_archive(f"{room}/{told.split()[-1]}", f"{room}/wheel", "zip")
    missing = [name for name in ("py.typed", "_der.pyi", "_error.py") if not os.path.isfile(f"{room}/wheel/derproved/{name}")]
    trials.tell("the files of the wheel", missing)
    settings["PYTHONPATH"] = f"{room}/wheel"
    words = ["-c", "import derproved; print(derproved.SubjectPublicKeyInfo(bytes.fromhex(%r)))" % KEY]
    told = trials.run("the module of the wheel", [sys.executable, "-B", *words], cwd=room, env=settings)
    trials.tell("what it reads", told.strip() != "<SubjectPublicKeyInfo of 44 octets>" and told)


def try_python(trials, room, files):
    """The package for Python, and its tests beside `cryptography`."""
    settings = {"DER_C_LIB": f"{room}/build", "DER_TEST_FILES": os.pathsep.join(files), "DER_FUZZ_SECONDS": FUZZ_SECONDS}
    others = {"cwd": f"{ROOT}/python", "env": {**os.environ, **settings}}
    needs = "import setuptools, sysconfig, os, sys; sys.exit(not os.path.isfile(sysconfig.get_path('include') + '/Python.h'))"
    if subprocess.run([sys.executable, "-c", needs], capture_output=True).returncode or sys.version_info < (3, 11):
        trials.left_out("Python", "setuptools, Python.h or Python 3.11")
        return
    words = [sys.executable, "-B", "setup.py", "-q", "build", "--build-base", f"{room}/python", "--build-lib", f"{room}/python/lib"]
    trials.run("the package for Python", words, **others)
    others["env"]["PYTHONPATH"] = f"{room}/python/lib"
    words = [sys.executable, "-B", "-W", "ignore", "-m", "unittest", "discover", "-q", "-s", "tests"]
    told = trials.run("the tests in Python", words, **others)
    print("c: Python:", *re.findall(r"^\d+ changed messages.*", told, re.M))
    if subprocess.run([sys.executable, "-c", "import cryptography"], capture_output=True).returncode == 0:
        try_path(trials, "Python", room, [sys.executable, "-B", "-W", "ignore", f"{ROOT}/python/examples/path.py"], env=others["env"])
    try_wheel(trials, room)


def try_go(trials, room, files):
    """The package for Go, and its tests beside crypto/x509."""
    if not shutil.which("go"):
        trials.left_out("Go", "go, of Debian's package golang-go,")
        return
    settings = {**os.environ, "CGO_LDFLAGS": f"-L{room}/build", "GOCACHE": f"{room}/go", "DER_TEST_FILES": os.pathsep.join(files)}
    # (each pointer that C gets is tested by the rules of cgo)
    settings["GODEBUG"] = "cgocheck=2"
    others = {"cwd": f"{ROOT}/go", "env": settings}
    trials.run("go vet", ["go", "vet", "./..."], **others)
    told = trials.run("the tests in Go", ["go", "test", "-count=1", "-v", "./..."], **others)
    print("c: Go beside crypto/x509:", *re.findall(r"\d+ certificates", told))
    told = trials.run("the fuzzer of Go", ["go", "test", "-run=^$", "-fuzz=FuzzRead", f"-fuzztime={FUZZ_SECONDS}s", "./der"], **others)
    print("c: the fuzzer of Go:", *re.findall(r"execs: \d+", told)[-1:])
    trials.run("the example in Go", ["go", "build", "-o", f"{room}/path-go", "./examples/path"], **others)
    try_path(trials, "Go", room, [f"{room}/path-go"])


def try_other_version(trials, room, sample):
    """Each package refuses a library whose interface has another version, and says which."""
    at = f"{room}/other"
    os.mkdir(at)
    with open(f"{at}/version.c", "w", encoding="utf-8") as file:
        file.write("unsigned der_abi_version(void) { return 77; }\n")
    lines = f"""objcopy --redefine-sym der_abi_version=own_version {room}/build/der_c.o {at}/der_c.o
    cc -fPIC -c {at}/version.c -o {at}/version.o && ld -r {at}/der_c.o {at}/version.o -o {at}/all.o && ar rcsD {at}/libder_c.a {at}/all.o"""
    trials.run("a library of another version", ["sh", "-ec", lines])
    settings = {**os.environ, "DER_C_LIB": at, "CARGO_TARGET_DIR": f"{at}/target", "CGO_LDFLAGS": f"-L{at}", "GOCACHE": f"{room}/go"}
    python = f"{sys.executable} -B setup.py -q build --build-base {at}/python --build-lib {at}/lib 2>&1"
    python += f'; PYTHONPATH={at}/lib {sys.executable} -c "import derproved"'
    for language, tool, folder, command in (
        ("Rust", "cargo", "rust", f"cargo run -q --offline --example fields {sample}"),
        ("Python", "python3", "python", python),
        ("Go", "go", "go", f"go run ./examples/fields {sample}"),
    ):
        if shutil.which(tool):
            ran = subprocess.run(command, shell=True, cwd=f"{ROOT}/{folder}", env=settings, text=True, capture_output=True)
            is_told = ran.returncode and "has version 77 of its interface" in ran.stderr
            trials.tell(f"{language} with a library of another version", not is_told and f"{ran.returncode}: {ran.stderr[-500:]}")
