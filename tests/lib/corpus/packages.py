"""Fetches packages of Debian that have messages among their tests: sources by `apt-get source`, others by `apt-get download`.
apt's lists are those of a folder of its own, so that nothing of the system changes and nothing is installed."""

import os
import subprocess

RELEASE = "bookworm"
MIRROR = os.environ.get("MIRROR", "http://deb.debian.org/debian")
KEYS = "/usr/share/keyrings/debian-archive-keyring.gpg"
SOURCES = "openssl gnutls28 nss mbedtls wolfssl botan golang-1.19".split()
BINARIES = "python3-cryptography-vectors ca-certificates".split()
ENDS = (".tar.gz", ".tar.xz", ".tar.bz2", ".deb")


def run(room, *words):
    settings = {**os.environ, "APT_CONFIG": f"{room}/apt/conf"}
    ran = subprocess.run(words, cwd=f"{room}/packages", env=settings, text=True, capture_output=True)
    if ran.returncode:
        print(f"corpus: {' '.join(words)}: {ran.stderr.strip()[-300:]}")
    return ran.returncode == 0


def prepare(room):
    """The folder's own lists."""
    for folder in ("packages", "apt/lists/partial", "apt/archives/partial"):
        os.makedirs(f"{room}/{folder}", exist_ok=True)
    with open(f"{room}/apt/status", "w", encoding="utf-8"):
        pass
    with open(f"{room}/apt/list", "w", encoding="utf-8") as file:
        for kind in ("deb", "deb-src"):
            file.write(f"{kind} [signed-by={KEYS}] {MIRROR} {RELEASE} main\n")
    with open(f"{room}/apt/conf", "w", encoding="utf-8") as file:
        file.write(
            f'Dir::State "{room}/apt";\nDir::State::status "{room}/apt/status";\nDir::Cache "{room}/apt";\n'
            f'Dir::Etc::sourcelist "{room}/apt/list";\nDir::Etc::sourceparts "/dev/null";\nAPT::Sandbox::User "root";\n'
        )
    run(room, "apt-get", "update", "-q")


def fetch(room, more=()):
    """The archives of the packages and of more sources, fetched where they are not there yet."""
    sources = [*SOURCES, *more]
    missing = [name for name in sources if not archives(room, name)]
    others = [name for name in BINARIES if not archives(room, name)]
    if missing or others:
        prepare(room)
    for name in missing:
        run(room, "apt-get", "source", "--download-only", name)
    for name in others:
        run(room, "apt-get", "download", name)
    found = {name: archives(room, name) for name in sources + BINARIES}
    for name in found:
        if not found[name]:
            print(f"corpus: left out, {name}: it could not be fetched")
    return {name: files for name, files in found.items() if files}


def archives(room, name):
    """The archives of a package: of a source its first one, without what Debian changed."""
    folder = f"{room}/packages"
    files = sorted(os.listdir(folder)) if os.path.isdir(folder) else []
    return [f"{folder}/{it}" for it in files if it.startswith(f"{name}_") and it.endswith(ENDS) and ".debian." not in it]


def version_of(archive):
    return os.path.basename(archive).split("_")[1].split(".orig")[0]
