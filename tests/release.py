#!/usr/bin/env python3
"""Makes a release by tools/release, twice, and uses it as one does who has no kit: in an empty folder, with no 'rt' in PATH.

    python3 tests/release.py [--built TREE]

TREE is a copy of the repository in which 'rt ci' has proved the crates; without it, this one is taken. The example of each
language is built and run, and each must tell the same of one certificate. What a machine has no tool for is named and left
out. The last line counts what was tried."""

import filecmp
import os
import re
import shutil
import subprocess
import sys
import tempfile

from lib import ROOT
from lib.trials import Trials, write_files

PYTHON = """import sys, derproved
one = derproved.Certificate(open(sys.argv[1], "rb").read())
print(one.version, int(one.not_before.timestamp()), int(one.not_after.timestamp()))"""


MAIN = """
int main(int count, char **words)
{
    static uint8_t octets[1 << 16];
    FILE *file = count == 2 ? fopen(words[1], "rb") : NULL;
    if (!file)
        return 1;
    print_dates(octets, fread(octets, 1, sizeof octets, file));
    fclose(file);
    return 0;
}
"""


def path_without_rt(room):
    """PATH without the command rt: for a folder that has it, one with links to all else in it."""
    folders = []
    for number, folder in enumerate(os.environ["PATH"].split(os.pathsep)):
        if os.path.lexists(f"{folder}/rt"):
            links = f"{room}/path-{number}"
            os.makedirs(links)
            for name in os.listdir(folder):
                if name != "rt":
                    os.symlink(os.path.abspath(f"{folder}/{name}"), f"{links}/{name}")
            folder = links
        folders.append(folder)
    return os.pathsep.join(folders)


def files_of(folder):
    return sorted(os.path.relpath(f"{at}/{name}", folder) for at, _, names in os.walk(folder) for name in names)


def try_making(trials, tree, room):
    """Two runs write the same files; gives the folder of the first."""
    for name in ("first", "second"):
        words = [f"{ROOT}/tools/release", f"{room}/{name}", "--built", tree]
        trials.run(f"tools/release, the {name} time", [sys.executable, *words])
    names = files_of(f"{room}/first")
    _, differ, missing = filecmp.cmpfiles(f"{room}/first", f"{room}/second", names, shallow=False)
    why = differ or missing or (files_of(f"{room}/second") != names and "other files") or (not names and "there are none")
    trials.tell(f"two runs write the same {len(names)} files", why)
    refused = subprocess.run([f"{ROOT}/tools/release", f"{room}/first", "--built", tree], capture_output=True, text=True)
    trials.tell("a folder that is not empty is refused", (refused.returncode, refused.stderr) if "is not empty" not in refused.stderr else None)
    return f"{room}/first"


def numbers(text):
    """The version and the two dates, which each example prints first or last of what it prints."""
    words = re.search(r"version (\d+)\D+(\d+)\D+(\d+)", text) or re.search(r"^(\d+) (\d+) (\d+)$", text, re.M)
    return words and words.groups()


class Machine:
    """A machine without the kit: an empty folder with a release in it, and what the examples tell."""

    def __init__(self, trials, room, release, sample):
        self.trials, self.sample = trials, sample
        self.folder = f"{room}/machine"
        shutil.copytree(release, self.folder)
        kept = {name: os.environ[name] for name in ("HOME", "RUSTUP_HOME", "CARGO_HOME", "LANG") if name in os.environ}
        self.settings = {**kept, "PATH": path_without_rt(room), "GOCACHE": f"{room}/go", "GOFLAGS": "-mod=mod", "GOPATH": f"{room}/gopath"}
        self.told = {}
        trials.tell("rt is not in PATH", self.has("rt") and "it is")

    def has(self, tool):
        return shutil.which(tool, path=self.settings["PATH"])

    def run(self, name, words, folder="."):
        return self.trials.run(name, words, cwd=f"{self.folder}/{folder}", env=self.settings)

    def example(self, language, words, folder="."):
        told = numbers(self.run(f"the example in {language}", words, folder))
        self.told[language] = told

    def agree(self):
        """All examples told the same."""
        wrong = len(set(self.told.values())) != 1 or None in self.told.values()
        self.trials.tell(f"{', '.join(self.told)} tell the same", wrong and self.told)


def program_of(page):
    """The first program in C of a page, with a main that reads a file."""
    first = re.search(r"^```c\n(.*?)^```$", page, re.M | re.S)[1]
    return first + MAIN


def use_c(machine):
    machine.run("sha256sum -c", ["sha256sum", "-c", "--quiet", "--strict", "RELEASE"])
    machine.run("make", ["make", "-s", "-C", "c"])
    machine.example("C", ["c/build/certificate", machine.sample])
    if subprocess.run(["cc", "-E", "-x", "c", "-"], input="#include <openssl/x509.h>\n", text=True, capture_output=True).returncode:
        machine.trials.left_out("the other examples in C", "openssl/x509.h")
    else:
        machine.run("make examples", ["make", "-s", "-C", "c", "examples"])
    machine.run("make install", ["make", "-s", "-C", "c", "install", f"PREFIX={machine.folder}/installed"])
    words = ["cc", "-std=c11", "-Iinstalled/include", "-o", "shared", "c/examples/certificate.c", "-Linstalled/lib", "-lder_c", "-Wl,-rpath,$ORIGIN/installed/lib"]
    machine.run("the example is linked with the shared object", words)
    machine.example("C, shared", ["./shared", machine.sample])
    use_pkg_config(machine)


def use_pkg_config(machine):
    """The program of docs/C.md, built by what pkg-config alone says of the folder that 'make' did not know."""
    if not machine.has("pkg-config"):
        machine.trials.left_out("C by pkg-config", "pkg-config")
        return
    with open(f"{ROOT}/docs/C.md", encoding="utf-8") as page, open(f"{machine.folder}/dates.c", "w", encoding="utf-8") as file:
        file.write(program_of(page.read()))
    installed = f"{machine.folder}/installed"
    by_it = f"PKG_CONFIG_PATH={installed}/lib/pkgconfig pkg-config"
    line = f"cc -std=c11 -o dates dates.c $({by_it} --cflags --libs barleypulley) -Wl,-rpath,$({by_it} --variable=libdir barleypulley)"
    machine.run("the program of docs/C.md, by pkg-config", ["sh", "-c", line])
    if not os.path.isfile(f"{machine.folder}/dates"):
        return
    told = machine.run("that program says the dates", ["./dates", machine.sample])
    wanted = machine.told.get("C, shared")
    machine.trials.tell("its dates are the example's", None if wanted and told.split() == list(wanted[1:]) else (told, wanted))
    use_chroot(machine)


# Run as root of a namespace: a root directory with this machine's /usr, but an empty /usr/local, and the release.
CHROOT = """set -e
mkdir -p usr etc dev tmp release build
mount --rbind /usr usr
mount -t tmpfs none usr/local
mount --rbind /etc etc
mount --rbind /dev dev
mount --bind "$1" release
for name in bin sbin lib lib64; do [ -L /$name ] && cp -P /$name . || { mkdir $name; mount --rbind /$name $name; }; done
exec chroot . env -i PATH=/usr/local/bin:/usr/bin:/bin:/usr/sbin:/sbin sh -ec "$2" """
# Run in it: the library is installed to /usr/local, and the program is built and run by what pkg-config says.
INSTALLING = """cd /release
make -s -C c install BUILD=/build
cd /build && cc -std=c11 -o dates /release/dates.c $(pkg-config --cflags --libs barleypulley)
LD_LIBRARY_PATH=$(pkg-config --variable=libdir barleypulley) ./dates /release/sample.der
test -s /usr/local/share/man/man3/barleypulley.3
certview /release/sample.der > text && test -s text"""


def use_chroot(machine):
    """The library is installed and used in a root directory of its own, with neither the kit nor the repository."""
    probe = ["unshare", "--map-root-user", "--mount", "mount", "-t", "tmpfs", "none", "/mnt"]
    if subprocess.run(probe, capture_output=True).returncode or not machine.has("pkg-config"):
        machine.trials.left_out("the library in a root directory of its own", "namespaces of users, or pkg-config,")
        return
    shutil.copy(machine.sample, f"{machine.folder}/sample.der")
    with tempfile.TemporaryDirectory(prefix="der-root-") as root:
        words = ["unshare", "--map-root-user", "--mount", "sh", "-c", CHROOT, "sh", os.path.abspath(machine.folder), INSTALLING]
        told = machine.trials.run("the library in a root directory of its own", words, cwd=root)
    wanted = machine.told.get("C, shared")
    machine.trials.tell("its dates are the example's, too", None if wanted and told.split() == list(wanted[1:]) else (told, wanted))


def use_aarch64(machine):
    """The other object, by a compiler for it and a program that runs it."""
    tools = {"CC": "aarch64-linux-gnu-gcc", "LD": "aarch64-linux-gnu-ld", "AR": "aarch64-linux-gnu-ar", "NM": "aarch64-linux-gnu-nm", "OBJCOPY": "aarch64-linux-gnu-objcopy"}
    runner = machine.has("qemu-aarch64")
    missing = [tool for tool in tools.values() if not machine.has(tool)] or ([] if runner else ["qemu-aarch64"])
    if missing:
        machine.trials.left_out("C for aarch64", missing[0])
        return
    words = [f"{name}={tool}" for name, tool in tools.items()]
    machine.run("make for aarch64", ["make", "-s", "-C", "c", "MACHINE=aarch64", "BUILD=build-aarch64", *words])
    machine.example("C for aarch64", [runner, "-L", "/usr/aarch64-linux-gnu", "c/build-aarch64/certificate", machine.sample])


def use_rust(machine):
    if not machine.has("cargo"):
        machine.trials.left_out("Rust", "cargo")
        return
    machine.example("Rust", ["cargo", "run", "-q", "--offline", "--example", "fields", machine.sample], "rust")


def use_python(machine):
    needs = "import setuptools, sysconfig, os, sys; sys.exit(not os.path.isfile(sysconfig.get_path('include') + '/Python.h'))"
    if subprocess.run([sys.executable, "-c", needs], capture_output=True).returncode or sys.version_info < (3, 11):
        machine.trials.left_out("Python", "setuptools, Python.h or Python 3.11")
        return
    machine.run("the package for Python", [sys.executable, "setup.py", "-q", "build", "--build-lib", "build/lib"], "python")
    machine.settings["PYTHONPATH"] = "build/lib"
    machine.example("Python", [sys.executable, "-c", PYTHON, machine.sample], "python")


def use_go(machine):
    if not machine.has("go"):
        machine.trials.left_out("Go", "go, of Debian's package golang-go")
        return
    machine.example("Go", ["go", "run", "./examples/fields", machine.sample], "go")


def use_programs(machine):
    """The programs print what those do that rt ci runs."""
    for name in ("certview", "derview"):
        crate = f"{ROOT}/crates/{name}"
        with open(f"{crate}/stdin", "rb") as given, open(f"{crate}/stdout", "rb") as wanted:
            ran = subprocess.run([f"{machine.folder}/bin/{name}"], stdin=given, capture_output=True, env=machine.settings)
            same = ran.returncode == 0 and ran.stdout == wanted.read()
        machine.trials.tell(name, not same and (ran.returncode, ran.stdout[:300], ran.stderr[:300]))


def main(words):
    tree = words[1] if words[:1] == ["--built"] else ROOT
    trials = Trials("release")
    if not trials.can_build("the release"):
        return trials.end()
    with tempfile.TemporaryDirectory(prefix="der-release-") as room:
        with open(f"{ROOT}/crates/certview/stdin", encoding="utf-8") as file:
            sample = write_files(file.read(), "CERTIFICATE", room)[0]
        release = try_making(trials, tree, room)
        if not trials.failed:
            machine = Machine(trials, room, release, sample)
            for use in (use_c, use_aarch64, use_rust, use_python, use_go):
                use(machine)
            machine.agree()
            use_programs(machine)
    return trials.end()


if __name__ == "__main__":
    sys.exit(main(sys.argv[1:]))
