"""Programs for the tests, built by `rt try`, which proves nothing and looks for faults while they run.

`rt try` keeps no file, so keep.c is linked in, which copies the program to where it is asked for. That needs a C compiler.
In the program the request for memory of the number REFUSED is refused: what runs before a call decides which of its
requests that is. In certview it is a later one, since a document of JSON takes some for each text.
"""

import os
import shutil
import subprocess
import sys
import tempfile

HERE = os.path.dirname(os.path.abspath(__file__))
TESTS = os.path.dirname(HERE)
ROOT = os.path.dirname(TESTS)
REFUSED = 8000
REFUSED_IN_CERTVIEW = 20000
COMPILER = os.environ.get("CC") or "cc"


def has_compiler():
    return shutil.which(COMPILER.split()[0]) is not None


def build(name, to, extra=None, uses="der_asn1_types", refuses=True):
    """Builds the program of the crate, or of the sources of the folder `extra` as a crate that uses these crates. One that
    refuses no memory may be asked for any number of files."""
    with tempfile.TemporaryDirectory(prefix="der-tests-") as work:
        leave_out = shutil.ignore_patterns("out", "must-fail")
        shutil.copytree(f"{ROOT}/crates", f"{work}/crates", ignore=leave_out)
        for file in ("crates.txt", "HANDLES"):
            shutil.copy(f"{ROOT}/{file}", work)
        crate = f"{work}/crates/{name}"
        if extra:
            os.makedirs(f"{crate}/src")
            os.makedirs(f"{crate}/specs")
            open(f"{crate}/specs/Lib.antt", "w").close()
            for file in os.listdir(extra):
                if file.endswith(".txt"):
                    shutil.copy(f"{extra}/{file}", f"{crate}/src/{file[:-4]}.rt")
            with open(f"{work}/crates.txt", "a") as list_of_crates:
                list_of_crates.write(f"{name}: {uses}\n")
        os.makedirs(f"{crate}/c")
        shutil.copy(f"{HERE}/keep.c", f"{crate}/c/keep.c")
        kept = f"{work}/kept"
        settings = {**os.environ, "RT_ALLOW_C": name, "CFLAGS": f'-DKEEP_AT=\\"{kept}\\"'}
        number = REFUSED_IN_CERTVIEW if name == "certview" else REFUSED
        words = ["rt", "try", *(["--fail-alloc", str(number)] if refuses else [])]
        how = {"stdin": subprocess.DEVNULL, "stdout": subprocess.PIPE, "stderr": subprocess.STDOUT}
        ran = subprocess.run(words, cwd=crate, env=settings, **how)
        # certview answers the empty input with a status of its own.
        if not os.path.isfile(kept):
            sys.exit(f"the program {name} was not built:\n{ran.stdout.decode(errors='replace')}")
        shutil.move(kept, to)


def refusing_library(folder):
    """A shared library that has reads and writes fail, for LD_PRELOAD (refuse.c)."""
    library = f"{folder}/refuse.so"
    subprocess.run([*COMPILER.split(), "-shared", "-fPIC", "-O2", "-o", library, f"{HERE}/refuse.c"], check=True)
    return library


def proved():
    """The program that `rt run` built, if no source is newer."""
    program = f"{ROOT}/crates/derview/out/derview"
    if not os.path.isfile(program):
        return None
    built = os.path.getmtime(program)
    for folder, folders, files in os.walk(f"{ROOT}/crates"):
        folders[:] = [it for it in folders if it not in ("out", "must-fail")]
        for file in files:
            if file.endswith(".rt") and os.path.getmtime(f"{folder}/{file}") > built:
                return None
    return program


def built_by_try(name, folder, refuses=True):
    """A program as `rt try` builds it: the one that the variable of its name has, as DERVIEW, or a new one in the folder."""
    given = os.environ.get(name.upper())
    if given:
        return given
    build(name, f"{folder}/{name}", refuses=refuses)
    return f"{folder}/{name}"


def derview(folder):
    return built_by_try("derview", folder)


def certview(folder):
    return built_by_try("certview", folder)


if __name__ == "__main__":
    if not has_compiler():
        sys.exit(f"there is no C compiler {COMPILER}: set CC")
    build(sys.argv[1], sys.argv[2])
