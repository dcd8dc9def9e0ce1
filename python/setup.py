"""Builds the module in C over the proved library: over the archive in the folder that DER_C_LIB names, with the header in the
folder that DER_C_INCLUDE names; else over what `make` writes in c/ of the repository; else over the installed library, which
pkg-config knows as barleypulley."""

import os
import subprocess
from pathlib import Path

from setuptools import Extension, setup

REPOSITORY = Path(__file__).resolve().parent.parent


def installed(name, usual):
    """A folder of the installed library, by pkg-config; else the usual one (an sdist needs no library)."""
    said = subprocess.run(f"pkg-config --variable={name} barleypulley", shell=True, capture_output=True, text=True)
    return Path(said.stdout.strip() or usual)


def folders():
    """The folder of the archive, and that of the header."""
    named, header = os.environ.get("DER_C_LIB"), os.environ.get("DER_C_INCLUDE")
    built = REPOSITORY / "c" / "build"
    if named or (built / "libder_c.a").is_file():
        return Path(named or built), Path(header or REPOSITORY / "c" / "include")
    return installed("libdir", "/usr/local/lib"), Path(header or installed("includedir", "/usr/local/include"))


LIBRARY, HEADER = folders()

setup(
    ext_modules=[
        Extension(
            "derproved._der",
            [f"src/derproved/{name}.c" for name in ("_der", "field", "items", "message", "octets", "path", "status", "writing")],
            depends=["src/derproved/classes.h"],
            include_dirs=[str(HEADER)],
            extra_objects=[str(LIBRARY / "libder_c.a")],
            define_macros=[("Py_LIMITED_API", "0x030b0000")],
            extra_compile_args=["-std=c11", "-Wall", "-Wextra", "-fvisibility=hidden"],
            py_limited_api=True,
        )
    ],
    options={"bdist_wheel": {"py_limited_api": "cp311"}},
)
