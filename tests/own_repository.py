#!/usr/bin/env python3
"""Walks the steps of docs/USING.md for a repository of one's own, in an empty folder, but for the checks that prove. The tests
of the last step read more values, which openssl writes, and spoilt ones (address_rows.py). Then it looks at what tools/vendor
does with a crate, and with modules, that were changed, that it did not copy, and that nothing stands on any more.

    python3 tests/own_repository.py

The last line counts."""
import os
import re
import shutil
import subprocess
import sys
import tempfile

sys.dont_write_bytecode = True
from lib import ROOT, address_rows, text_of
from lib.trials import Trials, walked

SECTION = "## In a repository of your own\n"
trials = Trials("own_repository")
holds = trials.holds


def steps():
    """The lines of the section's blocks, without those that prove: those before the last run, and that one."""
    section = text_of("docs/USING.md").split(SECTION, 1)[1]
    blocks = re.findall(r"^```sh\n(.*?)^```$", section, re.S | re.M)
    return re.sub(r"^rt check$", "", "".join(blocks), flags=re.M).rpartition("rt try --test\n")[:2]


def add_rows(crate):
    """More tests for the crate of the last step, where openssl is there to write the values."""
    if not address_rows.has_openssl():
        print("own_repository: left out, values of RFC 3779 that openssl writes: it is not there")
        return
    with open(f"{crate}/src/rows.rt", "w", encoding="utf-8") as it:
        it.write(address_rows.tests())
    with open(f"{crate}/src/lib.rt", "a", encoding="utf-8") as it:
        it.write("#[cfg(test)]\nmod rows;\n")


def vendor(folder, *names):
    """The status of tools/vendor, and what it says."""
    ran = subprocess.run([f"{ROOT}/tools/vendor", folder, *names], stdout=subprocess.PIPE, stderr=subprocess.STDOUT, text=True)
    return ran.returncode, ran.stdout


def add_to(path, text):
    with open(path, "a", encoding="utf-8") as it:
        it.write(text)


def look_at_lists(folder):
    """What a later run of tools/vendor leaves of one's own, and what it removes."""
    listed = f"{folder}/asn1/modules.txt"
    holds("the modules of what was copied are given", text_of(listed).startswith("der_pkix given: name=vendored/name.asn1 "))
    add_to(f"{folder}/crates.txt", "# one\n# two\n")
    add_to(listed, "# three\n# four\n")
    status, said = vendor(folder, "der_pkix")
    holds("a second run says what it has copied", status == 0 and "vendored: modules of ASN.1: 4, with their lines in asn1/" in said)
    own = "my_reader: der_asn1_types der_pkix\nmy_addresses: "
    holds("the lines of one's own stand last", own in text_of(f"{folder}/crates.txt") and text_of(f"{folder}/crates.txt").endswith("# one\n# two\n"))
    lines = text_of(listed).splitlines()
    holds("modules of one's own stay", lines[1:] == ["my_addresses: addresses=addresses.asn1", "# three", "# four"])
    holds("a crate that nothing stands on is removed", not os.path.exists(f"{folder}/crates/der_asn1_types"))
    holds("modules of such a crate are removed", not os.path.exists(f"{folder}/asn1/vendored/PKIX1Explicit88.asn1"))
    holds("the crate of one's own stays", os.path.isdir(f"{folder}/crates/my_reader"))


def look_at_refusals(folder):
    """What tools/vendor refuses, by its name."""
    add_to(f"{folder}/asn1/vendored/name.asn1", "-- changed\n")
    status, said = vendor(folder, "der_tlv")
    holds("modules that were changed are refused", status == 1 and "asn1/vendored was changed" in said)
    shutil.rmtree(f"{folder}/asn1/vendored")
    holds("modules that were removed are put back", vendor(folder, "der_pkix")[0] == 0 and os.path.exists(f"{folder}/asn1/vendored/name.asn1"))
    add_to(f"{folder}/crates/der_tlv/src/lib.rt", "// changed\n")
    status, said = vendor(folder, "der_tlv")
    holds("a crate that was changed is refused by its name", status == 1 and "der_tlv was changed" in said)
    holds("nothing is written then", os.path.isdir(f"{folder}/crates/der_pkix"))
    shutil.rmtree(f"{folder}/crates/der_tlv")
    holds("a crate that was removed is put back", vendor(folder, "der_tlv")[0] == 0)
    holds("modules that nothing stands on are removed", not os.path.exists(f"{folder}/asn1/vendored"))
    os.makedirs(f"{folder}/crates/der_elem")
    status, said = vendor(folder, "der_elem")
    holds("a crate that was not copied is refused by its name", status == 1 and "der_elem is there" in said)
    holds("a crate that is not known is refused", vendor(folder, "der_x") == (1, "tools/vendor: der_x is no crate of crates.txt\n"))


def main():
    with tempfile.TemporaryDirectory(prefix="der-own-") as folder:
        before, last = steps()
        holds("the steps of docs/USING.md run, and the test of the first crate passes", walked(folder, before)[0])
        tests = f"{folder}/my_repository/crates/my_addresses_tests"
        add_rows(tests)
        holds("the tests of the last step pass", walked(tests, last)[0])
        look_at_lists(f"{folder}/my_repository")
        look_at_refusals(f"{folder}/my_repository")
    return trials.end()


if __name__ == "__main__":
    sys.exit(main())
