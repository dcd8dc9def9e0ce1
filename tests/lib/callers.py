"""The caller that opens the page of each crate's contracts: a source of another crate, or some items of it. An item of a test is
found by its name, in whichever crate of tests it stands."""
import glob
import os
import re

from . import text_of

ITEM = r"(?:^(?:///|//|#\[).*\n)*^(?:pub )?(?:extern \"C\" )?(?:fn|struct|type) {name}\b"
FOUND = " It has no proof file: the check finds the proof."
FACADE = "der_asn1_types"
TESTS = "crates/*_tests/src/**/*.rt"
EXAMPLES = "crates/der_examples/src"
# Each crate's callers: a source, and the items of it that are quoted (all of it where none is named).
CALLERS = {
    "certview_parts": [("crates/certview_text/src/request.rt", "")],
    "certview_text": [("crates/certview/src/main.rt", "")],
    "der_additions": [(TESTS, "a_value_is_made_with_elements")],
    "der_ascii": [(f"{EXAMPLES}/texts.rt", "")],
    "der_asn1_types": [(f"{EXAMPLES}/comparing.rt", "")],
    "der_bits": [(f"{EXAMPLES}/bits.rt", "")],
    "der_build": [(TESTS, "name_again name_of"), (TESTS, "rsa_of")],
    "der_c": [("c/examples/certificate.c", "")],
    "der_constrained": [(TESTS, "Even even_again constrained_values_are_made")],
    "der_elem": [(f"{EXAMPLES}/writing.rt", "")],
    "der_fields": [(f"{EXAMPLES}/field_list.rt", "")],
    "der_lines": [("crates/derview/src/main.rt", "")],
    "der_lists": [("crates/der_verify/src/extensions.rt", "find_extension")],
    "der_modules": [(f"{EXAMPLES}/building.rt", "SelfSigned self_signed")],
    "der_nest": [(f"{EXAMPLES}/sets.rt", "")],
    "der_numbers": [(f"{EXAMPLES}/reading.rt", "")],
    "der_opaque": [(f"{EXAMPLES}/anys.rt", "")],
    "der_path": [(TESTS, "domains_are_placed")],
    "der_places": [("crates/der_c/src/certificate.rt", "certificate_at")],
    "der_recursive": [("crates/layer_tests/src/tree.rt", "")],
    "der_simple": [(TESTS, "digits shown_digits encoded_arcs")],
    "der_text": [(f"{EXAMPLES}/texts.rt", "")],
    "der_time": [(f"{EXAMPLES}/times.rt", "")],
    "der_tlv": [(f"{EXAMPLES}/headers.rt", "")],
    "der_verify": [(TESTS, "signed_of_certificate"), (TESTS, "extension_told"), (TESTS, "validity_told")],
    "der_wrap": [(f"{EXAMPLES}/tagged.rt", "")],
}
# A crate of which each file is a caller.
OF_CALLERS = "der_examples"


def item_of(text, name):
    """An item of a source with the lines above it that belong to it, up to its end; nothing where there is none."""
    begin = re.search(ITEM.format(name=name), text, re.M)
    if not begin:
        return ""
    end = re.compile(r"^\}\n|;\n(?=\n)", re.M).search(text, begin.end())
    return text[begin.start() : end.end()]


def uses(text, crate):
    """Whether a source imports a crate, or the facade where that hands the crate on; or includes its header."""
    handed_on = re.search(rf"^{FACADE}: (.*)$", text_of("crates.txt"), re.M)[1].split()
    names = f"{crate}|{FACADE}" if crate in handed_on else crate
    is_included = crate == "der_c" and '#include <barleypulley/der.h>' in text
    return is_included or bool(re.search(rf"^use ({names})\b", text, re.M))


def quoted(crate, source, names):
    """The path of a caller and what is quoted of it; none where no such source uses the crate and has all of the items."""
    for path in sorted(glob.glob(source, recursive=True)):
        text = text_of(path)
        items = [item_of(text, name) for name in names.split()]
        if all(items) and uses(text, crate):
            return path, "\n".join(items) or text
    return None


def wrong(crate):
    """What is wrong with the callers of a crate."""
    if crate == OF_CALLERS:
        return []
    if crate not in CALLERS:
        return [f"{crate} has no caller in tests/lib/callers.py"]
    return [f"a caller of {crate} is not there, or does not use it: {' '.join(it)}" for it in CALLERS[crate] if not quoted(crate, *it)]


def heading(crate, path):
    """Where a caller stands, and what shows that it is right."""
    if path.endswith(".c"):
        return f"From `{path}`, which `make -C c` builds."
    if re.match(r"crates/\w+_tests/", path):
        return f"From `{path}`, a file of tests."
    proof = "" if os.path.exists(path.replace("/src/", "/proofs/")[:-3]) else FOUND
    on = crate if re.search(rf"^use {crate}\b", text_of(path), re.M) else FACADE
    return f"From `{path}`, which stands on `{on}`.{proof}"


def section(crate):
    """The part of a page that shows the callers."""
    if crate == OF_CALLERS:
        return "Each file of `src/` is a caller: a task of a user, with its contract.\n\n"
    text = "## A caller\n\n"
    for path, code in filter(None, (quoted(crate, *it) for it in CALLERS.get(crate, []))):
        text += f"{heading(crate, path)}\n\n```{'c' if path.endswith('.c') else 'rust'}\n{code}```\n\n"
    return text
