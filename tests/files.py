#!/usr/bin/env python3
"""Reads two thousand files by certview, and compares each field with what an independent reader finds in the octets, and with
what openssl says of the file.

    python3 tests/files.py [--few] [--built TREE] [--only STEM] [--keep FOLDER] [--spoilt]

openssl makes the files (`lib/maker/`), of all kinds that certview shows; those of /etc/ssl/certs are among them. `reader/` takes
nothing from the crates: it reads the octets by the text of the standards, and says the place, the name and the value of each
field. A document of certview is to have exactly these, and to be of its schema where python3 has the module jsonschema; text and
document of a file have the same fields. `openssl_says/` compares with what openssl prints of the files. With --few these are
one file or a few of each kind (`maker/few.py`) and no others; every run has them, but for one with --only. With --spoilt, files
that are cut short, or of which one octet is changed, are read or refused as the reader says.

TREE is a copy of the repository in which `rt ci` has built certview. Without it, or where the program is not there, certview is built
by `rt try`, or is the program that CERTVIEW names. The last line counts files and fields. Where there is no openssl nothing is
compared, and the script says so."""

import argparse
import collections
import concurrent.futures
import contextlib
import glob
import io
import json
import os
import shutil
import subprocess
import sys
import tempfile

sys.dont_write_bytecode = True
from lib import documents, planted, programs
from lib.maker import everything, few, spoilt
from lib.maker.workshop import AT_ONCE, Workshop
from lib.openssl_says import few as said_of_few
from lib.openssl_says import said_by
from lib.reader import items, kinds, pem
from lib.reader.identifiers import IRREGULAR
from lib.reader.octets import Refused

# Few enough that the program which `rt try` builds asks for memory less often than the request that it is refused.
FILES_AT_ONCE = 20
TOLD = 30
STORE = "/etc/ssl/certs"
BLOCKS_AT_ONCE = 20
END = "-----END CERTIFICATE-----"
LEAST, LEAST_FEW = 2034, 34
wrong = []
counts = collections.Counter()
fields = collections.Counter()
said = collections.Counter()
answers = collections.Counter()


def fail(text):
    wrong.append(text)
    if len(wrong) <= TOLD:
        print(f"files: {text[:1200]}", flush=True)


def document_of(program, files):
    """The document of files: a status of 1 where one is refused or has a part that is malformed, and else 0."""
    ran = subprocess.run([program, "--json", *files], capture_output=True, timeout=300)
    if ran.returncode not in (0, 1) or not ran.stdout:
        raise RuntimeError(f"certview ended with {ran.returncode}: {ran.stderr[-500:]!r}, of {files[:3]} and others")
    document = json.loads(ran.stdout)
    parts = [*document["inputs"], *(message for it in document["inputs"] for message in it["messages"])]
    is_wrong = any("refused" in it or any("malformed" in field for field in it.get("fields", ())) for it in parts)
    if ran.returncode != is_wrong:
        fail(f"certview ended with {ran.returncode}, and not with {int(is_wrong)}, of {files[0]} and others")
    return document


MALFORMED = documents.MALFORMED


def shown(message):
    """The fields of a message of a document, as the reader says them."""
    return [(it["offset"], it["length"], it["name"], MALFORMED.sub("<malformed>", it["value"])) for it in message["fields"]]


def is_wrong_part(row):
    """Whether a part cannot be read, or is shown and is none of its type."""
    return "<malformed>" in row[3] or IRREGULAR in row[3]


def compare_extensions(what, octets, field):
    """The extensions that a field has as items; of a value that cannot be read, its identifier and whether it is critical."""
    wanted, found = items.extensions_of(field["name"], octets, field["offset"]), field.get("extensions", [])
    unread = [it["extnValue"] is None for it in wanted] + [False] * len(found)
    wanted = [{**it, "extnValue": {}} if it["extnValue"] is None else it for it in wanted]
    found = [{**it, "extnValue": {}} if is_unread else it for it, is_unread in zip(found, unread)]
    answers["items"] += len(found)
    if wanted != found:
        fail(f"{what}, {field['name']} at {field['offset']}: certview has {found}, the reader {wanted}")


def compare_rows(what, octets, rows, message):
    """Each field of a message: its place, its name, its value and its extensions."""
    found = shown(message)
    for at, (row, field) in enumerate(zip(rows, found)):
        fields[message["kind"]] += 1
        is_wrong, row = is_wrong_part(row), (*row[:3], row[3].replace(IRREGULAR, ""))
        if row != field:
            return fail(f"{what}, field {at}: certview has {field}, the reader {row}")
        if is_wrong != bool(message["fields"][at].get("malformed")):
            return fail(f"{what}, field {at}: {message['fields'][at]}")
        compare_extensions(what, octets, message["fields"][at])
    if len(rows) != len(found):
        longer = rows if len(rows) > len(found) else found
        fail(f"{what}: {len(found)} fields and not {len(rows)}, the first of the others is {longer[min(len(rows), len(found))]}")


def compare_message(what, kind, octets, message, refused):
    """A message of a document with what the reader finds; answers whether both read it."""
    try:
        rows = kinds.rows_of(kind, octets)
    except Refused as error:
        if not refused:
            fail(f"{what}: certview reads it, and the reader refuses it: {error}")
        return False
    if refused:
        fail(f"{what}: certview refuses it, and the reader does not: {refused}")
        return False
    if (message["kind"], message["offset"], message["length"]) != (kind, 0, len(octets)):
        fail(f"{what}: certview has {message['kind']} of {message['length']} octets, and not {kind} of {len(octets)}")
        return False
    compare_rows(what, octets, rows, message)
    return True


# A part that certview shows as malformed, and the standard's reason.
MALFORMED_ALWAYS = (
    ("(subjectAltName), 2 octets, <malformed>", "RFC 5280 section 4.2.1.6: one name or more; openssl writes none of email:copy"),
    ("(subjectAltName), critical, 2 octets, <malformed>", "the same"),
)


def is_malformed(message):
    """Whether a part is malformed that openssl was not told to write so."""
    values = [row[3] for row, it in zip(shown(message), message["fields"]) if "malformed" in it]
    return any(not any(value.endswith(it) for it, _ in MALFORMED_ALWAYS) for value in values)


def compare_made(made, document, counted=True):
    """A file with one message; one that is refused has its reason."""
    what = f"{os.path.basename(made.path)} ({made.about})"
    with open(made.path, "rb") as file:
        held = pem.blocks(file.read())
    if len(held) != 1:
        return fail(f"{what}: the reader finds {len(held)} blocks")
    messages, refused = document["messages"], document.get("refused")
    if refused is None and len(messages) != 1:
        return fail(f"{what}: certview finds {len(messages)} messages")
    message = messages[0] if messages else None
    both = compare_message(what, made.taken_for or made.kind, held[0][1], message, refused)
    if both == bool(made.refused):
        fail(f"{what}: it is {'read' if both else 'refused'}, and that is not expected: {made.refused or refused}")
    if both and is_malformed(message) != bool(made.malformed):
        fail(f"{what}: that a part is malformed, or that none is, is not expected: {made.malformed}")
    counts[made.kind] += counted
    return both


def compare_with_openssl(read):
    """What openssl says of the files that were read."""
    def ask(item):
        made, message = item
        return made, said_by.compare(made.path, message, made.kind)

    with concurrent.futures.ThreadPoolExecutor(AT_ONCE) as pool:
        for made, compared in pool.map(ask, read):
            said[made.kind] += compared.count
            for words in compared.wrong:
                fail(f"{os.path.basename(made.path)} ({made.about}), beside openssl: {words}")


def each_document(program, files, at_once=FILES_AT_ONCE):
    """The document of each file, in the order of the files."""
    groups = [files[at : at + at_once] for at in range(0, len(files), at_once)]
    with concurrent.futures.ThreadPoolExecutor(AT_ONCE) as pool:
        for document in pool.map(lambda group: document_of(program, group), groups):
            if validator:
                validator.validate(document)
            yield from document["inputs"]


validator = None
refuses_memory = False


def left_in(program, made):
    """The files that are compared: a program that refuses memory cannot show the large ones."""
    global refuses_memory
    large = [it.path for it in made if it.large]
    ran = subprocess.run([program, "--json", *large], capture_output=True, timeout=300) if large else None
    refuses_memory = ran is not None and ran.returncode == 2
    if refuses_memory:
        print(f"files: left out, {len(large)} large files: the program refuses memory ({ran.stderr.decode().strip()[:200]})")
    return [it for it in made if not (it.large and refuses_memory)]


def finds(compare):
    """Whether a comparison says that something is wrong, which is not told and not counted."""
    global wrong, fields
    kept = wrong, fields
    wrong, fields = [], collections.Counter()
    with contextlib.redirect_stdout(io.StringIO()):
        compare()
    found = bool(wrong)
    wrong, fields = kept
    return found


def try_wrong_documents(read):
    """Wrong documents of a file of each kind, of ten fields or nearly so, are found, by the reader and by openssl."""
    firsts = {}
    for made, document in sorted(read, key=lambda it: abs(len(it[1]["messages"][0]["fields"]) - 10)):
        if not made.unasked and not any("malformed" in it for it in document["messages"][0]["fields"]):
            firsts.setdefault(made.kind, (made, document))
    for made, document in firsts.values():
        for what, other in planted.wrong_documents(document):
            answers["planted"] += 1
            if not finds(lambda: compare_made(made, other, counted=False)):
                fail(f"{os.path.basename(made.path)}: nobody finds that {what}")
    if "certificate" not in firsts:
        return
    made, document = firsts["certificate"]
    for one, two in (("issuer", "serial number"), ("not before", "not after"), ("subject", "signature"), ("key", "version")):
        answers["planted"] += 1
        other = planted.exchanged(document, one, two)
        if not said_by.compare(made.path, other["messages"][0], made.kind).wrong:
            fail(f"openssl does not find that {one} and {two} are exchanged")


def compare_texts(program, read):
    """The text of a file has what its document has."""
    def ask(item):
        made, document = item
        ran = subprocess.run([program, made.path], capture_output=True, timeout=120)
        return made, document, documents.input_of(made.path, ran.stdout.decode(), ran.stderr.decode())

    with concurrent.futures.ThreadPoolExecutor(AT_ONCE) as pool:
        for made, document, wanted in pool.map(ask, read):
            answers["text"] += 1
            if documents.as_told(document) != wanted:
                fail(f"{os.path.basename(made.path)}: the document and the text differ: {document} and {wanted}")


def answer_of(kind, octets):
    """Whether the reader refuses octets (1), reads a part as malformed (1) or all (0); and the rows."""
    try:
        rows = kinds.rows_of(kind, octets)
    except Refused:
        return "refused", []
    return "malformed" if any(map(is_wrong_part, rows)) else "read", rows


def compare_spoilt(program, shop):
    """Spoilt files: certview refuses, or reads, what the reader does."""
    found = list(spoilt.files(shop))
    for (path, kind, octets, about), document in zip(found, each_document(program, [it[0] for it in found])):
        counts["spoilt"] += 1
        messages = document["messages"]
        if document.get("refused"):
            certview, kind_found = "refused", kind
        else:
            certview = "malformed" if any("malformed" in it for it in messages[0]["fields"]) else "read"
            kind_found = messages[0]["kind"]
        answer, rows = answer_of(kind_found, octets)
        answers[answer] += 1
        if certview != answer:
            fail(f"{os.path.basename(path)}, {about}: certview: {certview} as {kind_found} ({document.get('refused')}), the reader: {answer}")
        elif answer == "read":
            compare_rows(f"{os.path.basename(path)}, {about}", octets, rows, messages[0])


def store_files(folder):
    """The system's certificates, each alone and the bundle of all, which is taken in pieces where memory is refused."""
    files = sorted({os.path.realpath(it) for it in glob.glob(f"{STORE}/*.pem") + glob.glob(f"{STORE}/*.crt")})
    if not files:
        print(f"files: left out, the system's certificates: there are none in {STORE}")
    for file in files:
        with open(file, "rb") as opened:
            blocks = [f"{it}{END}\n".encode() for it in opened.read().decode().split(END)[:-1]]
        if len(blocks) <= BLOCKS_AT_ONCE or not refuses_memory:
            yield file
            continue
        for at in range(0, len(blocks), BLOCKS_AT_ONCE):
            with open(f"{folder}/bundle-{at}.pem", "wb") as piece:
                piece.write(b"".join(blocks[at : at + BLOCKS_AT_ONCE]))
            yield f"{folder}/bundle-{at}.pem"


def compare_store(program, folder):
    """What is in these files, block by block."""
    files = list(store_files(folder))
    for file, document in zip(files, each_document(program, files, at_once=1)):
        with open(file, "rb") as opened:
            held = pem.blocks(opened.read())
        messages = document["messages"]
        if len(messages) != len(held) or document.get("refused"):
            fail(f"{file}: certview finds {len(messages)} messages, the reader {len(held)}, {document.get('refused')}")
            continue
        for number, ((label, octets), message) in enumerate(zip(held, messages), 1):
            what = f"{file}, block {number}"
            if len(held) > 1 and message.get("block") != {"number": number, "count": len(held), "label": label}:
                fail(f"{what}: certview has the block {message.get('block')}")
            compare_message(what, "certificate", octets, message, message.get("refused"))
            counts["certificate of the system"] += 1


def compare_few(program, folder):
    """One file or a few of each kind, which are compared in all ways."""
    os.makedirs(folder, exist_ok=True)
    shop = Workshop(folder)
    few.make(shop)
    made = few.listed(shop, few.KINDS)
    found = list(each_document(program, [it.path for it in made]))
    read = [(it, document) for it, document in zip(made, found) if compare_made(it, document)]
    compare_with_openssl([(it, document["messages"][0]) for it, document in read])
    unread = few.listed(shop, few.UNREAD)
    for it, document in zip(unread, each_document(program, [it.path for it in unread])):
        counts[it.kind] += 1
        if "refused" in document or len(document["messages"]) != 1 or is_malformed(document["messages"][0]):
            fail(f"{os.path.basename(it.path)}: certview does not read it: {document}")
        else:
            read.append((it, document))
    compare_texts(program, read)
    compared = said_of_few.compare(folder, {os.path.basename(it.path): document["messages"][0] for it, document in read})
    said["few"] += compared.count
    for words in compared.wrong:
        fail(f"beside openssl: {words}")


def compare_many(program, shop, words):
    """All files of the workshop, and those of the system."""
    everything.make(shop)
    made = [it for it in shop.made if os.path.basename(it.path).startswith(words.only)]
    made = left_in(program, made)
    read = []
    for it, document in zip(made, each_document(program, [it.path for it in made])):
        if compare_made(it, document):
            read.append((it, document))
    try_wrong_documents(read)
    compare_with_openssl([(it, document["messages"][0]) for it, document in read if not it.unasked])
    compare_texts(program, read[::10])
    if words.spoilt:
        compare_spoilt(program, shop)
    if not words.only:
        compare_store(program, shop.folder)


def tell_counts(words):
    """The last line."""
    told = ", ".join(f"{count} {kind}" for kind, count in sorted(counts.items()))
    least = LEAST_FEW if words.few else LEAST
    if not words.only and sum(counts.values()) < least:
        fail(f"there are {sum(counts.values())} files, and not {least}")
    texts, faults, extensions = (answers.pop(it, 0) for it in ("text", "planted", "items"))
    if words.spoilt:
        told += "; of the spoilt ones " + ", ".join(f"{count} {answer}" for answer, count in sorted(answers.items()))
    print(f"files: {sum(counts.values())} files ({told}); {sum(fields.values())} fields compared, {extensions} extensions among them, "
          f"{sum(said.values())} beside what openssl says, {texts} texts beside their documents; "
          f"{faults} wrong documents found; {len(wrong)} wrong")


def words_of_run():
    words = argparse.ArgumentParser()
    words.add_argument("--built", help="a tree in which certview is built", default="")
    words.add_argument("--few", action="store_true", help="one file or a few of each kind, and no others")
    words.add_argument("--only", help="the stem of the files that are compared", default="")
    words.add_argument("--keep", help="a folder in which the files stay")
    words.add_argument("--spoilt", action="store_true", help="spoilt files too, whose octets are others in each run, as the keys are")
    return words.parse_args()


def main():
    global validator
    words = words_of_run()
    if not shutil.which("openssl"):
        print("files: there is no openssl: nothing was compared")
        return 0
    with tempfile.TemporaryDirectory(prefix="der-files-") as folder:
        built = f"{words.built}/crates/certview/out/certview"
        program = built if os.path.isfile(built) else programs.built_by_try("certview", folder, refuses=False)
        validator = documents.validator()
        if words.keep:
            os.makedirs(words.keep, exist_ok=True)
        if not words.only:
            compare_few(program, f"{words.keep or folder}/few")
        if not words.few:
            compare_many(program, Workshop(words.keep or folder), words)
    tell_counts(words)
    return 1 if wrong else 0


if __name__ == "__main__":
    sys.exit(main())
