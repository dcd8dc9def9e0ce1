#!/usr/bin/env python3
"""Compares what tools/asn1 writes of the modules of some protocols with Erlang's compiler of ASN.1 (Debian's erlang-asn1), which reads
the same texts: values that the peer makes and encodes, and spoilt ones, are read by both, and written again. Nothing is proved.

    python3 tests/peers.py [FOLDER..] [--only PROTOCOL] [--seed N] [--values 3]

The modules are those of tools/asn1/tests/modules, and of the folders. A value that is read here and by the peer otherwise breaks a
clause of X.690 or X.680, which peer_clauses.py finds; one that breaks none fails, and so does one that is written otherwise than it
was read. It says what it leaves out: all where Erlang is not there, and a protocol whose modules are not there, or are not taken by
both. The last lines count differences by their clauses, and protocols, types, values and mutants."""
import argparse
import random
import re
import shutil
import sys
import tempfile
from collections import Counter
from dataclasses import dataclass, field
from pathlib import Path

sys.dont_write_bytecode = True
ROOT = Path(__file__).resolve().parent.parent
sys.path.insert(0, f"{ROOT}/tools")
from lib import peer_clauses, peer_mutants  # noqa: E402
from asn1.command import MOST_CALLS  # noqa: E402
from asn1.crates import Entry  # noqa: E402
from asn1.errors import AsnError  # noqa: E402
from asn1.files import read  # noqa: E402
from asn1.model import Use  # noqa: E402
from asn1.reading import text_of_file  # noqa: E402
from asn1.resolver import resolve  # noqa: E402
from asn1.spelling import snake  # noqa: E402
from asn1.syntax import TypeAssignment  # noqa: E402
from asn1.tests.lots import Lot  # noqa: E402
from asn1.tests.trial import Crate, Repository, run, rust_of  # noqa: E402

CRATE = "peers"
PROGRAM = "peer_lines"
OWN = ROOT / "tools/asn1/tests/modules"
DRIVER = ROOT / "tests/lib/peers/peer.escript"
ANSWER = re.compile(r"same|other [0-9a-f]*|(?:refused|not written) [0-9]+|no .*")  # 'rt try' says more, after the program's end
SECONDS = 3600  # of a processor, for each process of a build or of the peer
# A protocol, its module, and what is changed in the texts that both read, each with its reason.
UNREAD = [
    (r"(filter +Filter,)", r"\1 -- @unread", "a Filter reaches itself"),
    (r"(Filter ::= CHOICE \{[^}]*\})", r"\1 -- @omit", "a Filter reaches itself"),
]
NAMELESS = (r"(name ObjectName,\s*)CHOICE", r"\1data CHOICE", "a component has no name, as X.208 allows and X.680 does not")
RESTRICTED = (r"GeneralString \(IA5String\)", "GeneralString", "the peer ends with an error of its own")
PROTOCOLS = [
    ("Kerberos", "KerberosV5Spec2", [RESTRICTED]),
    ("SNMP", "SNMPv2-PDU", [NAMELESS]),
    ("certificates", "PKIX1Explicit88", []),
    ("extensions", "PKIX1Implicit88", []),
    ("time stamps", "PKIXTSP", []),
    ("OCSP", "OCSP-2013-88", []),
    ("CMS", "CryptographicMessageSyntax2004", []),
    ("attribute certificates", "PKIXAttributeCertificate", []),
    ("RFC 3779", "IPAddrAndASCertExtn", []),
    ("parameters of algorithms", "PKIX1Algorithms88", []),
    ("LDAP", "ELDAPv3", UNREAD),
    ("H.248", "MEDIA-GATEWAY-CONTROL-v1", []),
    ("CRMF", "PKIXCRMF-2005", []),
    ("PKCS 8", "PKCS-8", []),
    ("SPNEGO", "Spnego", []),
    ("CredSSP", "CredSSP", []),
    ("T.125", "MCS-PROTOCOL", []),
    ("SMRSE", "SMRS", []),
    ("compressed data", "CompressedDataType", []),
]


@dataclass
class Protocol:
    """A protocol: its module, with those that it imports from, the types that are compared, and what came of it."""

    name: str
    module: str
    modules: list = field(default_factory=list)
    is_unread: bool = False  # a text has the annotation
    types: dict = field(default_factory=dict)
    values: int = 0
    mutants: int = 0
    kinds: Counter = field(default_factory=Counter)


def left_out(name, why):
    print(f"peers: left out, {name}: {' '.join(str(why).split())[:300]}", flush=True)


# ---- the modules


def put_texts(lot, folder, name, module, changes):
    """Writes the texts of a module and of those that it imports from as both read them; their names, or None where one is not there."""
    path = next((names[module][0] for names in lot.by_source if module in names), None)
    if path is None:
        left_out(name, f"no folder has the module {module}")
        return None
    found = []
    for file in lot.closure(path):
        modules = lot.modules_of(file)
        if len(modules) > 1:
            left_out(name, f"{file.name} has several modules")
            return None
        text = text_of_file(file)
        for old, new, _ in changes if file == path else ():
            text = re.sub(old, new, text)
        target = folder / f"{modules[0].name}.asn1"
        if not target.exists():
            target.write_text(text, encoding="utf-8")
        found.append(modules[0].name)
    return found


def taken_here(folder, names):
    """The modules as the compiler resolves them, each with its syntax tree."""
    listed = [Entry(CRATE, snake(name), folder / f"{name}.asn1") for name in names]
    modules, _ = read(listed)
    return list(zip(modules, resolve(modules)[0]))


def named_types(tree, resolved):
    """The types that a module assigns, by their names in ASN.1."""
    names = {one.name for one in tree.assignments if isinstance(one, TypeAssignment) and not one.parameters}
    return {one.name: one for one in resolved.definitions if one.name in names and one.text}


def protocols_of(options, folder):
    """The protocols whose modules are there, and are taken here."""
    lot = Lot([OWN, *(Path(it).resolve() for it in options.folders)])
    for name, module, changes in PROTOCOLS:
        if options.only and name not in options.only:
            continue
        try:
            names = put_texts(lot, folder, name, module, changes)
            if names is not None:
                taken_here(folder, names)
                texts = [(folder / f"{it}.asn1").read_text(encoding="utf-8") for it in names]
                yield Protocol(name, module, names, any("@unread" in text for text in texts))
        except AsnError as error:
            left_out(name, error)


# ---- the peer, and the program


def peer(folder, lines):
    """The peer's answers to lines."""
    ran = run(["escript", str(DRIVER), str(folder)], folder, SECONDS, "".join(f"{line}\n" for line in lines))
    found = [line[2:].strip() for line in ran.said.splitlines() if line.startswith("= ")]
    if len(found) != len(lines):
        raise SystemExit(f"peers: the peer has answered {len(found)} of {len(lines)} lines: {ran.said[-500:]}")
    return found


def taken_by_the_peer(folder, protocols):
    """The protocols of which the peer takes all modules; those that are imported from are compiled first."""
    order = list(dict.fromkeys(name for one in protocols for name in reversed(one.modules)))
    answers = dict(zip(order, peer(folder, [f"compile {name}" for name in order])))
    found = []
    for one in protocols:
        refused = [name for name in one.modules if answers[name] != "ok"]
        if refused:
            left_out(one.name, f"the peer does not take {refused[0]}: {answers[refused[0]]}")
        else:
            found.append(one)
    return found


def program_of(repository, folder, protocols):
    """The program that reads the types of all protocols."""
    names = list(dict.fromkeys(name for one in protocols for name in one.modules))
    by_name = {tree.name: named_types(tree, found) for tree, found in taken_here(folder, names)}
    for one in protocols:
        one.types = by_name[one.module]
    paths = {(one.module, name): f"{CRATE}::{snake(one.module)}::{it.rust}" for one in protocols for name, it in one.types.items()}
    types = tuple((f"{key[0]}.{key[1]}", rust_of(one.types[key[1]], paths[key])) for one in protocols for key in paths if key[0] == one.module)
    crate = Crate(CRATE, tuple((snake(name), folder / f"{name}.asn1") for name in names), types)
    ran = repository.write_crate(crate, SECONDS)
    if ran.status:
        raise SystemExit(f"peers: the crate is not written: {ran.said[-2000:]}")
    return repository.write_program(PROGRAM, [crate])


def ours(program, rows):
    """The program's answers to rows of a protocol, a type and octets."""
    lines = "".join(f"{CRATE} {one.module}.{name} {octets.hex()}\n" for one, name, octets in rows)
    ran = run(["rt", "try"], program, SECONDS, lines)
    found = [line.strip() for line in ran.said.splitlines() if ANSWER.fullmatch(line.strip())]
    if ran.status or len(found) != len(rows):
        raise SystemExit(f"peers: the program has ended with {ran.status}, and answered {len(found)} of {len(rows)}: {ran.said[-2000:]}")
    return found


def theirs(folder, rows):
    return peer(folder, [f"read {one.module} {name} {octets.hex()}" for one, name, octets in rows])


def rows_of(folder, protocols, options):
    """The peer's values, and mutants of each."""
    asked = [(one, name) for one in protocols for name in one.types]
    said = peer(folder, [f"values {one.module} {name} {options.values} {options.seed}" for one, name in asked])
    values, mutants = [], []
    for (one, name), digits in zip(asked, said):
        for octets in map(bytes.fromhex, digits.split()):
            lot = random.Random(f"{options.seed} {one.module} {name} {octets.hex()}")
            values.append((one, name, octets))
            spoilt = peer_mutants.mutants(octets, lot)
            mutants += [(one, name, it) for it in spoilt]
            one.values, one.mutants = one.values + 1, one.mutants + len(spoilt)
    return values, mutants


# ---- the comparison


def has_remarks(definition, seen):
    """Whether a constraint of a type, or of those within it, is said not to be checked."""
    if id(definition) in seen:
        return False
    seen.add(id(definition))
    return any("is not checked" in it for it in definition.remarks) or any(has_remarks(it, seen) for it in peer_clauses.within(definition))


def explained(protocol, definition, octets, here, there):
    """The kind of the answers, and the clause that explains a difference, where there is one."""
    clause = peer_clauses.broken(Use(definition), octets)
    if here == "same" and clause is None:
        if there == "same":
            return "taken by both", None
        clause = why_taken(protocol, definition, octets, there)
        return ("taken here alone", clause) if clause else ("unexplained", None)
    if not here.startswith("refused"):
        return "unexplained", clause
    if there.startswith("refused"):
        return "refused by both", None
    if clause is None and there.startswith("other") and len(there) - len("other ") < 2 * len(octets):
        clause = "X.690 11.5: a default is encoded, which the peer leaves out"
    return ("refused here alone", clause) if clause else ("unexplained", None)


def why_taken(protocol, definition, octets, there):
    """Why octets that break no clause are taken, which the peer refuses or writes otherwise."""
    if peer_clauses.has_no_arcs(Use(definition), octets):
        return "X.690 8.19.2: octets of an identifier that are no arcs, which are kept"
    if not peer_clauses.is_well_formed(octets):
        return "X.690 8.1: octets within an ANY, which are kept"
    kept = peer_clauses.UNREAD if protocol.is_unread else peer_clauses.UNREAD_SEQUENCE  # without '@unread' an ANY is the module's own
    if peer_clauses.has_unread(definition, kept, set()):
        return "X.690 8.1: a component that is not read, whose octets are kept"
    if there.startswith("refused") and has_remarks(definition, set()):
        return "X.680 51: a constraint that is said not to be checked"
    return None


def compare(rows, here, there, clauses):
    """Counts the answers of rows, and tells those that nothing explains."""
    failed = 0
    for (one, name, octets), mine, other in zip(rows, here, there):
        kind, clause = explained(one, one.types[name], octets, mine, other)
        one.kinds[kind] += 1
        if kind == "unexplained":
            failed += 1
            print(f"FAILED: peers: {one.module}.{name} {octets.hex()}: here '{mine[:90]}', the peer '{other[:90]}', {clause or 'no clause'}")
        elif clause:
            clauses[clause] += 1
    return failed


def tell(protocols, clauses, failed):
    """What has been compared, and the differences by their clauses."""
    for one in protocols:
        kinds = ", ".join(f"{count} {kind}" for kind, count in sorted(one.kinds.items()))
        print(f"{one.name}: {len(one.types)} types, {one.values} values, {one.mutants} mutants: {kinds}")
    for clause, count in sorted(clauses.items(), key=lambda it: -it[1]):
        print(f"{count:6} {clause}")
    counts = [sum(len(one.types) for one in protocols), sum(one.values for one in protocols), sum(one.mutants for one in protocols)]
    print(
        f"{len(protocols)} protocols, {counts[0]} types, {counts[1]} values, {counts[2]} mutants; "
        f"{sum(clauses.values())} differences by {len(clauses)} clauses, {failed} that no clause explains"
    )


def options_of(arguments):
    parser = argparse.ArgumentParser(description="Protocols beside Erlang's compiler of ASN.1.")
    parser.add_argument("folders", nargs="*")
    parser.add_argument("--only", action="append", help="the name of a protocol")
    parser.add_argument("--seed", type=int, default=1)
    parser.add_argument("--values", type=int, default=3, help="that the peer makes of each type")
    return parser.parse_args(arguments)


def main(arguments):
    sys.setrecursionlimit(max(sys.getrecursionlimit(), MOST_CALLS))
    options = options_of(arguments)
    if shutil.which("escript") is None:
        left_out("all", "Erlang's escript is not there")
        return 0
    clauses = Counter()
    with tempfile.TemporaryDirectory(prefix="der-peers-") as work:
        folder, top = Path(work) / "texts", Path(work) / "repository"
        folder.mkdir()
        top.mkdir()
        protocols = taken_by_the_peer(folder, list(protocols_of(options, folder)))
        program = program_of(Repository(top), folder, protocols)
        values, mutants = rows_of(folder, protocols, options)
        here = ours(program, values + mutants)
        failed = compare(values + mutants, here, theirs(folder, values + mutants), clauses)
    tell(protocols, clauses, failed)
    return 1 if failed or not values else 0


if __name__ == "__main__":
    sys.exit(main(sys.argv[1:]))
