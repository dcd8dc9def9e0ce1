#!/usr/bin/env python3
"""Walks the steps of docs/FROM_AN_RFC.md in an empty folder, but for the check that proves: the module KerberosV5Spec2 is cut out of
a text that is paged as RFC 4120 is, its crate is written, and a program reads the messages of tests/kerberos/messages.rows.

    python3 tests/kerberos.py

A line of that file is a row: the name of a message, its octets in hexadecimal, and the program's answer; 'cuts' before the answer
says that each beginning of the octets is answered so. A line that begins with '#' says where the rows below it are from. What the
page says is not checked is what tools/asn1 says, and what it quotes stands in the program. The last line counts."""
import re
import sys
import tempfile

from lib import ROOT, text_of
from lib.trials import Trials, walked

PAGE = "docs/FROM_AN_RFC.md"
MODULE = "tools/asn1/tests/modules/KerberosV5Spec2.asn1"
RUN = "rt try < ../../messages > ../../answers\n"
ROW = re.compile(r"([a-z0-9]+) ((?:[0-9a-f]{2})+) (cuts )?(same.*|refused [0-9]+)")
FORM = """   KerberosV5Spec2 {
           iso(1) identified-organization(3) dod(6) internet(1)
           security(5) kerberosV5(2) modules(4) krb5spec2(2)
   } DEFINITIONS EXPLICIT TAGS ::= BEGIN

   -- rest of definitions here

   END
"""
FOOT = "\n\nNeuman, et al.              Standards Track                   [Page {}]\n\f\nRFC 4120                      Kerberos V5                    July 2005\n\n\n"
LINES_OF_A_PAGE = 50
# What the remarks of the module may say, as the page has it.
UNCHECKED = r"which values are allowed"
trials = Trials("kerberos")
holds = trials.holds


def write(path, text):
    with open(path, "w", encoding="utf-8") as it:
        it.write(text)


def paged(text):
    """A text with the end of a page after every so many lines, where the module may be in the midst of a type."""
    lines = text.split("\n")
    pages = ["\n".join(lines[at : at + LINES_OF_A_PAGE]) for at in range(0, len(lines), LINES_OF_A_PAGE)]
    return "".join(page + FOOT.format(number) for number, page in enumerate(pages, 1))


def blocks(language):
    return re.findall(rf"^```{language}\n(.*?)^```$", text_of(PAGE), re.S | re.M)


def rows():
    """The lines that the rows stand for, each with its answer; none for a line that is no row."""
    for number, line in enumerate(text_of("tests/kerberos/messages.rows").splitlines(), 1):
        found = ROW.fullmatch(line)
        if found:
            name, digits, cuts, answer = found.groups()
            ends = range(0, len(digits), 2) if cuts else [len(digits)]
            yield from ((f"{name} {digits[:end]}", answer) for end in ends)
        elif not line.startswith("#"):
            holds(f"messages.rows:{number} is a row", False)


def look_at_writing(folder, said):
    """What was cut, and what tools/asn1 has said."""
    cut, module = (text_of(path).split("\n") for path in (f"{folder}/asn1/kerberos.asn1", f"{ROOT}/{MODULE}"))
    holds("the module that was cut is the RFC's", [it for it in cut if it.strip()] == [it for it in module if it.strip()])
    remarks = re.findall(r": remark: (.*)$", said, re.M)
    other = [it for it in remarks if not re.fullmatch(rf"(?:{UNCHECKED}) is not checked", it)]
    holds(f"the remarks are those of the page: {other}", remarks and not other)
    line = re.search(r"crates\.txt has no line of my_kerberos; it is '(.*)'", said)
    holds("the line for crates.txt is that of the page", line and f"\n{line[1]}\n" in text_of(f"{folder}/crates.txt"))


def look_at_answers(folder):
    """The program's answers beside those of the rows."""
    wanted = list(rows())
    write(f"{folder}/messages", "".join(f"{question}\n" for question, _ in wanted))
    ran, _ = walked(f"{folder}/crates/kerberos_lines", RUN)
    if not holds("the program runs", ran):
        return
    given = [it.rstrip() for it in text_of(f"{folder}/answers").splitlines()]
    given = given[: len(wanted)] + [""] * (len(wanted) - len(given))
    for (question, answer), found in zip(wanted, given):
        holds(f"{question[:60]!r} is answered with {answer!r}, and not with {found!r}", found == answer)


def main():
    steps = "".join(blocks("sh")).partition(RUN)[0]
    program = "".join(text_of(f"tests/kerberos/{name}.txt") for name in ("main", "answer", "fields"))
    holds("what the page quotes stands in the program", all(it in program for it in blocks("rust")))
    answers = {answer for _, answer in rows()}
    holds("the answers on the page are those of rows", all(line in answers for it in blocks("text") for line in it.splitlines()))
    with tempfile.TemporaryDirectory(prefix="der-kerberos-") as folder:
        write(f"{folder}/rfc4120.txt", FORM + paged(text_of(MODULE)) + "\nB.  Changes since RFC 1510\n")
        ran, said = walked(folder, steps)
        if holds(f"the steps of {PAGE} run", ran):
            look_at_writing(f"{folder}/my_kerberos", said)
            look_at_answers(f"{folder}/my_kerberos")
    return trials.end()


if __name__ == "__main__":
    sys.exit(main())
