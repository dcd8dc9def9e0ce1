"""Asking openssl, and putting what it says into certview's words."""

import re
import subprocess

from ..reader import pem, texts

# A name as RFC 4514 writes it, in the order of its attributes.
NAMES = ["-nameopt", "esc_2253,esc_ctrl,utf8,dump_nostr,dump_der,sep_comma_plus_space,sname"]
MONTHS = "Jan Feb Mar Apr May Jun Jul Aug Sep Oct Nov Dec".split()
DATE = re.compile(r"(\w{3}) +(\d+) (\d\d:\d\d:\d\d(?:\.\d+)?) (\d{4}) GMT")
# Attributes that openssl calls otherwise than RFC 4519 and RFC 4514 do.
OTHER_NAMES = {"street": "STREET", "rfc822Mailbox": "mail"}


class Compared:
    """What was compared, and what differs."""

    def __init__(self):
        self.count, self.wrong = 0, []

    def same(self, what, certview, openssl):
        self.count += 1
        if certview != openssl:
            self.wrong.append(f"{what}: certview has {str(certview)[:300]!r}, openssl {str(openssl)[:300]!r}")


def ask(*words, given=b"", with_errors=False):
    """What a command prints, on standard error too where that is asked for."""
    ran = subprocess.run(["openssl", *words], input=given, capture_output=True, timeout=60)
    return (ran.stdout + (ran.stderr if with_errors else b"")).decode("utf-8", "replace")


def form_of(file):
    with open(file, "rb") as opened:
        return "PEM" if pem.is_text(opened.read()) else "DER"


def date(text):
    """A date of openssl's as certview shows it."""
    found = DATE.search(text)
    if not found:
        return text.strip()
    month, day, clock, year = found.groups()
    return f"{year}-{MONTHS.index(month) + 1:02}-{int(day):02} {clock} UTC"


def serial(text):
    """Digits of a number as certview shows a serial number."""
    sign, digits = ("-", text[1:]) if text.startswith("-") else ("", text)
    digits = digits.removeprefix("0x").replace(":", "").lower()
    digits = "0" * (len(digits) % 2) + digits
    return sign + ":".join(digits[at : at + 2] for at in range(0, len(digits), 2))


def name(text):
    """A name of openssl's as certview shows it: control characters by small digits, others that are hidden by their octets."""
    text = re.sub(r"\\([0-9A-F]{2})", lambda found: f"\\{found[1].lower()}", text)
    text = re.sub(r"(?<=[=,+ ])#([0-9A-F]+)", lambda found: f"#{found[1].lower()}", text)
    for theirs, ours in OTHER_NAMES.items():
        text = re.sub(rf"(^|, |\+ ){theirs}=", rf"\1{ours}=", text)
    return texts.plain(text.replace(" + ", "+"))


def latin(text):
    """A name of certview's in which octets of a TeletexString that are no ASCII are characters of ISO 8859-1, for which openssl
    takes them, though X.690 8.23 means T.61: certview shows them as they are encoded (its README, "Names")."""
    def shown(found):
        octets = bytes.fromhex(found[1])
        return "=" + texts.escaped(octets[2 if octets[1] < 0x80 else 3 :].decode("latin-1"))

    return re.sub(r"=#(14(?:[0-9a-f]{2})+)(?=$|[,+])", shown, text)


def values(fields, name):
    """The values of the fields with a name."""
    return [it["value"] for it in fields if it["name"] == name]


def hexadecimal(lines):
    """The octets of lines of digits with colons."""
    return "".join(lines).replace(":", "").replace(" ", "").replace("\n", "")


def after(label, text):
    """What stands after a label in its line, in each line that has it."""
    return [it.strip() for it in re.findall(rf"^\s*{re.escape(label)}[ \t]*(.*)$", text, re.MULTILINE)]


def dumped(text):
    """The octets of a dump: lines of a place, a dash and digits."""
    lines = re.findall(r"^ *[0-9a-f]{4,} - ((?:[0-9a-f]{2}[ -]){1,16})", text, re.MULTILINE)
    return "".join(lines).replace(" ", "").replace("-", "")


def dotted(octets):
    """The dotted form of an identifier with arcs of any length, which certview shows as `#` and octets past 64 bits."""
    found, arc = [], 0
    for octet in octets:
        arc = arc << 7 | octet & 0x7F
        if octet < 0x80:
            found, arc = [*found, arc], 0
    root = min(found[0] // 40, 2)
    return ".".join(map(str, [root, found[0] - 40 * root, *found[1:]]))


def names_of(value):
    """The name in brackets of an identifier, or its dotted form."""
    octets = re.match(r"#([0-9a-f]+)", value)
    if octets:
        return dotted(bytes.fromhex(octets[1]))
    found = re.match(r"([\d.]+)(?: \(([^)]*)\))?", value)
    return found[2] or found[1] if found else value
