"""What tests/contracts quotes of a source: each public call with its clauses, each call of a public trait, and what the
implementations of std's traits say, each under the head of its block and with the first sentence of its documentation."""
import re
import textwrap

# The members of implementations that say what a caller gets: of conversions, copies, texts, iterators, orders and hashes.
MEMBERS = (
    "from_gives try_from_gives into_gives from_str_gives is_clone is_infallible output next_gives remaining into_iter_gives"
    " eq cmp hash_input"
).split()
CALL = re.compile(r'^( *)(pub )?(?:const )?(?:unsafe )?(?:extern "C" )?fn (\w+)')
MEMBER = re.compile(rf"^    ghost ({'|'.join(MEMBERS)}) = ")
HEAD = re.compile(r"^(pub (?:unsafe )?trait|(?:unsafe )?impl)\b")
CLAUSE = re.compile(r"^\s*(requires|ensures)\b")
# Comments, texts and characters, in which a bracket is none of the code's.
HIDDEN = re.compile(r'//[^\n]*|b?"(?:[^"\\]|\\.)*"|b?\'(?:[^\'\\]|\\.[^\']*)\'', re.S)


def blanked(text):
    """The text with spaces for comments, texts and characters."""
    return HIDDEN.sub(lambda it: re.sub(r"\S", " ", it[0]), text)


def depth_of(text):
    return sum(text.count(it) for it in "([{") - sum(text.count(it) for it in ")]}")


class Source:
    """A source by its lines, and what is quoted of it."""

    def __init__(self, path):
        with open(path, encoding="utf-8") as file:
            text = file.read()
        self.lines, self.plain = text.split("\n"), blanked(text).split("\n")

    def head(self, start):
        """The head of a block that starts here, without its bracket."""
        end = next(it for it in range(start, len(self.lines)) if self.plain[it].rstrip().endswith(("{", "{}")))
        return [it.rstrip() for it in "\n".join(self.lines[start : end + 1]).rstrip("{} \n").split("\n")]

    def call(self, start):
        """A call's lines from its name to its body."""
        quoted, depth = [], 0
        for line, plain in zip(self.lines[start:], map(str.rstrip, self.plain[start:])):
            depth += depth_of(plain)
            has_body = re.search(r"\{\}?$", plain) and not CLAUSE.match(plain) and depth == plain.endswith("{")
            quoted.append(line.rstrip())
            if has_body or (plain.endswith(";") and not depth):
                break
        quoted[-1] = re.sub(r"\s*\{\}?$" if has_body else ";$", "", quoted[-1])
        return [it for it in quoted if it]

    def member(self, start):
        """A member's lines to its end."""
        depth = 0
        for end in range(start, len(self.lines)):
            depth += depth_of(self.plain[end])
            if not depth:
                return [it.rstrip() for it in "\n".join(self.lines[start : end + 1]).rstrip(";").split("\n")]
        return []

    def has_clauses(self, start):
        return any(CLAUSE.match(it) for it in self.call(start))

    def sentence(self, start):
        """The first sentence of what documents the item at a line, as lines of documentation."""
        above = start
        while re.match(r"\s*(///|#\[)", self.lines[above - 1]):
            above -= 1
        said = [it.strip()[3:].strip() for it in self.lines[above:start] if it.strip().startswith("///")]
        first = [it for it in "\n".join(said).split("\n\n")[0].split("\n") if it]
        is_error = first[:1] == ["# Errors"]
        first = first[is_error:]
        text = ("Errors: " if is_error else "") + first_sentence(" ".join(first))
        begin = f"{re.match(r' *', self.lines[start])[0]}/// "
        how = {"width": 100, "break_long_words": False, "break_on_hyphens": False}
        return textwrap.wrap(text, initial_indent=begin, subsequent_indent=begin, **how) if first else []


def first_sentence(text):
    """A text up to the first full stop that ends a sentence."""
    code = False
    for at, letter in enumerate(text):
        code ^= letter == "`"
        if letter == "." and not code and re.match(r"\.(?= [A-Z`(]|$)", text[at:]):
            return text[: at + 1]
    return text


def quoted_of(path):
    """What is quoted of a source, by its lines."""
    source, out, block, printed = Source(path), [], [], []
    for at, line in enumerate(source.lines):
        if HEAD.match(line):
            block = source.head(at)
        elif line == "}":
            block = []
        piece = piece_at(source, at, " ".join(block))
        if piece:
            out += block if block != printed else []
            printed = block
            out += piece
    return out


def piece_at(source, at, block):
    """What is quoted of the item at a line, if anything."""
    line = source.lines[at]
    if line.startswith("        "):
        return []
    call = CALL.match(line)
    if call and (call[2] or block.startswith("pub") or (" for " in block and source.has_clauses(at))):
        return source.sentence(at) + source.call(at)
    if " for " in block and MEMBER.match(line):
        return sentence_of_member(source, at) + source.member(at)
    return []


def sentence_of_member(source, at):
    """The sentence of a member of an implementation: its own, or that of the one call behind it."""
    own = source.sentence(at)
    if own:
        return own
    for number in range(at, len(source.lines)):
        if source.lines[number] == "}":
            return []
        if CALL.match(source.lines[number]):
            return source.sentence(number)
    return []
