"""Whether a page quotes whole items, and all of them: told from the page's text and the sources' as runs of letters, and not
by the lines that quoting.py takes."""
import re
from collections import Counter

from .quoting import HEAD, HIDDEN, MEMBERS

SECTION = re.compile(r"^### (\S+)\n\n```text\n(.*?)^```$", re.S | re.M)
BEGINS = re.compile(r'^ *(?:pub )?(?:const )?(?:unsafe )?(?:extern "C" )?(?:fn (\w+)|ghost (\w+) = )')
OPEN_CLAUSE = re.compile(r"(requires|ensures)\*?\w*$")
PAIRS = {")": "(", "]": "[", "}": "{"}


def without_comments(text):
    return HIDDEN.sub(lambda it: "" if it[0].startswith("//") else it[0], text)


def joined(text):
    """A text without blanks, so that lines are of no account."""
    return re.sub(r"\s+", "", text)


def is_balanced(text):
    """Whether each bracket is closed by its own."""
    held = []
    for letter in HIDDEN.sub("", text):
        if letter in "([{":
            held.append(letter)
        elif letter in PAIRS and (not held or held.pop() != PAIRS[letter]):
            return False
    return not held


def block_behind(text, start):
    """What stands in the brackets that open behind a place."""
    depth, begin = 0, text.index("{", start)
    for at in range(begin, len(text)):
        depth += (text[at] == "{") - (text[at] == "}")
        if not depth:
            return text[begin + 1 : at]
    return text[begin:]


def promised(text):
    """The names of the calls of a source that a page is to quote, and of the members, each as often as it stands there."""
    code = HIDDEN.sub(lambda it: "" if it[0].startswith("//") else " ", text)
    names = Counter(re.findall(r"\bpub (?:const )?(?:unsafe )?(?:extern\s+)?fn (\w+)", code))
    for trait in re.finditer(r"^pub (?:unsafe )?trait ", code, re.M):
        names.update(re.findall(r"\bfn (\w+)", block_behind(code, trait.start())))
    for of_trait in re.finditer(r"^(?:unsafe )?impl\b[^{;]* for [^{;]*(?=\{)", code, re.M):
        calls = re.findall(r"\bfn (\w+)([^{;]*)", block_behind(code, of_trait.start()))
        names.update(name for name, rest in calls if re.search(r"\b(requires|ensures)\b", rest))
    members = Counter(re.findall(rf"\bghost ({'|'.join(MEMBERS)}) = ", code))
    return names + members


def pieces(block):
    """The heads of a block, and the items that it quotes: the name of each, its text, and the sentence above it."""
    heads, items, sentence, is_head = [], [], "", False
    for line in block.split("\n"):
        begins = BEGINS.match(line)
        if line.strip().startswith("///"):
            sentence, is_head = sentence + line.strip()[3:], False
        elif begins:
            items.append([begins[1] or begins[2], line, sentence.strip()])
            sentence, is_head = "", False
        elif HEAD.match(line):
            heads.append(line)
            is_head = True
        elif is_head:
            heads[-1] += f"\n{line}"
        elif items:
            items[-1][1] += f"\n{line}"
    return heads, items


class Code:
    """A source without its comments and blanks, and the words of its documentation."""

    def __init__(self, text):
        plain = without_comments(text)
        traits = [block_behind(plain, it.start()) for it in re.finditer(r"^pub (?:unsafe )?trait ", plain, re.M)]
        self.all, self.of_traits = joined(plain), joined(" ".join(traits))
        self.words = " ".join(" ".join(re.findall(r"^ *///(.*)$", text, re.M)).split())

    def has_head(self, head):
        return f"{joined(head)}{{" in self.all

    def has_item(self, text):
        """Whether an item stands in the source up to its end: a call of a type or of a public trait, or what has clauses."""
        flat = joined(without_comments(text))
        is_own = re.match(r"pub|ghost", flat) or re.search(r"(requires|ensures)\*?\w*\{", flat)
        code = self.all if is_own else self.of_traits
        return any(code[at.end() : at.end() + 1] in ("{", ";") for at in re.finditer(re.escape(flat), code))

    def has_sentence(self, sentence):
        """Whether a sentence stands in the documentation, and ends there as a sentence does."""
        said = " ".join(sentence.removeprefix("Errors: ").split())
        return said.endswith(".") and said in self.words


def wrong_item(name, text, sentence, code):
    """What is wrong with an item that is quoted, if anything."""
    if not is_balanced(text) or OPEN_CLAUSE.search(joined(text)):
        return f"`{name}` is cut"
    if not code.has_item(text):
        return f"`{name}` is not what the source has up to the item's end"
    if not sentence and text.strip().startswith("pub"):
        return f"`{name}` has no sentence"
    if sentence and not code.has_sentence(sentence):
        return f"the sentence above `{name}` is not the source's"
    return None


def wrong_page(page, sources):
    """What is wrong with a page, by the sources of its crate, by their paths."""
    blocks, found = dict(SECTION.findall(page)), []
    for path, text in sources.items():
        code, (heads, items) = Code(text), pieces(blocks.pop(path, ""))
        found += [f"{path}: the head `{it}` is cut" for it in heads if not code.has_head(it)]
        found += [f"{path}: {it}" for it in (wrong_item(*item, code) for item in items) if it]
        lacking = promised(text) - Counter(name for name, _, _ in items)
        found += [f"{path}: `{it}` is not quoted" for it in sorted(lacking)]
    return found + [f"{path}: there is no such source" for path in blocks]
