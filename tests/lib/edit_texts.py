"""The edits of crates/NAME/must-fail as texts: what each changes, of which functions, and by which names a check knows
those."""
import os
import re

FUNCTION = re.compile(r"^( *)(?:pub(?:\([^)]*\))? )?(?:(?:const|unsafe|final) )*fn (\w+)")
BLOCK = re.compile(r"^(?:pub )?(?:unsafe )?(impl|trait)\b")


class Edit:
    """An edit: the file that it changes, its pairs of texts, and the function that it stands in."""

    def __init__(self, crate, file):
        self.crate, self.label = crate, f"{crate.name}/{os.path.basename(file)[:-5]}"
        self.path, self.pairs, old = "", [], None
        with open(file, encoding="utf-8") as lines:
            self.text = lines.read()
        for line in self.text.split("\n"):
            if line.startswith("file: "):
                self.path = line[6:].strip()
            elif line.startswith("old: "):
                old = line[5:]
            elif line.startswith("new:"):
                self.pairs.append((old, re.sub(r"\A ", "", line[4:])))
        with open(f"{crate.folder}/{self.path}", encoding="utf-8") as source:
            self.source = source.read()
        self.alone = self.applied(self.source)
        self.module = self.path[4:-3].replace("/", "::")
        self.items = {it for it in map(self.item, self.changed()) if it}

    def names(self):
        """What to check: the functions that it changes, by the names or the ends of names of a check, else its module."""
        found = set()
        for name, of_type, of_trait in self.items:
            within = f"{self.crate.name}::{self.module}::" if self.path != self.crate.root else f"{self.crate.name}::"
            if of_type and not of_trait:
                # a method of a type's own stands with the type, whatever file its impl is in
                found.add(f"{of_type}::{name}")
            else:
                found.add(f"{within}{of_type}{of_trait}::{name}" if of_type else f"{within}{name}")
        return found or {self.module}

    def applied(self, text):
        """The text with the edit, or none where a text of the edit does not stand in it just once."""
        for old, new in self.pairs:
            if not text or text.count(old) != 1:
                return None
            text = text.replace(old, new)
        return text

    def is_of_comments(self):
        """Whether each line that it changes is a comment, before and after."""
        lines, others = self.source.split("\n"), (self.alone or "").split("\n")
        both = [it for at in self.changed() for it in (lines[at], others[at])]
        return all(it.lstrip().startswith("//") for it in both)

    def changed(self):
        """The numbers of the lines that differ (no text of an edit has a second line)."""
        both = zip(self.source.split("\n"), (self.alone or "").split("\n"))
        return [number for number, (a, b) in enumerate(both) if a != b]

    def item(self, number):
        """The function at a line: its name, and the type and the trait of its impl; none for a constant or a field."""
        lines = self.source.split("\n")
        for start in range(number, -1, -1):
            head = FUNCTION.match(lines[start])
            if head and end_of(lines, start, head[1]) >= number:
                return (head[2], *block_of(lines, start))
        return None

    def candidates(self, said):
        """The functions of a check's answer that the edit changes, or none where the names do not tell."""
        found = set()
        for name, of_type, of_trait in self.items:
            # a method of a type's own stands with the type, whatever file its impl is in
            within = f"{self.crate.name}::" if of_type and not of_trait else f"{self.crate.name}::{self.module}::"
            of = f"(.*::)?{of_type}::" if of_type and not of_trait else f"{of_type}{of_trait}::" if of_type else ""
            found.update(it for it in said if re.fullmatch(f"{within}{of}({name}|fn::{name}::.*)", it))
        return found


def end_of(lines, start, indent):
    """The last line of a function that starts here."""
    for number in range(start, len(lines)):
        line = lines[number]
        if line == indent + "}" or re.match(indent + r"\S.*(\{\}|;)$", line):
            return number
    return len(lines)


def block_of(lines, start):
    """The type and the trait of the impl that a function stands in, as a check names them; else two empty texts."""
    if not lines[start].startswith(" "):
        return "", ""
    top = next((it for it in range(start, -1, -1) if BLOCK.match(lines[it])), None)
    if top is None:
        return "", ""
    head = " ".join(it.strip() for it in lines[top:start] if it.strip()).split(" {")[0]
    if BLOCK.match(head)[1] == "trait":
        return re.search(r"trait (\w+)", head)[1], ""
    parameters, rest = generics(re.sub(r"^(unsafe )?impl\b", "", head))
    trait, _, of_type = rest.partition(" where ")[0].rpartition(" for ")
    return named(of_type, parameters), named(trait, parameters) if trait else ""


def named(text, parameters):
    """A type or a trait as the names of functions have it: RefVecU8 of &'a Vec<u8>, Any of a type parameter."""
    if text in parameters:
        return "Any"
    text = re.sub(r"'\w+|\w+::(?=\w)", "", text).replace("()", "unit")
    text = re.sub(r"\[([^\[\];]*)(;[^\]]*)?\]", lambda it: f" {'array' if it[2] else 'slice'} {it[1]}", text)
    words = re.findall(r"&|\w+", text)
    words = ["Ref" if it == "&" else it for it in words if it not in parameters]
    return "".join(it[:1].upper() + it[1:] for it in words)


def generics(text):
    """The names of the parameters that open an impl's head, and what is behind them."""
    depth, names, opens = 0, [], True
    for at, letter in enumerate(text):
        if depth == 1 and opens and re.match(r"(const )?\w", text[at:]):
            names.append(re.match(r"(?:const )?(\w+)", text[at:])[1])
        opens = letter in "<," if letter != " " else opens
        depth += (letter == "<") - (letter == ">" and text[at - 1] != "-")
        if not depth:
            return (names, text[at + 1 :].strip()) if letter == ">" else ([], text.strip())
    return [], text.strip()


def group_of(edits):
    """Edits of different functions, and the texts of the files with all of them."""
    texts, taken, items = {}, [], set()
    for edit in edits:
        keys = {(edit.path, *it) for it in edit.items}
        text = edit.applied(texts.get(edit.path, edit.source))
        if keys and text and not keys & items:
            texts[edit.path] = text
            items |= keys
            taken.append(edit)
    return taken, texts
