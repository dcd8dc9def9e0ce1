"""Documents that certview writes with --json, beside what it prints of the same files, and beside their schema."""

import json
import re

from . import ROOT

SCHEMA = f"{ROOT}/docs/certview.schema.json"
LINE = re.compile(r"(?: {13}| *(\d+) +(\d+)  )([^:]+): (.*)")
TITLE = re.compile(r" *(\d+) +(\d+)  ([^:]+)")
HEADING = re.compile(r"block (\d+) of (\d+): (.*)")
REFUSED = re.compile(r"refused(?: \((\d+)\))?: (.*?)(?:, at position (\d+))?(?:, in ([\w.]+))?")
MALFORMED = re.compile(r"malformed \((\d+): ([^()]*)\)(?: at position (\d+))?")


def validator():
    """What asks whether a document is of the schema; nothing where there is no module for that."""
    try:
        import jsonschema
    except ImportError:
        print("views: left out, that documents are of their schema: there is no module jsonschema (Debian's python3-jsonschema)")
        return None
    schema = json.load(open(SCHEMA, encoding="utf-8"))
    jsonschema.Draft202012Validator.check_schema(schema)
    return jsonschema.Draft202012Validator(schema)


def number(text):
    return None if text is None else int(text)


def fault_of(words):
    """The fault that a line tells."""
    found = REFUSED.fullmatch(words)
    return {"number": number(found[1]), "words": found[2], "position": number(found[3]), "field": found[4]}


def field_of(found):
    """The field that a line shows."""
    field = {"offset": number(found[1]), "length": number(found[2]), "name": found[3], "value": found[4]}
    faults = [
        {"number": int(it[1]), "words": it[2], "position": number(it[3]), "field": None} for it in MALFORMED.finditer(found[4])
    ]
    return {**field, "malformed": faults} if faults else field


def messages_of(text):
    """The messages of a text, as a document is to have them, and why the whole is refused."""
    messages, refused = [], None
    for line in text.split("\n"):
        heading, shown, title = HEADING.fullmatch(line), LINE.fullmatch(line), TITLE.fullmatch(line)
        last = messages[-1] if messages else {}
        if heading:
            messages.append({"block": {"number": int(heading[1]), "count": int(heading[2]), "label": heading[3]}})
        elif shown:
            last["fields"].append(field_of(shown))
        elif title:
            if not messages or "kind" in last:
                messages.append({})
            messages[-1].update(kind=title[3], offset=int(title[1]), length=int(title[2]), fields=[])
        elif line and messages:
            last["refused"] = fault_of(line)
        elif line:
            refused = fault_of(line)
    return messages, refused


def texts_of(found):
    """The texts of items, but of the kinds of names, in their order."""
    if isinstance(found, dict):
        return [text for name, it in found.items() if name != "kind" for text in texts_of(it)]
    if isinstance(found, list):
        return [text for it in found for text in texts_of(it)]
    return [found] if isinstance(found, str) else []


def has_in_order(value, texts):
    """Whether a value has these texts one after another."""
    at = 0
    for text in texts:
        at = value.find(text, at)
        if at < 0:
            return False
        at += len(text)
    return True


def as_told(given):
    """The part of a document that a file has, without the faults that the text does not tell: those of values that are shown all
    the same, though their contents octets are none of their type. And without the items of extensions, if the value has their
    texts in this order."""
    def field_as_told(field):
        wanted = field_of(LINE.fullmatch(f"{'':13}{field['name']}: {field['value']}")).get("malformed", [])
        kept = [it for it in field.get("malformed", []) if it in wanted]
        left_out = ["malformed"] + ["extensions"] * has_in_order(field["value"], texts_of(field.get("extensions", [])))
        return {**{key: it for key, it in field.items() if key not in left_out}, **({"malformed": kept} if kept else {})}

    messages = [{key: [field_as_told(one) for one in it] if key == "fields" else it for key, it in message.items()}
                for message in given["messages"]]
    return {**given, "messages": messages}


def input_of(file, text, said):
    """The part of a document that a file is to have, from its text and from what is said of it elsewhere."""
    messages, refused = messages_of(text)
    words = said.removeprefix("certview: ").removeprefix(f"{file}: ").removesuffix("\n")
    if words and not words.startswith("refused"):
        refused = {"number": None, "words": words, "position": None, "field": None}
    elif words:
        refused = fault_of(words)
    return {"name": file, **({"refused": refused} if refused else {}), "messages": messages}
