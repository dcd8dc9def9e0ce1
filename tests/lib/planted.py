"""Wrong documents, of which each comparison of files.py is to say what is wrong: a comparison that takes them is none."""

import copy


def message_of(document):
    return document["messages"][0]


def with_field(document, at, name, value):
    """The document with another property of one field."""
    other = copy.deepcopy(document)
    message_of(other)["fields"][at][name] = value
    return other


def wrong_documents(document):
    """What is wrong in each, and the document: of each field another place, another length, another name and another value; two
    values exchanged; a field left out, one too many; another kind, another length of the whole, and a refusal."""
    fields = message_of(document)["fields"]
    for at, field in enumerate(fields):
        if field["offset"] is not None:
            yield f"field {at} begins one octet later", with_field(document, at, "offset", field["offset"] + 1)
            yield f"field {at} has one octet fewer", with_field(document, at, "length", field["length"] - 1)
        yield f"field {at} has another name", with_field(document, at, "name", field["name"] + "s")
        yield f"field {at} has another value", with_field(document, at, "value", field["value"][:-1] or "x")
        for what, other in with_items(field["extensions"]) if "extensions" in field else ():
            yield f"in the extensions of field {at}: {what}", with_field(document, at, "extensions", other)
    for at, (one, other) in enumerate(zip(fields, fields[1:])):
        if one["value"] != other["value"]:
            swapped = with_field(document, at, "value", other["value"])
            yield f"the values of fields {at} and {at + 1} are exchanged", with_field(swapped, at + 1, "value", one["value"])
    for what, more in (("left out", fields[:-1]), ("one too many", [*fields, fields[-1]])):
        other = copy.deepcopy(document)
        message_of(other)["fields"] = copy.deepcopy(more)
        yield f"a field is {what}", other
    for name, value in (("kind", "key"), ("length", message_of(document)["length"] + 1)):
        other = copy.deepcopy(document)
        message_of(other)[name] = value
        yield f"another {name} of the whole", other
    yield "refused", {**document, "messages": [], "refused": {"number": 3, "words": "no", "position": 1, "field": None}}


def with_items(found):
    """What is wrong in each, and the items of extensions with one other item: another name, another text or another flag."""
    if isinstance(found, dict):
        for name, it in found.items():
            for what, other in with_items(it):
                yield what, {**found, name: other}
            yield f"an item is called otherwise than {name}", {(f"{one}s" if one == name else one): held for one, held in found.items()}
    elif isinstance(found, list):
        for at, it in enumerate(found):
            for what, other in with_items(it):
                yield what, [*found[:at], other, *found[at + 1 :]]
        if found:
            yield "an item is left out", found[:-1]
    elif isinstance(found, bool):
        yield "a flag is turned", not found
    else:
        yield f"{found} is another text", f"{found}x"


def exchanged(document, one, other):
    """The document with the values of two fields exchanged, by their names."""
    changed = copy.deepcopy(document)
    fields = {it["name"]: it for it in message_of(changed)["fields"]}
    fields[one]["value"], fields[other]["value"] = fields[other]["value"], fields[one]["value"]
    return changed
