"""Values of extensions as the items of JSON, by the same text of the standards: an object for each Extension.

Each function takes the encoding that the OCTET STRING holds, and answers an object whose names are those of the ASN.1."""

from . import extensions, texts, values
from .identifiers import IRREGULAR, arcs, dotted, short
from .names import NAMES, SHORT
from .octets import Refused, encoding_at, read_inside, refuse_unless

KINDS = {
    0xA0: "otherName", 0x81: "rfc822Name", 0x82: "dNSName", 0xA3: "x400Address", 0xA4: "directoryName", 0xA5: "ediPartyName",
    0x86: "uniformResourceIdentifier", 0x87: "iPAddress", 0x88: "registeredID",
}
LABELS = {
    0x81: "mail ", 0x82: "host ", 0xA3: "address of X.400 #", 0xA4: "directory ", 0xA5: "party of EDI #", 0x86: "resource ",
    0x87: "address ",
}


def identifier(octets):
    text = dotted(octets)
    name = NAMES.get(text) or SHORT.get(text)
    return {"id": text, **({"name": name} if name else {})}


def general_name(encoding):
    """RFC 5280 section 4.2.1.6: the alternative and the value."""
    shown = texts.general_name(encoding)
    if encoding.tag == 0x88:
        found = identifier(encoding.contents)
        return present(kind="registeredID", value=found["id"], name=found.get("name"))
    if encoding.tag != 0xA0:
        return {"kind": KINDS[encoding.tag], "value": shown.removeprefix(LABELS[encoding.tag])}
    fields = encoding.fields()
    kind, held = values.identifier(fields.take(0x06)), fields.take(0xA0).fields().next()
    return {"kind": "otherName", "typeId": identifier(kind), "value": texts.value(held, True)}


def general_names(encoding):
    return [general_name(it) for it in encoding.fields().rest()]


def objects(encoding, *tags):
    """The fields of each item of a list."""
    return [it.fields() for it in extensions.items_of(encoding, *tags)]


def present(**found):
    """The fields that are there; a `_` stands before a name that Python keeps for itself."""
    return {name.removeprefix("_"): it for name, it in found.items() if it is not None}


def read_if(read, encoding):
    return None if encoding is None else read(encoding)


def as_id(encoding):
    return identifier(values.identifier(encoding))


def as_number(encoding):
    return texts.decimal(values.natural(encoding))


def reasons(encoding):
    return extensions.bits(encoding, extensions.REASON_FLAGS)


def directory_attributes(encoding):
    found = []
    for fields in objects(encoding, 0x30):
        kind, held = values.identifier(fields.take(0x06)), fields.take(0x31)
        shown = [texts.value(it) for it in sorted(held.fields().rest(), key=lambda it: it.whole)]
        found.append({"type": short(kind), "values": shown})
    return {"attributes": found}


def period(encoding):
    fields = encoding.fields()
    begin, end = fields.option(0x80), fields.option(0x81)
    return present(notBefore=read_if(values.generalized_time, begin), notAfter=read_if(values.generalized_time, end))


def basic_constraints(encoding):
    fields = encoding.fields()
    authority, path = fields.option(0x01), fields.option(0x02)
    return present(cA=authority is not None, pathLenConstraint=read_if(as_number, path))


def point_name(encoding):
    """A DistributionPointName behind its tag, which may be absent."""
    held = encoding.fields().next() if encoding else None
    if held is None:
        return {}
    if held.tag == 0xA0:
        return {"fullName": general_names(held)}
    return {"nameRelativeToCRLIssuer": texts.relative_name(held.fields())}


def points(encoding):
    found = []
    for fields in objects(encoding, 0x30):
        where, flags, issuer = fields.option(0xA0), fields.option(0x81), fields.option(0xA2)
        rest = present(reasons=read_if(reasons, flags), cRLIssuer=read_if(general_names, issuer))
        found.append({**point_name(where), **rest})
    return {"points": found}


def issuing_point(encoding):
    fields = encoding.fields()
    where = fields.option(0xA0)
    users, authorities, some, indirect, attributes = (fields.option(tag) is not None if tag != 0x83 else fields.option(tag)
                                                      for tag in (0x81, 0x82, 0x83, 0x84, 0x85))
    return {**point_name(where), **present(
        onlyContainsUserCerts=users, onlyContainsCACerts=authorities, onlySomeReasons=read_if(reasons, some),
        indirectCRL=indirect, onlyContainsAttributeCerts=attributes,
    )}


def subtrees(encoding):
    found = []
    for item in encoding.fields().rest(0x30):
        fields = item.fields()
        base, least, most = general_name(fields.next()), fields.option(0x80), fields.option(0x81)
        found.append(present(base=base, minimum=read_if(as_number, least), maximum=read_if(as_number, most)))
    return found


def name_constraints(encoding):
    fields = encoding.fields()
    permitted, excluded = fields.option(0xA0), fields.option(0xA1)
    return present(permittedSubtrees=read_if(subtrees, permitted), excludedSubtrees=read_if(subtrees, excluded))


def qualifier(encoding):
    fields = encoding.fields()
    kind, held = as_id(fields.take(0x06)), fields.next()
    try:
        parts = held.fields().rest() if held.tag == 0x30 else [held]
    except Refused:
        parts = [held]
    return {"policyQualifierId": kind, "qualifier": [texts.value(it, True) for it in parts]}


def policies(encoding):
    found = []
    for fields in objects(encoding, 0x30):
        kind, qualifiers = as_id(fields.take(0x06)), fields.option(0x30)
        more = read_if(lambda it: [qualifier(one) for one in it.fields().rest()], qualifiers)
        found.append(present(policyIdentifier=kind, policyQualifiers=more))
    return {"policies": found}


def mappings(encoding):
    pairs = [[as_id(fields.take(0x06)) for _ in range(2)] for fields in objects(encoding, 0x30)]
    return {"mappings": [{"issuerDomainPolicy": issuer, "subjectDomainPolicy": subject} for issuer, subject in pairs]}


def authority_key(encoding):
    fields = encoding.fields()
    key, names, number = fields.option(0x80), fields.option(0xA1), fields.option(0x82)
    return present(
        keyIdentifier=read_if(lambda it: texts.colons(it.contents), key), authorityCertIssuer=read_if(general_names, names),
        authorityCertSerialNumber=read_if(lambda it: texts.serial(values.integer(it)), number),
    )


def policy_constraints(encoding):
    fields = encoding.fields()
    explicit, mapping = fields.option(0x80), fields.option(0x81)
    return present(requireExplicitPolicy=read_if(as_number, explicit), inhibitPolicyMapping=read_if(as_number, mapping))


def access(encoding):
    found = [(as_id(fields.take(0x06)), general_name(fields.next())) for fields in objects(encoding, 0x30)]
    return {"descriptions": [{"accessMethod": method, "accessLocation": place} for method, place in found]}


def stamp(coded):
    """A SignedCertificateTimestamp (RFC 6962 section 3.2), by what its text says."""
    text = extensions.stamp(coded)
    if coded[0]:
        return {"version": str(coded[0]), "octets": coded[1:].hex()}
    version, _, _, log, *time, algorithm, count, words = text.split(" extensions #")[0].split(" ")
    more = {"extensions": text.split(" extensions #")[1]} if " extensions #" in text else {}
    return {"version": version, "log": log, "time": " ".join(time), "signatureAlgorithm": algorithm,
            "signature": f"{count} {words}", **more}


def stamps(encoding):
    coded, found = extensions.counted(encoding.contents)[0], []
    while coded:
        one_of, coded = extensions.counted(coded)
        found.append(stamp(one_of))
    return {"timestamps": found}


def listed(name, read):
    """The object with one list, of the parts that the text has."""
    return lambda encoding: {name: read(encoding)}


def alone(name, read):
    """The object with the one part that the text has."""
    return lambda encoding: {name: read(encoding)[0]}


NAMED = {
    extensions.directory_attributes: directory_attributes, extensions.octets: alone("keyIdentifier", extensions.octets),
    extensions.key_usage: listed("usages", extensions.key_usage), extensions.period: period,
    extensions.alternative_names: listed("names", general_names), extensions.basic_constraints: basic_constraints,
    extensions.natural: alone("number", extensions.natural), extensions.reason: alone("reason", extensions.reason),
    extensions.instruction: lambda it: {"instruction": as_id(it)}, extensions.invalidity: alone("time", extensions.invalidity),
    extensions.issuing_point: issuing_point, extensions.name_constraints: name_constraints, extensions.points: points,
    extensions.policies: policies, extensions.mappings: mappings, extensions.authority_key: authority_key,
    extensions.policy_constraints: policy_constraints, extensions.access: access, extensions.stamps: stamps,
    extensions.purposes: lambda it: {"purposes": [as_id(one) for one in it.fields().rest()]},
    extensions.one: listed("values", extensions.one), extensions.each: listed("values", extensions.each),
    extensions.netscape_types: listed("types", extensions.netscape_types),
    extensions.version_of_authority: alone("version", extensions.version_of_authority),
}


def extension(encoding):
    """An Extension (RFC 5280 section 4.1); its value is None where it cannot be read."""
    fields = encoding.fields()
    kind, critical, held = values.identifier(fields.take(0x06)), fields.option(0x01), fields.take(0x04)
    front = {"extnID": identifier(kind), "critical": critical is not None}
    reader = extensions.READERS.get(arcs(kind))
    if not reader:
        return {**front, "extnValue": {"octets": held.contents.hex()}}
    try:
        inner = read_inside(held.octets, held.contents_begin, held.end)
        shown = reader(inner)
        refuse_unless("<malformed>" not in shown, "a part that cannot be read")
        return {**front, "extnValue": NAMED[reader](inner)}
    except Refused:
        return {**front, "extnValue": None}


def plain(found):
    """The same without the marks of what is none of its type."""
    if isinstance(found, dict):
        return {name: plain(it) for name, it in found.items()}
    if isinstance(found, list):
        return [plain(it) for it in found]
    return found.replace(IRREGULAR, "") if isinstance(found, str) else found


def extensions_of(label, octets, begin):
    """The extensions of a field of a message that begins at this place."""
    encoding = encoding_at(octets, begin, len(octets)) if begin is not None else None
    if label in ("extension", "extension of this certificate"):
        return [plain(extension(encoding))]
    if label != "revoked":
        return []
    *_, last = encoding.fields().rest()
    return [plain(extension(it)) for it in last.fields().rest()] if last.tag == 0x30 else []
