"""Distinguished names as openssl's configuration has them: of all attributes, with all kinds of strings."""

ATTRIBUTES = (
    "CN O OU L ST street DC UID emailAddress SN GN initials title description businessCategory postalCode postOfficeBox "
    "telephoneNumber name pseudonym generationQualifier role searchGuide userPassword x500UniqueIdentifier houseIdentifier "
    "dmdName physicalDeliveryOfficeName facsimileTelephoneNumber organizationIdentifier jurisdictionL jurisdictionST "
    "unstructuredName mail favouriteDrink roomNumber info host INN own1 own2"
).split()
# Attributes whose values are of two letters, of PrintableString or of IA5String (openssl's own limits).
LETTERS = ("C", "jurisdictionC")
PLAIN = ("DC", "emailAddress", "mail", "host", "UID", "serialNumber", "dnQualifier", "telephoneNumber")
OWN = "oid_section=own\n[own]\nown1=1.3.6.1.4.1.99999.1\nown2=2.999.12345678901.7\n"
TEXTS = (
    "Barley", "Wheat & Rye", "a, b + c", '\\"quoted\\"', "<less>", "\\#hash", "\\ \\# ", "back\\\\slash", "semi\\;colon", "trailing\\ ", "e=mc", "x" * 60,
    "Grüße", "日本語", "Ελλάδα", "Доверие", "\U0001f33e grain", "a\u202eb", "zero\u200bwidth", "soft\u00adhyphen", "tab\there", "bell\x07",
    "del\x7f", "c1\u0085", "line\u2028sep", "nb\u00a0sp", "e\u0301", "\ufeffbom", "1", "*.example", "question?", "under_score", "at@sign",
    "per%cent", "\ue000private", "\U000e0041tag", "\u3164filler", "O'Neil", "(x)", "a/b", "a:b",
)
MASKS = ("utf8only", "pkix", "nombstr", "default", "MASK:0x800", "MASK:0x4", "MASK:0x2002", "MASK:0x802", "MASK:0x2806")


def text_for(shop, kind):
    if kind in LETTERS:
        return shop.pick(("SE", "DE", "JP", "US"))
    if kind == "INN":
        return "500100732259"
    if kind in PLAIN:
        return shop.pick(("barley", "a.example", "grain 7", "x-y", "12345"))
    return shop.pick(TEXTS)


def fits(mask, text):
    """Whether openssl can write the characters with the kinds of strings of a mask."""
    if mask in ("utf8only", "pkix", "default"):
        return mask != "default" or all(ord(it) < 0x10000 for it in text)
    if mask == "MASK:0x2002":
        return True
    if mask in ("MASK:0x800", "MASK:0x802"):
        return all(ord(it) < 0x10000 for it in text)
    if mask == "MASK:0x10":
        return text.isascii()
    return all(ord(it) < 0x100 for it in text)


def section(shop, label, mask=None, most=6):
    """A section of the configuration, with its kinds of strings; of some attributes, some of them in one place."""
    mask = mask or shop.pick(MASKS)
    lines = []
    for number in range(shop.random.randint(0 if most > 4 else 1, most)):
        kind = shop.pick((*ATTRIBUTES, *LETTERS, "CN", "O", "OU", "serialNumber", "dnQualifier"))
        text = text_for(shop, kind)
        if not fits(mask, text):
            text = "Barley"
        joined = "+" if lines and shop.random.random() < 0.25 else ""
        lines.append(f"{joined}{number}.{kind}={text}\n")
    return f"string_mask={mask}\n", f"[{label}]\n{''.join(lines)}"
