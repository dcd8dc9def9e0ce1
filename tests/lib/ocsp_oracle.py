"""Answers of OCSP by the text of RFC 6960: what an answer says of a certificate (3.2), and who may have signed it (4.2.2.2). Signatures and
hashes of keys are no part of it."""

from .path_certificate import CE, EXTENDED_KEY_USAGE, Certificate, Name, extensions_of, seconds
from .reader.octets import Refused, message_of

OCSP_SIGNING = bytes.fromhex("2b06010505070309")
# 4.2 of RFC 5280 with 6.1.4 (a): keyUsage, subjectAltName, basicConstraints, nameConstraints, certificatePolicies, policyMappings,
# policyConstraints, extKeyUsage, inhibitAnyPolicy
PROCESSED = {CE + bytes([last]) for last in (15, 17, 19, 30, 32, 33, 36, 37, 54)}
STATUS = {0x80: "good", 0xA1: "revoked", 0x82: "unknown"}


class Single:
    """A SingleResponse (4.2.1)."""

    def __init__(self, encoding):
        fields = encoding.fields()
        named = fields.take(0x30).fields()
        algorithm = named.take(0x30).fields().take(6).contents
        self.id = algorithm, named.take(4).contents, named.take(4).contents, named.take(2).contents
        status = fields.take(*STATUS)
        self.status = STATUS[status.tag]
        if status.tag == 0xA1:
            revoked = status.fields()
            revoked.take(0x18)
            reason = revoked.option(0xA0)
            self.status += "" if reason is None else f" {int.from_bytes(reason.only(10).contents, 'big')}"
        self.first = seconds(fields.take(0x18))
        last, held = fields.option(0xA0), fields.option(0xA1)
        self.last = None if last is None else seconds(last.only(0x18))
        self.has_critical = has_critical(held)


def has_critical(held):
    return held is not None and any(it.is_critical for it in extensions_of(held.only(0x30)).values())


def certificate_of(octets):
    """A certificate; nothing for one in which an extension stands twice (RFC 5280 4.2)."""
    try:
        return Certificate(octets)
    except Refused:
        return None


class Answer:
    """A BasicOCSPResponse (4.2.1)."""

    def __init__(self, octets):
        outer = message_of(octets).has(0x30).fields()
        fields = outer.take(0x30).fields()
        fields.option(0xA0)
        responder = fields.take(0xA1, 0xA2)
        self.name = Name(responder.only(0x30)) if responder.tag == 0xA1 else None
        self.key = responder.only(4).contents if responder.tag == 0xA2 else None
        fields.take(0x18)
        self.singles = [Single(it) for it in fields.take(0x30).fields().rest(0x30)]
        self.has_critical = has_critical(fields.option(0xA1))
        outer.take(0x30)
        outer.take(3)
        certs = outer.option(0xA0)
        self.certificates = [certificate_of(it.whole) for it in certs.only(0x30).fields().rest(0x30)] if certs else []

    def may_name(self, name):
        return self.name is None or self.name.matches(name)


def may_answer(certificate, issuer, moment):
    """Whether the issuer designated the certificate to sign answers (4.2.2.2)."""
    try:
        purposes, usage = certificate.value(EXTENDED_KEY_USAGE), certificate.key_usage
        is_for_answers = purposes is not None and OCSP_SIGNING in [it.contents for it in purposes.has(0x30).fields().rest(6)]
    except Refused:
        return False
    is_known = all(it.kind in PROCESSED for it in certificate.extensions.values() if it.is_critical)
    is_valid = certificate.first <= moment <= certificate.last
    return is_for_answers and (usage is None or 0 in usage) and is_known and is_valid and certificate.issuer.matches(issuer)


def status(answer, issuer, wanted, moment):
    """What an answer says: the status, who may have signed it, and the hash of the key if there is one; or the step that refuses it."""
    found = [it for it in answer.singles if it.id == wanted]
    if not found:
        return "refused 3.2 (1)"
    single = found[0]
    if answer.has_critical or single.has_critical:
        return "refused 4.4"
    if moment < single.first:
        return "refused 3.2 (5)"
    if single.last is not None and single.last < moment:
        return "refused 3.2 (6)"
    signers = ["issuer"] if answer.may_name(issuer) else []
    signers += [f"c{at}" for at, it in enumerate(answer.certificates) if it and answer.may_name(it.subject) and may_answer(it, issuer, moment)]
    if not signers:
        return "refused 3.2 (4)"
    return " ".join([single.status, *signers, *([] if answer.key is None else [answer.key.hex()])])
