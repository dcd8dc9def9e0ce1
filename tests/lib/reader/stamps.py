"""Rows of time stamps: queries and replies (RFC 3161 section 2.4)."""

from . import texts, values
from .cms import add_content, add_content_info
from .keys import add_plain_version
from .messages import Rows, add_extensions
from .stamped import add_flag, add_imprint, add_nonce, add_policy

STATUSES = "granted grantedWithMods rejection waiting revocationWarning revocationNotification".split()
# RFC 3161 has eight of these, RFC 4210 section 5.2.3 all.
FAILURES = ("badAlg badMessageCheck badRequest badTime badCertId badDataFormat wrongAuthority incorrectData missingTimeStamp "
            "badPOP certRevoked certConfirmed wrongIntegrity badRecipientNonce timeNotAvailable unacceptedPolicy "
            "unacceptedExtension addInfoNotAvailable badSenderNonce badCertTemplate signerNotTrusted transactionIdInUse "
            "unsupportedVersion notAuthorized systemUnavail systemFailure").split()


def query(message):
    rows, fields = Rows(), message.fields()
    add_plain_version(rows, fields.take(0x02))
    add_imprint(rows, fields.take(0x30))
    policy = fields.option(0x06)
    if policy:
        add_policy(rows, policy)
    add_nonce(rows, fields.option(0x02))
    add_flag(rows, fields, "with certificate")
    more = fields.option(0xA0)
    if more:
        add_extensions(rows, more)
    fields.close()
    return rows.found


def reply(message):
    rows, outer = Rows(), message.fields()
    fields = outer.take(0x30).fields()
    status, lines, failure = fields.take(0x02), fields.option(0x30), fields.option(0x03)
    fields.close()
    number = values.number(status, 0, values.MOST_OF_VERSION)
    rows.add(status, "status", STATUSES[number] if number < len(STATUSES) else str(number))
    for line in lines.fields().rest(0x0C) if lines else []:
        rows.add(line, "status text", texts.escaped(values.utf8(line)))
    if failure:
        names = [FAILURES[at] if at < len(FAILURES) else f"bit {at}" for at in values.named_bits(failure)]
        rows.add(failure, "failure", ", ".join(names))
    token = None if outer.is_empty() else outer.next()
    outer.close()
    if token:
        kind, content = add_content_info(rows, token)
        add_content(rows, kind, content)
    return rows.found
