"""Revocation by the text of RFC 5280 section 6.3: whether certificates of a path are revoked by lists of revoked certificates, with deltas,
distribution points and indirect lists. This is step 6.1.3 (a)(3), apart from the others (path_oracle.py)."""

from .path_certificate import CE, KEY_USAGE, SUBJECT_KEY, AUTHORITY_KEY, Name, bits_of, extensions_of, seconds, small
from .path_oracle import Settings, answer
from .path_signatures import first_bad, keys_of
from .reader.octets import message_of

NUMBER, REASON, INVALIDITY_DATE, DELTA, POINT, ISSUER, POINTS = (CE + bytes([last]) for last in (20, 21, 24, 27, 28, 29, 31))
ALL_REASONS = frozenset(range(1, 9))
CRL_SIGN, REMOVE_FROM_CRL = 6, 8


def comparable(encoding):
    """A GeneralName such that two are the same if these are equal."""
    if encoding.tag == 0xA4:
        return 0xA4, tuple(Name(encoding.only(0x30)).parts)
    return encoding.tag, encoding.contents


def names_in(encoding):
    return {comparable(it) for it in encoding.fields().rest()}


def point_names(held, issuer):
    """The names of a DistributionPointName (4.2.1.13); those of an RDN are relative to an issuer."""
    if held is None:
        return None
    name = held.fields().next()
    if name.tag == 0xA0:
        return names_in(name)
    relative = Name.__new__(Name)
    relative.mail = []
    last = frozenset(relative.attribute(it) for it in name.fields().rest(0x30))
    return {(0xA4, (*issuer.parts, last))}


class Scope:
    """An issuingDistributionPoint (5.2.5)."""

    def __init__(self, encoding, issuer):
        fields = encoding.has(0x30).fields()
        self.names = point_names(fields.option(0xA0), issuer)
        self.user, self.ca = (fields.option(tag) is not None for tag in (0x81, 0x82))
        reasons = fields.option(0x83)
        self.reasons = None if reasons is None else bits_of(reasons)
        self.indirect, self.attributes = (fields.option(tag) is not None for tag in (0x84, 0x85))
        fields.close()


class Point:
    """A DistributionPoint of a certificate (4.2.1.13)."""

    def __init__(self, encoding, certificate):
        fields = encoding.fields()
        name, reasons, issuers = (fields.option(tag) for tag in (0xA0, 0x81, 0xA2))
        fields.close()
        self.issuers = None if issuers is None else names_in(issuers)
        issuer = certificate.issuer
        if issuers is not None:
            named = [it for it in issuers.fields().rest() if it.tag == 0xA4]
            issuer = Name(named[0].only(0x30)) if named else issuer
        self.names = point_names(name, issuer)
        self.reasons = None if reasons is None else bits_of(reasons)


class OwnPoint:
    """"a DP with both the reasons and the cRLIssuer fields omitted and a distribution point name of the certificate issuer" """

    def __init__(self, certificate):
        self.issuers = self.reasons = None
        self.names = {(0xA4, tuple(certificate.issuer.parts))}


class List:
    """A CertificateList (5.1)."""

    def __init__(self, octets):
        outer = message_of(octets).has(0x30).fields()
        signed = outer.take(0x30)
        self.octets, self.signed, self.algorithm, self.signature = octets, signed.whole, outer.take(0x30).whole, outer.take(3).contents
        fields = signed.fields()
        fields.option(2)
        fields.take(0x30)
        self.issuer, self.this_update = Name(fields.take(0x30)), seconds(fields.take(0x17, 0x18))
        last = fields.option(0x17, 0x18)
        self.next_update = None if last is None else seconds(last)
        entries, held = fields.option(0x30), fields.option(0xA0)
        self.extensions = extensions_of(held.only(0x30)) if held else {}
        self.entries = [self.entry(it) for it in entries.fields().rest(0x30)] if entries else []
        number, base = (self.extensions[it].held if it in self.extensions else None for it in (NUMBER, DELTA))
        self.number, self.base = (None if it is None else small(it) for it in (number, base))
        self.scope = Scope(self.extensions[POINT].held, self.issuer) if POINT in self.extensions else None

    def entry(self, encoding):
        fields = encoding.fields()
        serial = fields.take(2).contents
        fields.take(0x17, 0x18)
        held = fields.option(0x30)
        return serial, extensions_of(held) if held else {}

    def recognizes_own(self):
        """Whether each critical extension of the list is one that is processed here (5.2)."""
        return all(it.kind in (NUMBER, DELTA, POINT, AUTHORITY_KEY) for it in self.extensions.values() if it.is_critical)

    def recognizes_of_entries(self):
        """The same of its entries (5.3)."""
        held = [it for _, extensions in self.entries for it in extensions.values()]
        return all(it.kind in (REASON, ISSUER, INVALIDITY_DATE) for it in held if it.is_critical)

    def value(self, kind):
        return self.extensions[kind].value.contents if kind in self.extensions else None

    def reason_for(self, certificate):
        """The reason for which the list has the certificate (5.3.3, 6.3.3 (i)), or nothing."""
        issuers = {(0xA4, tuple(self.issuer.parts))}
        wanted = (0xA4, tuple(certificate.issuer.parts))
        for serial, extensions in self.entries:
            if ISSUER in extensions:
                issuers = names_in(extensions[ISSUER].held)
            if serial == certificate.serial and wanted in issuers:
                return int.from_bytes(extensions[REASON].held.contents, "big") if REASON in extensions else 0
        return None


class Refuses(Exception):
    """A step of 6.3.3 for which a list is not used, by its letter."""


def verify(holds, letter):
    if not holds:
        raise Refuses(letter)


class Checker:
    """What one trust anchor, a moment, lists and certificates of their issuers say of paths. `use_deltas` is the input of 6.3.1."""

    def __init__(self, anchor, moment, lists, certificates, use_deltas):
        self.anchor, self.moment, self.lists, self.certificates, self.use_deltas = anchor, moment, lists, certificates, use_deltas
        self.under_way = set()

    def first_bad(self, path):
        """The first certificate of a path that is not known as unrevoked: its number, and the steps of 6.3.3 that say so; or nothing."""
        for number, certificate in enumerate(path, 1):
            why = self.why_not_unrevoked(certificate, path[: number - 1])
            if why:
                return number, why
        return None

    def why_not_unrevoked(self, certificate, above):
        """The step that finds the certificate in a list, or those for which lists are not used; or nothing. A certificate whose own
        list is signed with its key is asked about while it is asked about, which does not refuse it."""
        if certificate.octets in self.under_way:
            return None
        self.under_way.add(certificate.octets)
        try:
            return self.status(certificate, above)
        finally:
            self.under_way.remove(certificate.octets)

    def status(self, certificate, above):
        held = certificate.value(POINTS)
        points = [Point(it, certificate) for it in held.fields().rest(0x30)] if held else []
        reasons, letters = set(), set()
        for point in [*points, OwnPoint(certificate)]:
            for listed in self.lists:
                try:
                    revoked_by, found = self.status_by(certificate, above, point, listed, reasons)
                except Refuses as refused:
                    letters.add(str(refused))
                    continue
                if revoked_by:
                    return {revoked_by}
                reasons |= found  # (l)
                if reasons >= ALL_REASONS:
                    return None
        return letters | ({"6.3.3 (l)"} if reasons else {"6.3.3 (a)"})

    def status_by(self, certificate, above, point, listed, reasons):
        """The step that finds the certificate in one complete list, or nothing; and the reasons that the list has."""
        verify(listed.base is None, "5.2.4")
        verify(listed.recognizes_own(), "5.2")
        verify(listed.recognizes_of_entries(), "5.3")
        self.verify_scope(certificate, point, listed)
        delta = self.delta_for(listed) if self.use_deltas else None
        is_current = listed.next_update is None or self.moment <= listed.next_update
        verify(is_current or delta is not None, "6.3.3 (a)(1)")
        found = self.interim_reasons(point, listed)
        verify(found - reasons, "6.3.3 (e)")
        key = self.key_of_issuer(certificate, above, listed)
        verify(key.verifies(listed.signed, listed.algorithm, listed.signature), "6.3.3 (g)")
        reason, step = None, "6.3.3 (i)"
        if delta is not None:
            verify(key.verifies(delta.signed, delta.algorithm, delta.signature), "6.3.3 (h)")
            reason = delta.reason_for(certificate)
        if reason is None:
            reason, step = listed.reason_for(certificate), "6.3.3 (j)"
        return None if reason in (None, REMOVE_FROM_CRL) else step, found  # (k)

    def verify_scope(self, certificate, point, listed):
        """6.3.3 (b)."""
        scope, issuer = listed.scope, (0xA4, tuple(listed.issuer.parts))
        if point.issuers is not None:
            verify(issuer in point.issuers and scope is not None and scope.indirect, "6.3.3 (b)(1)")
        else:
            verify(listed.issuer.matches(certificate.issuer), "6.3.3 (b)(1)")
        if scope is None:
            return
        if scope.names is not None:
            names = point.names if point.names is not None else point.issuers
            verify(names & scope.names, "6.3.3 (b)(2)(i)")
        is_ca = certificate.basic_constraints is not None and certificate.basic_constraints[0]
        verify(not (scope.user and is_ca), "6.3.3 (b)(2)(ii)")
        verify(not (scope.ca and not is_ca), "6.3.3 (b)(2)(iii)")
        verify(not scope.attributes, "6.3.3 (b)(2)(iv)")

    def delta_for(self, listed):
        """A current delta that updates a complete list (5.2.4, 6.3.3 (a) and (c)), or nothing."""
        for delta in self.lists:
            is_delta = delta.base is not None and listed.number is not None and delta.base <= listed.number < delta.number
            is_like = delta.issuer.matches(listed.issuer) and all(delta.value(it) == listed.value(it) for it in (POINT, AUTHORITY_KEY))
            is_current = delta.next_update is None or self.moment <= delta.next_update
            if is_delta and is_like and is_current and delta.recognizes_own() and delta.recognizes_of_entries():
                return delta
        return None

    def interim_reasons(self, point, listed):
        """6.3.3 (d)."""
        some = listed.scope.reasons if listed.scope else None
        given = [it for it in (some, point.reasons) if it is not None]
        return frozenset(ALL_REASONS.intersection(*given))

    def key_of_issuer(self, certificate, above, listed):
        """6.3.3 (f): the key of the list's issuer, by the path of the certificate, or by another one to the same anchor."""
        refused = "6.3.3 (f)"
        for path in self.paths_to_issuer(above, listed):
            usage = path[-1].key_usage if path else None
            is_above = path == above[: len(path)] and len(path) <= len(above)
            if usage is not None and CRL_SIGN not in usage:
                continue
            if is_above or self.is_valid(path):
                key = keys_of(self.anchor, path)[-1]
                if key.verifies(listed.signed, listed.algorithm, listed.signature):
                    return key
                refused = "6.3.3 (g)"
        raise Refuses(refused)

    def paths_to_issuer(self, above, listed):
        """Paths whose last certificate is one of the list's issuer: that of the certificate first."""
        issuer = above[-1] if above else self.anchor
        if issuer.subject.matches(listed.issuer):
            yield above
        if self.anchor.subject.matches(listed.issuer) and above:
            yield []
        for last in self.certificates:
            if last.subject.matches(listed.issuer) and last is not issuer:
                yield from self.paths_to(last, ())

    def paths_to(self, last, below):
        """Paths from the anchor to a certificate, by names and key identifiers."""
        if last in below:
            return
        path = (last, *below)
        if last.issuer.matches(self.anchor.subject):
            yield list(path)
        for issuer in self.certificates:
            if issuer.subject.matches(last.issuer) and self.is_key_named(last, issuer):
                yield from self.paths_to(issuer, path)

    def is_key_named(self, certificate, issuer):
        held, own = certificate.value(AUTHORITY_KEY), issuer.value(SUBJECT_KEY)
        given = held.fields().option(0x80) if held else None
        return given is None or own is None or given.contents == own.contents

    def is_valid(self, path):
        """Whether a path is valid, with its signatures and by the lists."""
        octets = [it.octets for it in path]
        return answer(self.anchor.octets, octets, Settings(self.moment))[0] == "valid" and first_bad(self.anchor, path) is None and self.first_bad(path) is None
