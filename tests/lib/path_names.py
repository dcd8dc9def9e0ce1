"""Where a name stands to a subtree of name constraints (RFC 5280 section 4.2.1.10): inside it, outside of it, or undefined, where "the
application MUST either process the constraint or reject the certificate"."""

import re

from .path_certificate import Name

MAIL, HOST, DIRECTORY, URI, ADDRESS = 0x81, 0x82, 0xA4, 0x86, 0x87
INSIDE, OUTSIDE, UNDEFINED = "inside", "outside", "undefined"
# authority = [ userinfo "@" ] host [ ":" port ] (RFC 3986 section 3.2)
RESOURCE = re.compile(rb"[A-Za-z][A-Za-z0-9+.-]*://(?:[^/?#@]*@)?([^/?#:@]*)(?::[0-9]*)?(?:[/?#]|\Z)", re.S)
FULL_NAME = re.compile(rb"[A-Za-z0-9-]+(?:\.[A-Za-z0-9-]+)+\Z")


def labels(octets):
    """The labels of a domain name, with letters in one case; nothing where one is empty."""
    found = octets.lower().split(b".")
    return found if all(found) else None


def inside_if(holds):
    return INSIDE if holds else OUTSIDE


def host_placement(constraint, host):
    """A host to a constraint of a mailbox or a URI: a host, or a period and a domain."""
    is_domain = constraint.startswith(b".")
    given, found = labels(constraint[is_domain:]), labels(host)
    if given is None or found is None:
        return UNDEFINED
    if is_domain:
        return inside_if(len(found) > len(given) and found[-len(given) :] == given)
    return inside_if(found == given)


def domain_placement(constraint, name):
    """A dNSName: the constraint with zero or more labels on its left."""
    given, found = labels(constraint) if constraint else [], labels(name)
    if given is None or found is None:
        return UNDEFINED
    return inside_if(found[len(found) - len(given) :] == given if len(found) >= len(given) else False)


def mailbox_placement(constraint, name):
    """An rfc822Name: one mailbox, all at a host, or all in a domain (and 7.5)."""
    local, at, host = name.rpartition(b"@")
    if not at or not local or labels(host) is None:
        return UNDEFINED
    given, at, place = constraint.rpartition(b"@")
    if not at:
        return host_placement(constraint, host)
    if not given or labels(place) is None:
        return UNDEFINED
    return inside_if(given == local and labels(place) == labels(host))


def resource_placement(constraint, uri):
    """A uniformResourceIdentifier, by its host, "a fully qualified domain name"."""
    found = RESOURCE.match(uri)
    host = found[1] if found else b""
    if not FULL_NAME.match(host) or host.rpartition(b".")[2].isdigit():
        return UNDEFINED
    return host_placement(constraint, host)


def address_placement(constraint, name):
    """An iPAddress: an address, and a mask "in the style of RFC 4632 (CIDR)"."""
    half = len(constraint) // 2
    if len(name) not in (4, 16) or len(constraint) not in (8, 32):
        return UNDEFINED
    address, mask = constraint[:half], int.from_bytes(constraint[half:], "big")
    inverse = mask ^ (1 << 8 * half) - 1
    if inverse & inverse + 1:
        return UNDEFINED
    is_covered = half == len(name) and not (int.from_bytes(address, "big") ^ int.from_bytes(name, "big")) & mask
    return inside_if(is_covered)


BY_OCTETS = {MAIL: mailbox_placement, HOST: domain_placement, URI: resource_placement, ADDRESS: address_placement}


class Named:
    """A name of a certificate, as a GeneralName: its tag, and what it holds."""

    def __init__(self, tag, held):
        self.tag, self.held = tag, held

    @classmethod
    def of(cls, encoding):
        if encoding.tag == DIRECTORY:
            return cls(DIRECTORY, Name(encoding.only(0x30)))
        return cls(encoding.tag, encoding.contents)


def placement(subtree, named):
    """A name to a subtree of its kind."""
    base, minimum, maximum = subtree
    # "minimum MUST be zero, and maximum MUST be absent"; others are processed, or the certificate is rejected
    if minimum != 0 or maximum is not None:
        return UNDEFINED
    if named.tag == DIRECTORY:
        return inside_if(named.held.is_below(Name(base.only(0x30))))
    return BY_OCTETS[named.tag](base.contents, named.held) if named.tag in BY_OCTETS else UNDEFINED


def names_of(certificate):
    """The names to which constraints apply: the subject if it is not empty, those of subjectAltName, and without that extension
    each emailAddress of the subject, as a mailbox."""
    found = [Named(DIRECTORY, certificate.subject)] if certificate.subject.parts else []
    if certificate.alternative_names is None:
        return found + [Named(MAIL, octets) for octets in certificate.subject.mail]
    return found + [Named.of(it) for it in certificate.alternative_names]


def is_permitted(listed, named):
    """Whether a name is in one of the permitted subtrees of its kind, where a list has any, and none of them is undefined."""
    found = [placement(it, named) for it in listed if it[0].tag == named.tag]
    return not found or (INSIDE in found and UNDEFINED not in found)


def is_excluded(listed, named):
    """Whether a name is in an excluded subtree of its kind, or whether that is undefined."""
    return any(placement(it, named) != OUTSIDE for it in listed if it[0].tag == named.tag)
