"""The values of extensions as derproved says them, in the plain form in which beside_cryptography.py says them too."""

import derproved
from derproved import contents, encodings, named_bits, unsigned_integer

from .told_here import attributes, identifier, integer


def general_name(encoding):
    """The kind and the value of a GeneralName: of a directory name the attributes, of an otherName its identifier and value."""
    kind, value = derproved.general_name(encoding)
    if kind == derproved.NameKind.DIRECTORY_NAME:
        return int(kind), attributes(value)
    if kind == derproved.NameKind.OTHER_NAME:
        number, held = (bytes(it) for it in encodings(encoding))
        return int(kind), (identifier(number), bytes(contents(held)))
    return int(kind), bytes(value)


def names(list_):
    return None if list_ is None else [general_name(it) for it in encodings(list_)]


def optional_number(encoding):
    """The number of an INTEGER with an implicit tag, if it is there."""
    return None if encoding is None else unsigned_integer(b"\x02" + bytes(encoding)[1:])


def optional_bits(encoding):
    return None if encoding is None else named_bits(b"\x03" + bytes(encoding)[1:])


def basic_constraints(octets):
    read = derproved.BasicConstraints(octets)
    return read.ca is not None, read.path_len_constraint and unsigned_integer(read.path_len_constraint)


def key_identifier(octets):
    read = derproved.AuthorityKeyIdentifier(octets)
    number = read.authority_cert_serial_number
    return (
        read.key_identifier and bytes(contents(read.key_identifier)),
        names(read.authority_cert_issuer),
        None if number is None else integer(number),
    )


def policies(octets):
    """The identifier of each policy, and the qualifiers: their identifier and octets."""
    found = []
    for policy in map(derproved.PolicyInformation, encodings(octets)):
        qualifiers = [derproved.PolicyQualifierInfo(it) for it in encodings(policy.policy_qualifiers or b"")]
        found.append((identifier(policy.policy_identifier),
                      [(identifier(it.policy_qualifier_id), bytes(it.qualifier)) for it in qualifiers]))
    return found


def mappings(octets):
    read = map(derproved.PolicyMapping, encodings(octets))
    return [(identifier(it.issuer_domain_policy), identifier(it.subject_domain_policy)) for it in read]


def access(octets):
    read = map(derproved.AccessDescription, encodings(octets))
    return [(identifier(it.access_method), general_name(it.access_location)) for it in read]


def point_name(field):
    """A DistributionPointName: the full names, or the relative one."""
    if field is None:
        return None, None
    name = contents(field)
    if name[0] == 0xA0:
        return names(name), None
    parts = map(derproved.AttributeTypeAndValue, encodings(name))
    return None, (4, [(identifier(it.type), bytes(it.value)) for it in parts])


def points(octets):
    read = map(derproved.DistributionPoint, encodings(octets))
    return [(*point_name(it.distribution_point), optional_bits(it.reasons), names(it.crl_issuer)) for it in read]


def issuing_point(octets):
    read = derproved.IssuingDistributionPoint(octets)
    flags = read.only_contains_user_certs, read.only_contains_ca_certs, read.indirect_crl, read.only_contains_attribute_certs
    return (*point_name(read.distribution_point), optional_bits(read.only_some_reasons), *(it is not None for it in flags))


def name_constraints(octets):
    read = derproved.NameConstraints(octets)
    trees = read.permitted_subtrees, read.excluded_subtrees
    return [tree and [general_name(derproved.GeneralSubtree(it).base) for it in encodings(tree)] for tree in trees]


def policy_constraints(octets):
    read = derproved.PolicyConstraints(octets)
    return optional_number(read.require_explicit_policy), optional_number(read.inhibit_policy_mapping)


def identifiers(octets):
    return [identifier(it) for it in encodings(octets)]


# By the identifier of the extension.
VALUES = {
    "2.5.29.14": lambda it: bytes(contents(it)),
    "2.5.29.15": named_bits,
    "2.5.29.17": names,
    "2.5.29.18": names,
    "2.5.29.19": basic_constraints,
    "2.5.29.20": integer,
    "2.5.29.21": lambda it: bytes(contents(it)),
    "2.5.29.24": derproved.time,
    "2.5.29.27": integer,
    "2.5.29.28": issuing_point,
    "2.5.29.29": names,
    "2.5.29.30": name_constraints,
    "2.5.29.31": points,
    "2.5.29.32": policies,
    "2.5.29.33": mappings,
    "2.5.29.35": key_identifier,
    "2.5.29.36": policy_constraints,
    "2.5.29.37": identifiers,
    "2.5.29.46": points,
    "2.5.29.54": unsigned_integer,
    "1.3.6.1.5.5.7.1.1": access,
    "1.3.6.1.5.5.7.1.11": access,
}


def value(extension):
    """The identifier of an extension, whether it is critical, and its value: in plain form, or else its octets. A value that is
    refused has the number of the fault."""
    number, octets = identifier(extension.extn_id), bytes(extension.value)
    try:
        plain = VALUES.get(number, bytes)(octets)
    except derproved.Error as error:
        plain = f"refused {error.number}"
    return number, extension.is_critical, plain
