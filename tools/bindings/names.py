"""The spelling of one name in each language."""

from __future__ import annotations

import re

from .tables.rules import Rule
from .tables.steps import Step
from .tables.structs import Field, Struct

PART = re.compile(r"[A-Z][a-z]*|[0-9]+")
KEYWORDS = frozenset(["type"])  # of Rust and of Go, of the fields' names
FIRST_WORDS_IN_GO = {"tbs": "TBS", "crl": "CRL", "crls": "CRLs", "sid": "SID"}  # of fields' names in ASN.1
INITIALS_IN_GO = {"Ca": "CA", "Ocsp": "OCSP"}  # of steps
PREFIXES_IN_C = {"Step": "DER_STEP", "ListStep": "DER_LIST", "OcspStep": "DER_OCSP"}


def capitals(name: str) -> str:
    """SerialNumberHasAtMost20Octets as SERIAL_NUMBER_HAS_AT_MOST_20_OCTETS."""
    return "_".join(PART.findall(name)).upper()


def camel(name: str) -> str:
    """certificate_list as CertificateList."""
    return "".join(part.capitalize() for part in name.split("_"))


def rule_in_c(rule: Rule) -> str:
    """DER_CERTIFICATE_ISSUER_NOT_EMPTY of IssuerIsNotEmpty."""
    name = rule.name_in_c or re.sub("_IS_", "_", capitals(rule.name))
    return f"DER_{rule.kind.upper()}_{name}"


def rule_in_go(rule: Rule) -> str:
    return rule.kind.capitalize() + rule.name


def step_in_c(step: Step) -> str:
    """DER_LIST_CA_CERTIFICATES of CaCertificates."""
    return f"{PREFIXES_IN_C[step.enum]}_{capitals(step.name)}"


def step_in_go(step: Step) -> tuple[str, str]:
    """ListStepCACertificates of CaCertificates, and its type."""
    type_, name = (PART.sub(lambda part: INITIALS_IN_GO.get(part[0], part[0]), it) for it in (step.enum, step.name))
    return type_ + name, type_


def field_in_rust(field: Field) -> str:
    return f"{field.name}_" if field.name in KEYWORDS else field.name


def field_of_c_in_go(field: Field) -> str:
    return f"_{field.name}" if field.name in KEYWORDS else field.name


def field_in_go(field: Field) -> str:
    """TBSCertificate of tbsCertificate."""
    name = field.name_elsewhere
    first = re.match("[a-z]+", name)
    assert first
    return FIRST_WORDS_IN_GO.get(first[0], first[0].capitalize()) + name[first.end() :]


def struct_in_c(struct: Struct) -> str:
    return f"der_{struct.name}_at"


def struct_in_rust(struct: Struct) -> str:
    return f"{camel(struct.name)}At"


def struct_in_go(struct: Struct) -> str:
    """RSASSAPSSParams of RSASSA-PSS-params."""
    return "".join(capital(part) for part in struct.type.split("-"))


def with_article(noun: str) -> str:
    """'a certificate', 'an extension'."""
    return f"{'an' if noun[0] in 'aeioAEIO' else 'a'} {noun}"


def without_links(text: str) -> str:
    """A text as documentation in Rust, where words in brackets are links."""
    return text.replace("[", "\\[").replace("]", "\\]")


def capital(sentence: str) -> str:
    """A sentence that stands alone."""
    return sentence[0].upper() + sentence[1:]


def source(struct: Struct) -> str:
    """The type of ASN.1, and the standard that has it."""
    return f"({struct.type}, {struct.standard})"


def small(sentence: str) -> str:
    """A sentence within another."""
    return sentence[0].lower() + sentence[1:]
