"""The lists of rules in C, Rust, Go and Python, and the tables of rules on the page of der_verify."""

from __future__ import annotations

from ..names import capitals, rule_in_c, rule_in_go, small
from ..tables.rules import Rule, of_kind
from ..wrapping import comment_in_c

HEAD_IN_C = {
    "certificate": "The rules of RFC 5280 for certificates beyond the grammar, as bits of what der_check_rfc5280 writes: a bit is 1 "
    "where the certificate breaks the rule.",
    "list": "The same for lists of revoked certificates, as bits of what der_check_rfc5280_list writes.",
}
HEAD_IN_RUST = {"certificate": "A rule for certificates.", "list": "A rule for lists of revoked certificates."}
HEAD_IN_GO = {
    "certificate": "CertificateRules are rules of RFC 5280 for certificates that stand beyond the grammar, as bits.",
    "list": "ListRules are those for lists of revoked certificates.",
}
HEAD_IN_PYTHON = {
    "certificate": "A rule of RFC 5280 for certificates that stands beyond the grammar.",
    "list": "A rule of RFC 5280 for lists of revoked certificates.",
}
KINDS = ("certificate", "list")


def in_c(rules: list[Rule]) -> list[str]:
    lines = []
    for kind in KINDS:
        lines += comment_in_c(HEAD_IN_C[kind])
        for rule in of_kind(rules, kind):
            lines += comment_in_c(f"{small(rule.sentence)} ({rule.sections})")
            lines.append(f"#define {rule_in_c(rule)} ((uint64_t)1 << {rule.bit})")
        lines.append("")
    return lines[:-1]


def in_rust(rules: list[Rule]) -> list[str]:
    lines = []
    for kind in KINDS:
        lines += ["rules! {", f"    /// {HEAD_IN_RUST[kind]}", f"    {kind.capitalize()}Rule {{"]
        for rule in of_kind(rules, kind):
            lines += [f"        /// {rule.sentence} ({rule.sections}).", f'        {rule.name} "{rule.section}"']
        lines += ["    }", "}", ""]
    return lines[:-1]


def in_go(rules: list[Rule]) -> list[str]:
    lines = [""]
    for kind in KINDS:
        type_ = f"{kind.capitalize()}Rules"
        lines += [f"// {HEAD_IN_GO[kind]}", f"type {type_} uint64", "", "const ("]
        for rule in of_kind(rules, kind):
            lines.append(f"\t// {rule_in_go(rule)}: {small(rule.sentence)} ({rule.sections}).")
            lines.append(f"\t{rule_in_go(rule)}" + (f" {type_} = 1 << iota" if rule.bit == 0 else ""))
        lines += [")", ""]
    return lines


def in_python(rules: list[Rule]) -> list[str]:
    lines = []
    for kind in KINDS:
        lines += ["", "", f"class {kind.capitalize()}Rule(IntFlag):", f'    """{HEAD_IN_PYTHON[kind]}"""', ""]
        for rule in of_kind(rules, kind):
            lines.append(f"    {capitals(rule.name)} = 1 << {rule.bit}")
            lines.append(f'    """{rule.sentence} ({rule.sections})."""')
    return [*lines, "", ""]


def on_page(rules: list[Rule], kind: str) -> list[str]:
    """The table of README.md of der_verify."""
    lines = [f"| Rule of `{kind.capitalize()}Rule` | Section | Broken by a {kind} with |", "|---|---|---|"]
    return lines + [f"| `{rule.name}` | {rule.section} | {rule.broken_by} |" for rule in of_kind(rules, kind)]
