"""The spelling of names, and lines."""

from __future__ import annotations

import unittest

from ..names import camel, capitals, field_in_go, field_in_rust, field_of_c_in_go, rule_in_c, rule_in_go, step_in_c, step_in_go, with_article
from ..tables.rules import Rule, rules_of
from ..tables.steps import Step
from ..tables.structs import Field
from ..wrapping import WIDTH, aligned, call_in_c, call_in_rust, comment_in_c
from ..writers.structs_in_c import counted


def rule(name: str, more: str = "") -> Rule:
    return rules_of("table.txt", f"list | 0 | {name} | 5.1 | It holds | nothing{more}\n")[0]


def place(name: str) -> Field:
    return Field(name, name, "place", "field", "an INTEGER")


class Names(unittest.TestCase):
    def test_of_rules(self) -> None:
        self.assertEqual(capitals("SerialNumberHasAtMost20Octets"), "SERIAL_NUMBER_HAS_AT_MOST_20_OCTETS")
        self.assertEqual(capitals("ExtensionsInVersion3"), "EXTENSIONS_IN_VERSION_3")
        self.assertEqual(rule_in_c(rule("CrlNumberIsNotCritical")), "DER_LIST_CRL_NUMBER_NOT_CRITICAL")
        self.assertEqual(rule_in_c(rule("IssuerIsNotEmpty", " | C: ISSUER")), "DER_LIST_ISSUER")
        self.assertEqual(rule_in_c(rule("IsNotEmpty")), "DER_LIST_IS_NOT_EMPTY")
        self.assertEqual(rule_in_go(rule("IssuerIsNotEmpty")), "ListIssuerIsNotEmpty")

    def test_of_steps(self) -> None:
        ca, unknown = (Step("certificate", 7, name, "6.1.4 (k)", "not a CA's") for name in ("Ca", "UnknownExtensionAtEnd"))
        self.assertEqual((step_in_c(ca), step_in_go(ca)), ("DER_STEP_CA", ("StepCA", "Step")))
        self.assertEqual((step_in_c(unknown), step_in_go(unknown)[0]), ("DER_STEP_UNKNOWN_EXTENSION_AT_END", "StepUnknownExtensionAtEnd"))
        of_list, answer = (Step(kind, 8, "CaCertificates", "5.2", "it has CAs alone") for kind in ("list", "answer"))
        self.assertEqual((step_in_c(of_list), step_in_go(of_list)), ("DER_LIST_CA_CERTIFICATES", ("ListStepCACertificates", "ListStep")))
        self.assertEqual((step_in_c(answer), step_in_go(answer)), ("DER_OCSP_CA_CERTIFICATES", ("OCSPStepCACertificates", "OCSPStep")))

    def test_of_structs(self) -> None:
        self.assertEqual(camel("certificate_list"), "CertificateList")
        self.assertEqual(field_in_rust(place("type")), "type_")
        self.assertEqual(field_in_rust(place("types")), "types")
        self.assertEqual([field_of_c_in_go(place(name)) for name in ("type", "types")], ["_type", "types"])

    def test_of_fields_in_go(self) -> None:
        names = {"tbsCertList": "TBSCertList", "crls": "CRLs", "sid": "SID", "crlEntryExtensions": "CRLEntryExtensions", "certID": "CertID",
                 "eContent": "EContent", "subjectPKInfo": "SubjectPKInfo", "type": "Type"}
        self.assertEqual({name: field_in_go(place(name)) for name in names}, names)

    def test_articles(self) -> None:
        self.assertEqual([with_article(noun) for noun in ("key", "entry", "OCSP response")], ["a key", "an entry", "an OCSP response"])


class Lines(unittest.TestCase):
    def test_a_comment(self) -> None:
        self.assertEqual(comment_in_c("One."), ["/* One. */"])
        lines = comment_in_c("word " * 60, "    ")
        self.assertEqual([line[:7] for line in lines], ["    /* ", "     * ", "     * "])
        self.assertTrue(lines[-1].endswith("word */") and all(len(line) <= WIDTH for line in lines))
        self.assertEqual(" ".join(line[7:] for line in lines), "word " * 60 + "*/")

    def test_a_call_in_c(self) -> None:
        self.assertEqual(call_in_c("int f(", ["int a", "int b"], ");"), ["int f(int a, int b);"])
        long = f"int {'b' * 100}"
        self.assertEqual(call_in_c("int f(", ["int parameter", long, "int c"], ");"), ["int f(int parameter,", f"      {long}, int c);"])
        fits = f"int {'b' * (WIDTH - len('int f(int a, int );'))}"
        self.assertEqual(call_in_c("int f(", ["int a", fits], ");"), [f"int f(int a, {fits});"])
        self.assertEqual(call_in_c("int f(", ["int a", f"{fits}b"], ");"), ["int f(int a,", f"      {fits}b);"])

    def test_a_call_in_rust(self) -> None:
        self.assertEqual(call_in_rust("    ", "fn f", ["a: u8", "b: u8"], ";"), ["    fn f(a: u8, b: u8);"])
        long = f"{'b' * 120}: u8"
        self.assertEqual(call_in_rust("    ", "fn f", ["a: u8", long], ";"), ["    fn f(", "        a: u8,", f"        {long},", "    );"])

    def test_comments_in_one_column(self) -> None:
        self.assertEqual(aligned([("a;", "/* x */"), ("abc;", "/* y */")]), ["a;   /* x */", "abc; /* y */"])

    def test_counts(self) -> None:
        one, number, small = (Field("a", "a", type_, "", "x") for type_ in ("place", "i64", "u32"))
        self.assertEqual(counted([one]), "1 place")
        self.assertEqual(counted([one, one, number]), "2 places and 1 number of 64 bits")
        self.assertEqual(counted([one, small, small]), "1 place and 2 numbers of 32 bits")
