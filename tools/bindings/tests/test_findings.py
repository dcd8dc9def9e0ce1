"""The arms of certview's findings: one for each rule, and the last for the rule that no other names."""

from __future__ import annotations

from ..comparing.findings import FILE
from .tree import TreeTest

LAST = '        _ => is_not_critical("inhibitAnyPolicy", &ID_CE_INHIBIT_ANY_POLICY),\n'


class Findings(TreeTest):
    def test_a_rule_with_two_arms(self) -> None:
        old = '        CertificateRule::SerialNumberIsPositive => of_field("serialNumber", "is not positive"),\n'
        line = self.change(FILE, old, old + old)
        self.assertEqual(self.told(), [f"{FILE}:{line + 1}: SerialNumberIsPositive has two arms"])

    def test_an_arm_for_the_rule_of_the_last_one(self) -> None:
        line = self.change(FILE, LAST, LAST.replace("_ =>", "CertificateRule::InhibitAnyPolicyIsCritical =>") + LAST)
        self.assertEqual(self.told(), [f"{FILE}:{line + 1}: the arm '_' is that of one rule, and here of none"])

    def test_two_rules_for_the_last_arm(self) -> None:
        self.change(FILE, '        CertificateRule::IssuerIsNotEmpty => of_field("issuer", "is empty"),\n', "")
        line = self.text(FILE)[: self.text(FILE).index(LAST)].count("\n") + 1
        named = "IssuerIsNotEmpty, InhibitAnyPolicyIsCritical"
        self.assertEqual(self.told(), [f"{FILE}:{line}: the arm '_' is that of one rule, and here of {named}"])

    def test_a_rule_that_is_not_in_the_table(self) -> None:
        old = "        CertificateRule::IssuerIsNotEmpty =>"
        line = self.change(FILE, old, '        CertificateRule::IssuerIsThere => of_field("issuer", "is absent"),\n' + old)
        self.assertEqual(self.told(), [f"{FILE}:{line}: the table has no rule IssuerIsThere"])

    def test_a_match_without_a_last_arm(self) -> None:
        self.change(FILE, LAST, LAST.replace("_ =>", "CertificateRule::InhibitAnyPolicyIsCritical =>"))
        self.assertEqual(self.told(), [f"{FILE}:1: certificate_finding and certificate_criticality are not there, each with a last arm '_'"])
