"""The modules of standards, as their RFCs have them but for annotations and what is omitted."""

from __future__ import annotations

import unittest

from ..crates import entries_of
from ..model import (
    Alias,
    Allowed,
    Choice,
    Constant,
    Definition,
    Leaf,
    List,
    Measure,
    Presence,
    ResolvedModule,
    Struct,
    Tagged,
    Use,
    Whole,
)
from ..properties import Properties, properties_of_definition, tags_of
from .helpers import MODULES, resolved, standard

PKIX = ("PKIX1Explicit88", "PKIX1Implicit88")
CMS = ("CryptographicMessageSyntax2004", "PKIXAttributeCertificate", "AttributeCertificateVersion1")


def modules(*names: str) -> dict[str, ResolvedModule]:
    found, _ = resolved(*(standard(name) for name in names))
    return {module.name: module for module in found}


def definition(module: ResolvedModule, rust: str) -> Definition:
    return next(found for found in module.definitions if found.rust == rust)


def struct(module: ResolvedModule, rust: str) -> Struct:
    found = definition(module, rust)
    assert isinstance(found, Struct)
    return found


def constant(module: ResolvedModule, name: str) -> Constant:
    return next(found for found in module.constants if found.name == name)


class Pkix(unittest.TestCase):
    """RFC 5280 appendix A, in the 1988 syntax."""

    def setUp(self) -> None:
        found = modules(*PKIX)
        self.explicit, self.implicit = found["PKIX1Explicit88"], found["PKIX1Implicit88"]

    def test_a_tbs_certificate_has_ten_fields(self) -> None:
        found = struct(self.explicit, "TbsCertificate")
        self.assertEqual(
            [part.rust for part in found.fields],
            [
                "version",
                "serial_number",
                "signature",
                "issuer",
                "validity",
                "subject",
                "subject_public_key_info",
                "issuer_unique_id",
                "subject_unique_id",
                "extensions",
            ],
        )

    def test_a_tbs_certificate_is_copied_and_takes_no_memory(self) -> None:
        found = struct(self.explicit, "TbsCertificate")
        self.assertEqual(properties_of_definition(found), Properties(borrows=True, takes_memory=False, is_copy=True))

    def test_a_type_that_is_written_out_has_the_name_of_its_annotation(self) -> None:
        found = struct(self.explicit, "RevokedCertificate")
        self.assertEqual([part.rust for part in found.fields], ["user_certificate", "revocation_date", "crl_entry_extensions"])

    def test_a_name_is_a_choice_and_gets_an_explicit_tag(self) -> None:
        found = definition(self.implicit, "GeneralName")
        assert isinstance(found, Choice)
        self.assertEqual([alternative.rust for alternative in found.alternatives][:3], ["OtherName", "Rfc822Name", "DnsName"])
        tags = [part.type for part in found.alternatives if isinstance(part.type, Tagged)]
        self.assertEqual([tag.tag.number for tag in tags], list(range(9)))
        self.assertEqual([tag.tag.number for tag in tags if tag.is_explicit], [4])

    def test_names_of_bits(self) -> None:
        found = definition(self.implicit, "KeyUsage")
        assert isinstance(found, Alias)
        self.assertEqual([(one.name, one.number) for one in found.bits][5], ("keyCertSign", 5))

    def test_lists_that_are_never_empty(self) -> None:
        found = definition(self.explicit, "Extensions")
        assert isinstance(found, List)
        self.assertTrue(found.is_never_empty)

    def test_constants(self) -> None:
        self.assertEqual(constant(self.implicit, "id-ce-keyUsage").arcs, (2, 5, 29, 15))
        self.assertEqual(constant(self.implicit, "id-kp-OCSPSigning").arcs, (1, 3, 6, 1, 5, 5, 7, 3, 9))
        self.assertEqual(constant(self.implicit, "id-holdinstruction-reject").arcs, (2, 2, 840, 10040, 2, 3))
        self.assertEqual(constant(self.explicit, "id-at-commonName").arcs, (2, 5, 4, 3))


class Others(unittest.TestCase):
    def test_ocsp(self) -> None:
        found = modules("OCSP", *PKIX)["OCSP-2013-88"]
        response = struct(found, "SingleResponse")
        self.assertEqual(tags_of(response.fields[1].type), tags_of(Use(definition(found, "CertStatus"))))
        self.assertEqual(struct(found, "TbsRequest").fields[0].default, 0)
        self.assertEqual(constant(found, "id-pkix-ocsp-nonce").arcs[-2:], (1, 2))

    def test_cms(self) -> None:
        found = modules(*CMS, *PKIX)["CryptographicMessageSyntax2004"]
        signed = struct(found, "SignedData")
        certificates = signed.fields[3].type
        assert isinstance(certificates, Tagged) and isinstance(certificates.of, Use)
        self.assertFalse(certificates.is_explicit)
        self.assertEqual(certificates.of.definition.rust, "CertificateSet")

    def test_time_stamps(self) -> None:
        found = modules("PKIXTSP", "PKIXCMP", *CMS, *PKIX)["PKIXTSP"]
        tsa = struct(found, "TstInfo").fields[8].type
        assert isinstance(tsa, Tagged)
        self.assertTrue(tsa.is_explicit)

    def test_snmp(self) -> None:
        found = modules("SNMPv2-PDU")["SNMPv2-PDU"]
        self.assertEqual([part.rust for part in struct(found, "VarBind").fields], ["name", "choice"])
        request = struct(found, "Pdu").fields[0].type
        allowed = Allowed(Measure.NUMBER, ((-214783648, 214783647),))
        self.assertEqual(request, Leaf(Whole.MACHINE_INTEGER, width="i32", allowed=allowed))
        pdus = definition(found, "Pdus")
        assert isinstance(pdus, Choice)
        self.assertEqual([min(tags_of(part.type) or []).number for part in pdus.alternatives], [0, 1, 5, 2, 3, 6, 7, 8])

    def test_kerberos(self) -> None:
        found = modules("KerberosV5Spec2")["KerberosV5Spec2"]
        request = definition(found, "AsReq")
        assert isinstance(request, Alias) and isinstance(request.type, Tagged) and isinstance(request.type.of, Use)
        self.assertEqual((request.type.tag.number, request.type.is_explicit), (10, True))
        self.assertEqual(request.type.of.definition, definition(found, "KdcReq"))
        body = struct(found, "KdcReqBody")
        self.assertEqual([min(tags_of(part.type) or []).number for part in body.fields], list(range(12)))
        self.assertEqual([part.rust for part in body.fields if part.presence is Presence.ALWAYS], ["kdc_options", "realm", "till", "nonce", "etype"])
        self.assertEqual(properties_of_definition(body), Properties(borrows=True, takes_memory=False, is_copy=True))

    def test_addresses(self) -> None:
        found = modules("IPAddrAndASCertExtn", *PKIX)["IPAddrAndASCertExtn"]
        self.assertEqual(constant(found, "id-pe-ipAddrBlocks").arcs, (1, 3, 6, 1, 5, 5, 7, 1, 7))
        choice = definition(found, "AsIdOrRange")
        assert isinstance(choice, Choice)
        self.assertEqual([min(tags_of(part.type) or []).number for part in choice.alternatives], [2, 16])


class HandedOn(unittest.TestCase):
    """The modules of RFC 5280 by their own names, which hand on what stands in others by topic."""

    def test_what_imports_from_them_is_taken_as_it_stands(self) -> None:
        entries = entries_of(MODULES.parents[3] / "asn1" / "modules.txt")
        files = [entry.file for entry in entries if entry.crate in ("der_pkix", "der_extensions")]
        texts = [file.read_text(encoding="utf-8") for file in files]
        found, _ = resolved(*texts, standard("OCSP"))
        ocsp = next(module for module in found if module.name == "OCSP-2013-88")
        kinds = [part.type for part in struct(ocsp, "CertId").fields]
        assert isinstance(kinds[0], Use)
        self.assertEqual((kinds[0].definition.module, kinds[0].definition.rust), ("PkixCertificates", "AlgorithmIdentifier"))
