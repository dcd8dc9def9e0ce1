"""A change of one list, by hand, is told with its file and its line."""

from __future__ import annotations

from .tree import TreeTest

HEADER = "c/include/barleypulley/der.h"
CALLS = "c/tests/calls.c"
FUZZED = "c/tests/fuzz_inner.c"
CHECKED = "c/checked.c"
SYS = "rust/der-proved-sys/src/lib.rs"
SAFE = "rust/der-proved-sys/src/safe.rs"
RUST = "rust/der-proved/src/rules.rs"
GO = "go/der/rules.go"
PYTHON = "python/src/derproved/__init__.py"
PLACES = "python/src/derproved/_places.py"
PAGE = "crates/der_verify/README.md"

VERIFY = "crates/der_verify/src/rfc5280.rt"
LISTS = "crates/der_verify/src/rfc5280/lists.rt"
SECTIONS = "crates/der_verify/specs/Sections.antt"
RULES_ANTT = "crates/der_verify/specs/Rfc5280.antt"
LISTS_ANTT = "crates/der_verify/specs/Rfc5280Lists.antt"
BITS = "crates/der_c/src/rfc5280.rt"
NEXT = "crates/der_c/src/next.rt"
FINDINGS = "crates/certview_text/src/findings.rt"
FIELDS_IN_RUST = "rust/der-proved/src/fields.rs"
FIELDS_IN_GO = "go/der/fields.go"
FIELDS_IN_PYTHON = "python/src/derproved/_fields.py"
WRITTEN_EXTENSION = "crates/der_c/src/building/extension.rt"
TEXTS = "c/texts.c"
STEPS_IN_RUST = ("rust/der-proved/src/path.rs", "rust/der-proved/src/status.rs")
STEPS_IN_GO = ("go/der/path.go", "go/der/status.go")
STEPS_IN_PYTHON = ("python/src/derproved/_path.py", "python/src/derproved/_status.py")
STEP = "crates/der_path/src/step.rt"
LIST_STEP = "crates/der_path/src/list_step.rt"
OCSP_STEP = "crates/der_path/src/ocsp_step.rt"
STEPS_ANTT = "crates/der_path/specs/Steps.antt"
LIST_STEPS_ANTT = "crates/der_path/specs/ListSteps.antt"
OCSP_STEPS_ANTT = "crates/der_path/specs/OcspSteps.antt"
REFUSAL = "crates/der_c/src/path/refusal.rt"
NUMBERS = "crates/der_c/src/revocation/numbers.rt"
REFUSAL_ANTT = "crates/der_c/specs/ChainFaults.antt"
NUMBERS_ANTT = "crates/der_c/specs/StatusNumbers.antt"
WORDS = "crates/certview_text/src/steps.rt"
PATH_AT = "crates/der_c/src/path/written.rt"
OCSP_STATUS_AT = "crates/der_c/src/revocation/answer.rt"
RESPONDER_AT = "crates/der_c/src/revocation/responders.rt"

# file, a text that stands there once, another text, and how many lines below the text's first line it is told
WRITTEN = [
    (HEADER, "DER_CERTIFICATE_ISSUER_NOT_EMPTY ((uint64_t)1 << 4)", "DER_CERTIFICATE_ISSUER_NOT_EMPTY ((uint64_t)1 << 5)", 0),
    (HEADER, "DER_LIST_NEXT_UPDATE_THERE (", "DER_LIST_NEXT_UPDATE_IS_THERE (", 0),
    (HEADER, "    der_place encap_content_info;", "    der_place encapsulated_content;", 0),
    (HEADER, "sizeof(der_signer_info_at) == 72", "sizeof(der_signer_info_at) == 80", 0),
    (HEADER, "uint32_t der_content_info(const", "uint32_t der_content(const", 0),
    (HEADER, "uint32_t der_next_extension(", "uint32_t der_next(", 0),
    (CHECKED, "CHECKED(extension, der_extension_at)\n", "", 0),
    (CHECKED, "CHECKED_NEXT(request, der_request_at)", "CHECKED_NEXT(request, der_cert_id_at)", 0),
    (CALLS, "REFUSES(der_pfx_at, der_pfx)", "REFUSES(der_pfx_at, der_mac_data)", 0),
    (FUZZED, "INNER(pfx, der_pfx_at)", "INNER(pfx, der_mac_data_at)", 0),
    (FUZZED, "ITEMS(der_next_request,", "ITEMS(der_next_extension,", 0),
    (CALLS, "LEAVES(der_request_at, der_next_request)", "LEAVES(der_request_at, der_next_extension)", 0),
    ("rust/der-proved/src/inner.rs", "Pfx, pfx, PfxAt", "Pfx, pfx, CertIdAt", 0),
    ("go/der/inner.go", "at     C.der_pfx_at", "at     C.der_cert_id_at", 0),
    ("python/src/derproved/_inner.py", "class Pfx(_der.Pfx):", "class Pfx(_der.CertId):", 0),
    (SYS, "    pub responder_id: Place,\n", "", 0),
    (SYS, "    pub response_status_number: i64,", "    pub response_status_number: u64,", 0),
    (SYS, "    pub fn der_extension(", "    pub fn der_extensions(", 0),
    (SAFE, "    extension: der_extension -> crate::ExtensionAt,\n", "", 0),
    (RUST, '        UniqueIdentifiersInVersion2 "4.1.2.8"', '        UniqueIdentifiersInVersion2 "4.1.2.9"', 0),
    (RUST, '        NextUpdateIsThere "5.1.2.5"', '        NextUpdate "5.1.2.5"', 0),
    (GO, "\tCertificateIssuerIsNotEmpty\n", "\tCertificateIssuerNotEmpty\n", 0),
    (GO, "the issuer is not empty (5.1.2.3)", "the issuer is not empty (5.1.2.4)", 0),
    (PYTHON, "    SERIAL_NUMBER_IS_POSITIVE = 1 << 2", "    SERIAL_NUMBER_POSITIVE = 1 << 2", 0),
    (PYTHON, '    """Each extension of the list stands once (5.2, 4.2)."""\n', "", 0),
    (PLACES, '_indices("algorithm subject_public_key")', '_indices("subject_public_key algorithm")', 0),
    ("python/src/derproved/_der.pyi", "class SignerInfo(Message): ...\n", "", 0),
    ("python/src/derproved/classes.h", "    der_attribute_at attribute;\n", "", 0),
    ("python/src/derproved/message.c", "A(signed_data, SignedData, 8, 1, true) ", "A(signed_data, SignedData, 7, 1, true) ", 0),
    (PAGE, "| `NameConstraintsIsCritical` | 4.2.1.10 |", "| `NameConstraintsIsCritical` | 4.2.1.11 |", 0),
    (PAGE, "| `EmptyListIsAbsent` | 5.1.2.6 | an empty", "| `EmptyListIsAbsent` | 5.1.2.6 | a long", 0),
    ("rust/der-proved/src/cms.rs", "        digest_algorithms\n", "        digests\n", 0),
    ("rust/der-proved/src/key.rs", "    optional_fields! {\n", "    fields! {\n", 0),
    ("go/der/ocsp.go", "CertID() []byte { return at(s.octets, s.at.cert_id) }", "CertID() []byte { return at(s.octets, s.at.whole) }", 0),
    ("go/der/attribute.go", "// Value returns value, of any type.\n", "", 0),
    (PYTHON, "    serial_number = _der.field(4,", "    serial_number = _der.field(3,", 0),
    (PYTHON, "    e_content = _der.optional(", "    e_content = _der.field(", 0),
    ("docs/C.md", "3 fields and 10 of `tbsCertificate`", "3 fields and 9 of `tbsCertificate`", 0),
    (CHECKED, "WRITES(extension, der_extension_at)\n", "", 0),
    (SYS, "    pub fn der_write_extension(", "    pub fn der_write_extensions(", 0),
    (SAFE, "    write_extension: der_write_extension <- crate::ExtensionAt,\n", "", 0),
    (FIELDS_IN_RUST, "room.optional_items(it.crl_extensions, &[0x30, 0xa0])", "room.items(it.crl_extensions, &[0x30, 0xa0])", 0),
    (FIELDS_IN_GO, "fields.CRLExtensions, 0x30, 0xa0)", "fields.CRLExtensions, 0x30, 0xa1)", 0),
    (FIELDS_IN_PYTHON, "optional_items(crl_extensions, 0x30, 0xA0)", "optional_items(crl_extensions, 0x30)", 0),
    ("python/src/derproved/writing.c", "A(cert_id, cert_id, 4, 0)", "A(cert_id, cert_id, 3, 0)", 0),
    (HEADER, "    uint64_t refused_index; /* which certificate", "    uint32_t refused_index; /* which certificate", 0),
    (HEADER, "sizeof(der_responder_at) == 16", "sizeof(der_responder_at) == 24", 0),
    (HEADER, "DER_ASSERT(offsetof(der_path_inputs, mapping_inhibit) == 40, \"after 4 places and 1 number of 64 bits\");\n", "", 0),
    (SYS, "    pub any_policy_inhibit: u32,", "    pub any_policy: u32,", 0),
    (SYS, "size_of::<OcspStatusAt>() == 56", "size_of::<OcspStatusAt>() == 64", 0),
    (HEADER, "    DER_STEP_CA = 7, ", "    DER_STEP_CA = 8, ", 0),
    (HEADER, "    DER_LIST_ISSUER = 5, ", "    DER_LIST_ITS_ISSUER = 5, ", 0),
    (HEADER, "/* 3.2 (5): the status", "/* 3.2 (6): the status", 0),
    (TEXTS, '[DER_STEP_CA] = "6.1.4 (k)"', '[DER_STEP_CA] = "6.1.4 (l)"', 0),
    (TEXTS, '        [DER_LIST_THIS_UPDATE] = "5.1.2.4",\n', "", 0),
    (TEXTS, '[DER_OCSP_NO_RESPONDER] = "3.2 (4)"', '[DER_OCSP_NO_RESPONDER] = "4.2.2.2"', 0),
    (STEPS_IN_RUST[0], "        Ca = 7,\n", "        CA = 7,\n", 0),
    (STEPS_IN_RUST[1], "        ThisUpdate = 10,", "        ThisUpdate = 11,", 0),
    (STEPS_IN_RUST[1], "/// 3.2 (1): the answer is about other", "/// 3.2 (1): the answer is of other", 0),
    (STEPS_IN_GO[0], "\tStepCA Step = 7\n", "\tStepCa Step = 7\n", 0),
    (STEPS_IN_GO[1], "\tListStepNoNewReasons ListStep = 12\n", "", 0),
    (STEPS_IN_GO[1], "\tOCSPStepNotAnswered OCSPStep = 2\n", "\tOCSPStepNotAnswered ListStep = 2\n", 0),
    (STEPS_IN_PYTHON[0], "    CA = 7\n", "    CA = 6\n", 0),
    (STEPS_IN_PYTHON[1], "    DELTA = 1\n", "    A_DELTA = 1\n", 0),
    (STEPS_IN_PYTHON[1], '    """3.2 (6): newer information is available at the moment."""\n', "", 0),
]
COMPARED = [
    (NEXT, "    out: &mut RequestPlaces,", "    out: &mut CertIdPlaces,", 0),
    (VERIFY, "    IssuerIsNotEmpty,\n", "    IssuerIsThere,\n", 0),
    (VERIFY, "/// The issuer is not empty (4.1.2.4).", "/// The issuer is not empty (4.1.2.5).", 1),
    (VERIFY, "    CertificateRule::IssuerIsNotEmpty,\n", "", 0),
    (VERIFY, "    CertificateRule::NameConstraintsIsCritical,\n    CertificateRule::PolicyConstraintsIsCritical,\n",
     "    CertificateRule::PolicyConstraintsIsCritical,\n    CertificateRule::NameConstraintsIsCritical,\n", 0),
    (VERIFY, 'CertificateRule::ExtensionsStandOnce => "4.2",', 'CertificateRule::ExtensionsStandOnce => "4.1",', 0),
    (LISTS, "/// nextUpdate is there (5.1.2.5).", "/// nextUpdate is not there (5.1.2.5).", 1),
    (LISTS, "    ListRule::CertificateIssuerIsCritical,\n", "", 0),
    (LISTS, 'ListRule::ReasonCodeIsNotCritical => "5.3.1",', 'ListRule::ReasonCodeIsNotCritical => "5.3.2",', 0),
    (SECTIONS, 'section rule.FreshestCrlIsNotCritical = codes "4.2.1.15"', 'section rule.FreshestCrlIsNotCritical = codes "4.2.1.1"', 0),
    (SECTIONS, 'list_section list_rule.NextUpdateIsThere = codes "5.1.2.5"\n', "", 0),
    (RULES_ANTT, "    ∷ rule.ExtensionsStandOnce\n", "", 0),
    (LISTS_ANTT, "    ∷ rule.EmptyListIsAbsent\n", "    ∷ rule.IssuerIsNotEmpty\n", 0),
    (BITS, "        CertificateRule::SerialNumberIsPositive.is_broken(alloc, value),\n", "", 0),
    (BITS, "        ListRule::NextUpdateIsThere.is_broken", "        ListRule::EmptyListIsAbsent.is_broken", 0),
    (BITS, "        ListRule::NextUpdateIsThere.is_broken", "        !ListRule::NextUpdateIsThere.is_broken", 0),
    (FINDINGS, "        CertificateRule::IssuerIsNotEmpty =>", "        CertificateRule::IssuerIsThere =>", 0),
    (FINDINGS, '            is_critical("subjectKeyIdentifier"', '            is_critical("authorityKeyIdentifier"', -1),
    (FINDINGS, 'is_not_critical("inhibitAnyPolicy"', 'is_critical("inhibitAnyPolicy"', 0),
    (FINDINGS, '"has a critical reasonCode"', '"has a reasonCode"', -1),
    (FINDINGS, "        ListRule::CrlNumberIsNotCritical =>", "        ListRule::FreshestCrlIsNotCritical =>", None),
    ("crates/der_c/src/certificate.rt", "    pub not_before: u64,\n", "", 1),
    ("crates/der_c/src/certificate.rt", "    pub tbs: TbsCertificatePlaces,", "    pub signed: TbsCertificatePlaces,", 0),
    ("crates/der_c/src/extension.rt", "    pub is_critical: u32,", "    pub is_critical: u64,", 0),
    ("crates/der_c/src/keys.rt", "    out: &mut SubjectPublicKeyInfoPlaces,", "    out: &mut PrivateKeyInfoAt,", None),
    ("crates/der_c/src/signer_info.rt", "pub extern \"C\" fn der_signer_info<'a>(", "pub extern \"C\" fn der_signer<'a>(", None),
    ("crates/der_c/src/attribute.rt", "#[repr(C)]\n#[derive(Clone, Copy, Debug, PartialEq, Eq)]\npub struct AttributeAt",
     "pub struct AttributeAt", None),
    ("crates/der_places/src/cms/signer_info.rt", "    pub sid: Place,", "    pub signer: Place,", 0),
    ("docs/C.md", "which of 23 rules", "which of 24 rules", 0),
    (WRITTEN_EXTENSION, "fn der_write_extension<", "fn der_write_one<", None),
    (PATH_AT, "    pub policies_len: u64,", "    pub policies_len: u32,", 0),
    (OCSP_STATUS_AT, "    pub key_hash_len: u64,\n", "", 1),
    (OCSP_STATUS_AT, "    pub has_key_hash: u32,", "    pub names_key: u32,", 0),
    (RESPONDER_AT, "#[repr(C)]\n#[derive(Clone, Copy, Debug, PartialEq, Eq)]\npub struct ResponderAt ",
     "#[repr(C)]\n#[derive(Clone, Copy, Debug, PartialEq, Eq)]\npub struct SignerAt ", 2),
    (STEP, "    PathLength,\n", "    PathIsLong,\n", 0),
    (STEP, "    /// 6.1.4 (n): keyUsage", "    /// 6.1.4 (o): keyUsage", 1),
    (STEP, 'Step::Policies => "6.1.3 (f)",', 'Step::Policies => "6.1.5 (g)",', 0),
    (LIST_STEP, "    NoNewReasons,\n}", "    NoNewReasons,\n    /// 5.2: more.\n    More,\n}", 2),
    (LIST_STEP, '            ListStep::Delta => "5.2.4",\n', "", 0),
    (OCSP_STEP, "    NotAnswered,\n", "    NotAsked,\n", 0),
    (OCSP_STEP, 'OcspStep::NoResponder => "3.2 (4)",', 'OcspStep::NoResponder => "3.2 (3)",', 0),
    (STEPS_ANTT, 'letter step.Ca = codes "6.1.4 (k)"', 'letter step.Ca = codes "6.1.4 (l)"', 0),
    (LIST_STEPS_ANTT, 'list_letter step.UnreadEntry = codes "5.3"\n', "", 0),
    (OCSP_STEPS_ANTT, 'step.ThisUpdate = codes "3.2 (5)"', 'step.ThisUpdate = codes "3.2 (6)"', 0),
    (REFUSAL, "        Step::Permitted => 3,\n        Step::Excluded => 4,\n", "        Step::Excluded => 4,\n        Step::Permitted => 3,\n", 0),
    (REFUSAL, "        Step::UserPolicies => 12,\n", "        Step::UserPolicies => 12,\n        Step::More => 13,\n", 1),
    (NUMBERS, "ListStep::NextUpdate => 11,", "ListStep::NextUpdate => 10,", 0),
    (NUMBERS, "        OcspStep::NoResponder => 5,\n", "", 0),
    (REFUSAL_ANTT, "number_of_step step.Ca = 7\n", "number_of_step step.Ca = 8\n", 0),
    (NUMBERS_ANTT, "number_of_list_step step.Delta = 1\n", "", 0),
    (NUMBERS_ANTT, "number_of_ocsp_step ocsp_step.NextUpdate = 4", "number_of_ocsp_step ocsp_step.NextUpdate = 5", 0),
    (WORDS, "        Step::Ca => \"", "        Step::Authority => \"", 0),
    (WORDS, "Step::UnknownExtension | Step::UnknownExtensionAtEnd =>", "Step::UnknownExtensionAtEnd =>", None),
    (WRITTEN_EXTENSION, "    octets: &'a [u8],\n    at: &ExtensionAt,", "    octets: &'a [u8],\n    at: &CertificateAt,", None),
]


class Lists(TreeTest):
    """The comparison of the tree as it is tells nothing; of a tree with one change, the change."""

    def test_the_tree_as_it_is(self) -> None:
        self.assertEqual(self.run_tool("--check"), (0, []))

    def assert_told(self, changes: list[tuple[str, str, str, int | None]]) -> None:
        for file, old, new, below in changes:
            with self.subTest(file=file, old=old):
                before = self.text(file)
                line = self.change(file, old, new)
                lines = self.told()
                expected = f"{file}:" if below is None else f"{file}:{line + below}: "
                self.assertTrue(any(it.startswith(expected) for it in lines), f"{expected} {lines}")
                (self.root / file).write_text(before, encoding="utf-8")
        self.assertEqual(self.run_tool("--check"), (0, []))

    def test_of_the_written_lists(self) -> None:
        self.assert_told(WRITTEN)

    def test_of_the_lists_of_crates(self) -> None:
        self.assert_told(COMPARED)

    def test_that_each_written_list_is_written_again(self) -> None:
        for file, old, new, _ in WRITTEN:
            before = self.text(file)
            self.change(file, old, new)
            self.assertEqual(self.run_tool(), (0, []))
            self.assertEqual(self.text(file), before)

    def test_that_no_list_of_crates_is_written(self) -> None:
        for file, old, new, _ in COMPARED:
            with self.subTest(file=file, old=old):
                before = self.text(file)
                self.change(file, old, new)
                after = self.text(file)
                self.assertEqual(self.run_tool()[0], 1)
                self.assertEqual(self.text(file), after)
                (self.root / file).write_text(before, encoding="utf-8")
