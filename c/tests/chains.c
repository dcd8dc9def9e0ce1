/* Chains of certificates: chains FILE, of one certificate in DER without an unknown critical extension. The anchor has the name of
 * its issuer, and its own key, since no signature is verified. The last line counts what was tried. */
#include "check.h"

enum { BEFORE = 5 };

/* The octets: an OBJECT IDENTIFIER, 2.999.77, and then the certificate. */
static uint8_t octets[1 << 16] = {6, 3, 0x88, 0x37, 0x4d};
static size_t len;
static der_path_inputs inputs;
static der_place chain[2];
static der_certificate_at certificate;

typedef der_verification_at three[3];
typedef uint8_t buffer[64];
static three verifications;
static buffer policies;
static der_path_at out;
static der_fault fault;

static der_place behind(der_place place)
{
    place.offset += BEFORE;
    return place;
}

/* Validates so many certificates; what a call may write is filled before. */
static uint32_t validate(size_t count, size_t room, size_t size)
{
    FILL(verifications);
    FILL(policies);
    FILL(out);
    FILL(fault);
    return der_check_path(octets, len, &inputs, chain, count, verifications, room, policies, size, &out, &fault);
}

/* a call that refuses writes `out` and `fault` alone */
static void refuses(uint32_t number, uint64_t index, uint32_t step, const char *what)
{
    check(validate(1, 3, sizeof policies) == number && fault.number == number, what);
    check(out.refused_index == index && out.step == step && out.reserved == 0, what);
    check(out.policy_count == 0 && out.policies_len == 0, what);
    IS_FILLED(policies, buffer);
    IS_FILLED(verifications, three);
}

static int are_places(der_place one, der_place other)
{
    return one.offset == other.offset && one.length == other.length;
}

static void valid(void)
{
    der_verification_at filled;
    FILL(filled);
    check(validate(1, 3, sizeof policies) == 0, "the chain is valid");
    IS_FILLED(fault, der_fault);
    check(out.refused_index == 1 && out.step == 0 && out.reserved == 0, "no certificate is refused");
    check(are_places(verifications[0].signed_octets, behind(certificate.tbs_certificate)), "what is signed");
    check(are_places(verifications[0].algorithm, behind(certificate.signature_algorithm)), "how");
    check(are_places(verifications[0].signature, behind(certificate.signature_value)), "the signature");
    check(are_places(verifications[0].key, inputs.anchor_key), "the anchor's key");
    check(is_within(len, verifications[0].parameters), "its parameters");
    check(memcmp(&verifications[1], &filled, sizeof filled) == 0, "nothing behind it is written");
    check(policies[out.policies_len] == 0x5a, "nor behind the policies");
    check(validate(1, 1, out.policies_len) == 0, "as much room as is needed");
}

/* a buffer that is too short, and no buffer */
static void rooms(void)
{
    uint64_t needed;
    check(validate(1, 0, sizeof policies) == DER_SHORT_BUFFER && fault.number == DER_SHORT_BUFFER, "no room");
    check(out.refused_index == 1 && out.step == 0, "which refuses no certificate");
    IS_FILLED(verifications, three);
    IS_FILLED(policies, buffer);
    needed = out.policies_len;
    check(needed == 0 || validate(1, 1, needed - 1) == DER_SHORT_BUFFER, "no room for policies");
    check(out.policies_len == needed, "as many octets as are needed");
    check(der_check_path(octets, len, &inputs, NULL, 1, verifications, 3, policies, 64, &out, &fault) == DER_NULL_POINTER, "no chain");
    check(der_check_path(octets, len, &inputs, chain, 1, NULL, 3, policies, 64, &out, &fault) == DER_NULL_POINTER, "no array");
    check(der_check_path(octets, len, &inputs, chain, 1, verifications, 3, NULL, 64, &out, NULL) == DER_NULL_POINTER, "no buffer");
    check(der_check_path(NULL, len, &inputs, chain, 1, verifications, 3, policies, 64, &out, &fault) == DER_NULL_POINTER, "no octets");
    check(der_check_path(octets, len, &inputs, NULL, 0, NULL, 0, NULL, 0, &out, NULL) == DER_EMPTY_CHAIN, "no certificates");
    check(out.refused_index == 0 && out.step == 0, "and none of them is refused");
}

/* moments and names that steps refuse */
static void steps(void)
{
    inputs.moment = certificate.not_after + 1;
    refuses(DER_STEP_REFUSES, 0, DER_STEP_VALIDITY, "a moment behind the validity");
    inputs.moment = certificate.not_before - 1;
    refuses(DER_STEP_REFUSES, 0, DER_STEP_VALIDITY, "a moment before it");
    inputs.moment = certificate.not_before;
    inputs.anchor_name.offset = (uint32_t)len;
    inputs.anchor_name.length = 2;
    octets[len++] = 0x30; /* the empty name */
    octets[len++] = 0;
    refuses(DER_STEP_REFUSES, 0, DER_STEP_ISSUER, "another issuer");
    inputs.anchor_name = behind(certificate.issuer);
}

/* octets that are refused: a fault counts from the start of all octets */
static void places(void)
{
    const der_path_inputs good = inputs;
    const der_place whole = chain[0];
    chain[0].length--;
    refuses(DER_INCOMPLETE, 0, 0, "a certificate that is cut");
    check(fault.is_placed == 1 && fault.position > BEFORE, "with its position");
    chain[0].offset = (uint32_t)len;
    refuses(DER_BAD_PLACE, 0, 0, "a certificate outside");
    chain[0] = whole;
    inputs.anchor_key.offset = 0;
    inputs.anchor_key.length = BEFORE;
    refuses(DER_TAG_UNEXPECTED, 1, 0, "no key");
    inputs = good;
    inputs.anchor_name.length = (uint32_t)len;
    refuses(DER_BAD_PLACE, 1, 0, "a name outside");
    inputs = good;
    inputs.constraints = good.anchor_key;
    refuses(DER_TRAILING_DATA, 1, 0, "no constraints");
    inputs = good;
    inputs.policies = good.anchor_key;
    refuses(DER_TAG_UNEXPECTED, 1, 0, "no policies");
    inputs = good;
}

/* a policy that no certificate has, where one is required */
static void required(void)
{
    inputs.policies.offset = 0;
    inputs.policies.length = BEFORE;
    inputs.any_policy_inhibit = 1; /* the certificate may have anyPolicy */
    check(validate(1, 3, sizeof policies) == 0 && out.policy_count == 0 && out.policies_len == 0, "valid for no policy of the user");
    inputs.explicit_policy = 7;
    check(validate(1, 3, sizeof policies) == DER_STEP_REFUSES && out.refused_index == 0, "one is required");
    check(out.step == DER_STEP_POLICIES || out.step == DER_STEP_USER_POLICIES, "by a step of policies");
    inputs.explicit_policy = 0;
    inputs.policies.length = 0;
}

int main(int argc, char **argv)
{
    size_t size = read_file(argv[argc - 1], octets + BEFORE, argc == 2 ? sizeof octets - BEFORE - 4 : 0);
    if (size == 0) {
        fprintf(stderr, "chains FILE, of one certificate in DER\n");
        return 2;
    }
    len = BEFORE + size;
    check(der_certificate(octets + BEFORE, size, &certificate, NULL) == 0, "the certificate is read");
    chain[0].offset = BEFORE;
    chain[0].length = (uint32_t)size;
    inputs.moment = certificate.not_before;
    inputs.anchor_name = behind(certificate.issuer);
    inputs.anchor_key = behind(certificate.subject_public_key_info);
    valid();
    rooms();
    steps();
    places();
    required();
    valid();
    return end_of_tests();
}
