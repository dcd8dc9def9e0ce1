/* The numbers of faults in words, and the steps that refuse by their letters. They are not proved. */
#include <barleypulley/der.h>

const char *der_number_text(uint32_t number)
{
    static const char *const texts[] = {
        [DER_OK] = "no fault",
        [DER_MEMORY] = "memory ran out",
        [DER_INCOMPLETE] = "the octets end too soon",
        [DER_TRAILING_DATA] = "octets are left over after a value",
        [DER_TAG_UNEXPECTED] = "another tag stands there than may stand there",
        [DER_TAG_UNKNOWN] = "no tag that is known",
        [DER_TAG_NUMBER_INVALID] = "a tag number that is out of range or not in its shortest form",
        [DER_LENGTH] = "contents of a length that the type does not have",
        [DER_NONCANONICAL] = "an encoding of the value that is not the one of DER",
        [DER_OVERFLOW] = "a number of octets that is out of range",
        [DER_OVERLENGTH] = "a length that is too great or not in its shortest form",
        [DER_SET_ORDERING] = "items of a set that are not in order",
        [DER_UTF8] = "octets that are no UTF-8",
        [DER_VALUE] = "contents that stand for no value of the type",
        [DER_DATE_TIME] = "no date or time",
        [DER_OID_MALFORMED] = "no object identifier",
        [DER_INDEFINITE_LENGTH] = "an indefinite length",
        [DER_FAILED] = "refused before",
    };
    if (number == DER_BAD_PLACE)
        return "a place that is not within the octets";
    if (number == DER_NULL_POINTER)
        return "a null pointer with a length";
    if (number == DER_UNKNOWN_NAME)
        return "no type has the name";
    if (number == DER_SHORT_BUFFER)
        return "a buffer that is too short";
    if (number == DER_STEP_REFUSES)
        return "a step of path validation refuses a certificate";
    if (number == DER_EXTENSION_UNREAD)
        return "an extension stands twice or cannot be read";
    if (number == DER_EMPTY_CHAIN)
        return "a chain of no certificates";
    if (number == DER_LIST_REFUSED)
        return "a step refuses a list of revoked certificates";
    if (number == DER_ANSWER_REFUSED)
        return "a step refuses an answer of OCSP";
    if (number == DER_LIST_UNREAD)
        return "an extension of a list stands twice or cannot be read";
    return number < sizeof texts / sizeof texts[0] ? texts[number] : "no such number";
}

const char *der_step_text(uint32_t step)
{
    static const char *const letters[] = {
        [0] = "no step",
        /* written by tools/bindings: steps of certificates */
        [DER_STEP_VALIDITY] = "6.1.3 (a)(2)",
        [DER_STEP_ISSUER] = "6.1.3 (a)(4)",
        [DER_STEP_PERMITTED] = "6.1.3 (b)",
        [DER_STEP_EXCLUDED] = "6.1.3 (c)",
        [DER_STEP_POLICIES] = "6.1.3 (f)",
        [DER_STEP_ANY_POLICY_IS_MAPPED] = "6.1.4 (a)",
        [DER_STEP_CA] = "6.1.4 (k)",
        [DER_STEP_PATH_LENGTH] = "6.1.4 (l)",
        [DER_STEP_KEY_USAGE] = "6.1.4 (n)",
        [DER_STEP_UNKNOWN_EXTENSION] = "6.1.4 (o)",
        [DER_STEP_UNKNOWN_EXTENSION_AT_END] = "6.1.5 (f)",
        [DER_STEP_USER_POLICIES] = "6.1.5 (g)",
        /* end of steps of certificates */
    };
    return letters[step < sizeof letters / sizeof letters[0] ? step : 0];
}

const char *der_list_step_text(uint32_t step)
{
    static const char *const letters[] = {
        [0] = "no step",
        /* written by tools/bindings: steps of lists */
        [DER_LIST_DELTA] = "5.2.4",
        [DER_LIST_UNKNOWN_EXTENSION] = "5.2",
        [DER_LIST_UNREAD_ENTRY] = "5.3",
        [DER_LIST_UNKNOWN_ENTRY_EXTENSION] = "5.3",
        [DER_LIST_ISSUER] = "6.3.3 (b)(1)",
        [DER_LIST_POINT_NAME] = "6.3.3 (b)(2)(i)",
        [DER_LIST_USER_CERTIFICATES] = "6.3.3 (b)(2)(ii)",
        [DER_LIST_CA_CERTIFICATES] = "6.3.3 (b)(2)(iii)",
        [DER_LIST_ATTRIBUTE_CERTIFICATES] = "6.3.3 (b)(2)(iv)",
        [DER_LIST_THIS_UPDATE] = "5.1.2.4",
        [DER_LIST_NEXT_UPDATE] = "6.3.3 (a)(1)",
        [DER_LIST_NO_NEW_REASONS] = "6.3.3 (e)",
        /* end of steps of lists */
    };
    return letters[step < sizeof letters / sizeof letters[0] ? step : 0];
}

const char *der_ocsp_step_text(uint32_t step)
{
    static const char *const letters[] = {
        [0] = "no step",
        /* written by tools/bindings: steps of answers */
        [DER_OCSP_CRITICAL_EXTENSION] = "4.4",
        [DER_OCSP_NOT_ANSWERED] = "3.2 (1)",
        [DER_OCSP_THIS_UPDATE] = "3.2 (5)",
        [DER_OCSP_NEXT_UPDATE] = "3.2 (6)",
        [DER_OCSP_NO_RESPONDER] = "3.2 (4)",
        /* end of steps of answers */
    };
    return letters[step < sizeof letters / sizeof letters[0] ? step : 0];
}
