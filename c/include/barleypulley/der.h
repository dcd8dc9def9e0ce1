/* DER of certificates, certificate revocation lists, keys, requests, OCSP responses and signed messages, by proved code.
 * The calls accept exactly the octets of the grammar, and return the place of each field, the rules of RFC 5280 that are
 * broken, and the canonical encoding of a value.
 *
 * A call reads octets that the caller owns, and keeps no pointer to them. It shares no state, takes no lock and always
 * returns. Its results are numbers, so nothing has to be freed. Calls may run on several threads at once.
 *
 * A call that reads returns 0, or the number of the first fault of the octets. If it returns 0 it writes `out`, and `fault`
 * is unchanged; else it writes `fault`, and `out` is unchanged. `fault` may be NULL in every call.
 *
 * No compiler checks what a caller owes:
 *   - A pointer with a length points to so many octets, and nothing writes them during the call. A null pointer with length
 *     0 stands for no octets; with another length it is refused (101).
 *   - `out`, `fault`, a buffer and the octets do not overlap. `out` and `fault` are aligned as their types are.
 *   - der_canonical, der_check_path, der_list_status, der_revocation_status and der_ocsp_status are not called from a signal
 *     handler, or in a process that was forked from one with threads: they take memory from malloc, and give it back. No other
 *     call takes memory.
 */
#ifndef BARLEYPULLEY_DER_H
#define BARLEYPULLEY_DER_H
#include <assert.h>
#include <stddef.h>
#include <stdint.h>
#ifdef __cplusplus
extern "C" {
#endif

/* A compiler that lays out a struct in another way than the library is stopped, also before C11 and C++11. */
#if (defined(__STDC_VERSION__) && __STDC_VERSION__ >= 201112L) || (defined(__cplusplus) && __cplusplus >= 201103L)
#define DER_ASSERT(condition, words) static_assert(condition, words)
#else
#define DER_ASSERT(condition, words) extern char der_assertion[(condition) ? 1 : -1]
#endif

/* The version of the interface: it changes with a struct, a number or a promise of this file. One promise is which octets
 * are accepted. */
#define DER_ABI_VERSION 2

/* The numbers of faults. 1 to 17 are faults of the octets, and 100 and more are faults of a call. A number never changes
 * its meaning. */
enum der_number {
    DER_OK = 0,
    DER_MEMORY = 1,             /* memory ran out, in a call that takes memory */
    DER_INCOMPLETE = 2,         /* the octets end too soon */
    DER_TRAILING_DATA = 3,      /* octets are left over after a value */
    DER_TAG_UNEXPECTED = 4,     /* another tag stands there than may stand there */
    DER_TAG_UNKNOWN = 5,        /* no tag that is known */
    DER_TAG_NUMBER_INVALID = 6, /* a tag number that is out of range or not in its shortest form */
    DER_LENGTH = 7,             /* contents of a length that the type does not have */
    DER_NONCANONICAL = 8,       /* an encoding of the value that is not the one of DER */
    DER_OVERFLOW = 9,           /* more octets than 4294967295 */
    DER_OVERLENGTH = 10,        /* a length that is too great or not in its shortest form */
    DER_SET_ORDERING = 11,      /* items of a set that are not in order */
    DER_UTF8 = 12,              /* octets that are no UTF-8 */
    DER_VALUE = 13,             /* contents that stand for no value of the type */
    DER_DATE_TIME = 14,         /* no date or time */
    DER_OID_MALFORMED = 15,     /* no object identifier */
    DER_INDEFINITE_LENGTH = 16, /* an indefinite length */
    DER_FAILED = 17,            /* refused before */
    DER_BAD_PLACE = 100,        /* a place that is not within the octets */
    DER_NULL_POINTER = 101,     /* a null pointer with a length that is not 0 */
    DER_UNKNOWN_NAME = 102,     /* no type has the name */
    DER_SHORT_BUFFER = 103,     /* a buffer that is too short for what is written */
    DER_STEP_REFUSES = 104,     /* a step of path validation refuses a certificate */
    DER_EXTENSION_UNREAD = 105, /* an extension that path validation processes stands twice, or cannot be read */
    DER_EMPTY_CHAIN = 106,      /* a chain of no certificates */
    DER_LIST_REFUSED = 107,     /* a step refuses a list of revoked certificates */
    DER_ANSWER_REFUSED = 108,   /* a step refuses an answer of OCSP */
    DER_LIST_UNREAD = 109       /* an extension of a list stands twice or cannot be read, of those that are processed */
};

/* written by tools/bindings: rules */
/* The rules of RFC 5280 for certificates beyond the grammar, as bits of what der_check_rfc5280 writes: a bit is 1
 * where the certificate breaks the rule. */
/* the algorithm within is the one outside (4.1.1.2, 4.1.2.3) */
#define DER_CERTIFICATE_ALGORITHMS_AGREE ((uint64_t)1 << 0)
/* extensions stand in version 3 alone (4.1.2.1) */
#define DER_CERTIFICATE_EXTENSIONS_IN_VERSION_3 ((uint64_t)1 << 1)
/* the serial number is positive (4.1.2.2) */
#define DER_CERTIFICATE_SERIAL_NUMBER_POSITIVE ((uint64_t)1 << 2)
/* the serial number has at most 20 octets (4.1.2.2) */
#define DER_CERTIFICATE_SERIAL_NUMBER_AT_MOST_20_OCTETS ((uint64_t)1 << 3)
/* the issuer is not empty (4.1.2.4) */
#define DER_CERTIFICATE_ISSUER_NOT_EMPTY ((uint64_t)1 << 4)
/* beside an empty subject stands a subjectAltName that is critical (4.1.2.6) */
#define DER_CERTIFICATE_EMPTY_SUBJECT_HAS_CRITICAL_ALT_NAME ((uint64_t)1 << 5)
/* unique identifiers stand in version 2 and 3 alone (4.1.2.8) */
#define DER_CERTIFICATE_UNIQUE_IDENTIFIERS_IN_VERSION_2 ((uint64_t)1 << 6)
/* each extension stands once (4.2) */
#define DER_CERTIFICATE_EXTENSIONS_STAND_ONCE ((uint64_t)1 << 7)
/* authorityKeyIdentifier is not critical (4.2.1.1) */
#define DER_CERTIFICATE_AUTHORITY_KEY_IDENTIFIER_NOT_CRITICAL ((uint64_t)1 << 8)
/* subjectKeyIdentifier is not critical (4.2.1.2) */
#define DER_CERTIFICATE_SUBJECT_KEY_IDENTIFIER_NOT_CRITICAL ((uint64_t)1 << 9)
/* subjectDirectoryAttributes is not critical (4.2.1.8) */
#define DER_CERTIFICATE_SUBJECT_DIRECTORY_ATTRIBUTES_NOT_CRITICAL ((uint64_t)1 << 10)
/* freshestCRL is not critical (4.2.1.15) */
#define DER_CERTIFICATE_FRESHEST_CRL_NOT_CRITICAL ((uint64_t)1 << 11)
/* authorityInfoAccess is not critical (4.2.2.1) */
#define DER_CERTIFICATE_AUTHORITY_INFO_ACCESS_NOT_CRITICAL ((uint64_t)1 << 12)
/* subjectInfoAccess is not critical (4.2.2.2) */
#define DER_CERTIFICATE_SUBJECT_INFO_ACCESS_NOT_CRITICAL ((uint64_t)1 << 13)
/* basicConstraints of a CA is critical (4.2.1.9) */
#define DER_CERTIFICATE_BASIC_CONSTRAINTS_OF_CA_CRITICAL ((uint64_t)1 << 14)
/* nameConstraints is critical (4.2.1.10) */
#define DER_CERTIFICATE_NAME_CONSTRAINTS_CRITICAL ((uint64_t)1 << 15)
/* policyConstraints is critical (4.2.1.11) */
#define DER_CERTIFICATE_POLICY_CONSTRAINTS_CRITICAL ((uint64_t)1 << 16)
/* inhibitAnyPolicy is critical (4.2.1.14) */
#define DER_CERTIFICATE_INHIBIT_ANY_POLICY_CRITICAL ((uint64_t)1 << 17)
/* the version is 1, 2 or 3 (4.1.2.1) */
#define DER_CERTIFICATE_VERSION_KNOWN ((uint64_t)1 << 18)
/* notAfter is not before notBefore (4.1.2.5) */
#define DER_CERTIFICATE_VALIDITY_NOT_EMPTY ((uint64_t)1 << 19)
/* dates through 2049 are UTCTimes (4.1.2.5) */
#define DER_CERTIFICATE_DATES_THROUGH_2049_ARE_UTC_TIMES ((uint64_t)1 << 20)
/* the subject of a CA is not empty (4.1.2.6) */
#define DER_CERTIFICATE_SUBJECT_OF_CA_NOT_EMPTY ((uint64_t)1 << 21)
/* the texts of issuer and subject have the sizes of A.1 (A.1) */
#define DER_CERTIFICATE_TEXTS_HAVE_SIZES ((uint64_t)1 << 22)
/* the texts of issuer and subject have the string types of A.1 (A.1) */
#define DER_CERTIFICATE_TEXTS_HAVE_STRING_TYPES ((uint64_t)1 << 23)
/* printableStrings in issuer and subject have only their characters (B) */
#define DER_CERTIFICATE_PRINTABLE_STRINGS_HAVE_THEIR_CHARACTERS ((uint64_t)1 << 24)
/* ed25519, Ed448, X25519 and X448 have no parameters (RFC 8410 section 3) (4.1.1.2, 4.1.2.7) */
#define DER_CERTIFICATE_CURVES_HAVE_NO_PARAMETERS ((uint64_t)1 << 25)
/* a CA has a subjectKeyIdentifier (4.2.1.2) */
#define DER_CERTIFICATE_CA_HAS_SUBJECT_KEY_IDENTIFIER ((uint64_t)1 << 26)
/* authorityKeyIdentifier has a keyIdentifier, unless the issuer is the subject (4.2.1.1) */
#define DER_CERTIFICATE_AUTHORITY_HAS_KEY_IDENTIFIER ((uint64_t)1 << 27)
/* authorityCertIssuer and authorityCertSerialNumber stand together (A.2) */
#define DER_CERTIFICATE_AUTHORITY_ISSUER_HAS_SERIAL_NUMBER ((uint64_t)1 << 28)
/* a CA has a keyUsage (4.2.1.3) */
#define DER_CERTIFICATE_CA_HAS_KEY_USAGE ((uint64_t)1 << 29)
/* keyUsage has a bit that is set (4.2.1.3) */
#define DER_CERTIFICATE_KEY_USAGE_HAS_A_BIT ((uint64_t)1 << 30)
/* keyCertSign is set for a CA alone (4.2.1.3, 4.2.1.9) */
#define DER_CERTIFICATE_KEY_CERT_SIGN_ONLY_IN_CA ((uint64_t)1 << 31)
/* pathLenConstraint stands beside cA and keyCertSign alone (4.2.1.9) */
#define DER_CERTIFICATE_PATH_LENGTH_ONLY_IN_CA ((uint64_t)1 << 32)
/* nameConstraints stands in the certificate of a CA alone (4.2.1.10) */
#define DER_CERTIFICATE_NAME_CONSTRAINTS_ONLY_IN_CA ((uint64_t)1 << 33)
/* nameConstraints is not empty (4.2.1.10) */
#define DER_CERTIFICATE_NAME_CONSTRAINTS_NOT_EMPTY ((uint64_t)1 << 34)
/* the subtrees of nameConstraints have the minimum 0 and no maximum (4.2.1.10) */
#define DER_CERTIFICATE_NAME_CONSTRAINTS_HAS_NO_DISTANCES ((uint64_t)1 << 35)
/* the iPAddresses of nameConstraints have 8 or 32 octets (4.2.1.10) */
#define DER_CERTIFICATE_CONSTRAINED_ADDRESSES_HAVE_8_OR_32_OCTETS ((uint64_t)1 << 36)
/* policyConstraints is not empty (4.2.1.11) */
#define DER_CERTIFICATE_POLICY_CONSTRAINTS_NOT_EMPTY ((uint64_t)1 << 37)
/* each policy stands once (4.2.1.4) */
#define DER_CERTIFICATE_POLICIES_STAND_ONCE ((uint64_t)1 << 38)
/* anyPolicy is not mapped (4.2.1.5) */
#define DER_CERTIFICATE_ANY_POLICY_NOT_MAPPED ((uint64_t)1 << 39)
/* a dNSName of an alternative name has the preferred name syntax (4.2.1.6, 4.2.1.7) */
#define DER_CERTIFICATE_DNS_NAMES_HAVE_SYNTAX ((uint64_t)1 << 40)
/* an rfc822Name of an alternative name is a mailbox (4.2.1.6, 4.2.1.7) */
#define DER_CERTIFICATE_MAILBOXES_HAVE_SYNTAX ((uint64_t)1 << 41)
/* a URI of an alternative name has a scheme and a part after it (4.2.1.6, 4.2.1.7) */
#define DER_CERTIFICATE_URIS_HAVE_SCHEMES ((uint64_t)1 << 42)
/* an iPAddress of an alternative name has 4 or 16 octets (4.2.1.6, 4.2.1.7) */
#define DER_CERTIFICATE_ADDRESSES_HAVE_4_OR_16_OCTETS ((uint64_t)1 << 43)
/* each point of cRLDistributionPoints has a distributionPoint or a cRLIssuer (4.2.1.13) */
#define DER_CERTIFICATE_POINTS_HAVE_NAMES ((uint64_t)1 << 44)

/* The same for lists of revoked certificates, as bits of what der_check_rfc5280_list writes. */
/* the algorithm within is the one outside (5.1.1.2, 5.1.2.2) */
#define DER_LIST_ALGORITHMS_AGREE ((uint64_t)1 << 0)
/* extensions, of the list or of an entry, stand in version 2 alone (5.1.2.1) */
#define DER_LIST_EXTENSIONS_IN_VERSION_2 ((uint64_t)1 << 1)
/* the issuer is not empty (5.1.2.3) */
#define DER_LIST_ISSUER_NOT_EMPTY ((uint64_t)1 << 2)
/* nextUpdate is there (5.1.2.5) */
#define DER_LIST_NEXT_UPDATE_THERE ((uint64_t)1 << 3)
/* a list of no revoked certificates is absent (5.1.2.6) */
#define DER_LIST_EMPTY_LIST_ABSENT ((uint64_t)1 << 4)
/* each extension of the list stands once (5.2, 4.2) */
#define DER_LIST_EXTENSIONS_STAND_ONCE ((uint64_t)1 << 5)
/* cRLNumber is not critical (5.2.3) */
#define DER_LIST_CRL_NUMBER_NOT_CRITICAL ((uint64_t)1 << 6)
/* deltaCRLIndicator is critical (5.2.4) */
#define DER_LIST_DELTA_CRL_INDICATOR_CRITICAL ((uint64_t)1 << 7)
/* issuingDistributionPoint is critical (5.2.5) */
#define DER_LIST_ISSUING_DISTRIBUTION_POINT_CRITICAL ((uint64_t)1 << 8)
/* freshestCRL is not critical (5.2.6) */
#define DER_LIST_FRESHEST_CRL_NOT_CRITICAL ((uint64_t)1 << 9)
/* authorityInfoAccess is not critical (5.2.7) */
#define DER_LIST_AUTHORITY_INFO_ACCESS_NOT_CRITICAL ((uint64_t)1 << 10)
/* reasonCode of an entry is not critical (5.3.1) */
#define DER_LIST_REASON_CODE_NOT_CRITICAL ((uint64_t)1 << 11)
/* invalidityDate of an entry is not critical (5.3.2) */
#define DER_LIST_INVALIDITY_DATE_NOT_CRITICAL ((uint64_t)1 << 12)
/* certificateIssuer of an entry is critical (5.3.3) */
#define DER_LIST_CERTIFICATE_ISSUER_CRITICAL ((uint64_t)1 << 13)
/* the version is 2 or absent (5.1.2.1) */
#define DER_LIST_VERSION_2 ((uint64_t)1 << 14)
/* dates through 2049 are UTCTimes (5.1.2.4, 5.1.2.5, 5.1.2.6) */
#define DER_LIST_DATES_THROUGH_2049_ARE_UTC_TIMES ((uint64_t)1 << 15)
/* authorityKeyIdentifier has a keyIdentifier (5.2.1) */
#define DER_LIST_AUTHORITY_HAS_KEY_IDENTIFIER ((uint64_t)1 << 16)
/* cRLNumber is there (5.2.3) */
#define DER_LIST_CRL_NUMBER_THERE ((uint64_t)1 << 17)
/* cRLNumber is not negative, and has at most 20 octets (5.2.3) */
#define DER_LIST_CRL_NUMBER_HAS_AT_MOST_20_OCTETS ((uint64_t)1 << 18)
/* issuingDistributionPoint is not empty (5.2.5) */
#define DER_LIST_ISSUING_DISTRIBUTION_POINT_NOT_EMPTY ((uint64_t)1 << 19)
/* issuingDistributionPoint has at most one kind of certificates (5.2.5) */
#define DER_LIST_ISSUING_DISTRIBUTION_POINT_HAS_ONE_KIND ((uint64_t)1 << 20)
/* each extension of an entry stands once (5.3, 4.2) */
#define DER_LIST_ENTRY_EXTENSIONS_STAND_ONCE ((uint64_t)1 << 21)
/* removeFromCRL stands in a delta list alone (5.3.1) */
#define DER_LIST_REMOVE_FROM_CRL_ONLY_IN_DELTA ((uint64_t)1 << 22)
/* end of rules */

/* The kinds of a GeneralName (RFC 5280 4.2.1.6): the numbers of their tags. */
enum der_name_kind {
    DER_OTHER_NAME = 0,
    DER_RFC822_NAME = 1, /* a mailbox */
    DER_DNS_NAME = 2,
    DER_X400_ADDRESS = 3,
    DER_DIRECTORY_NAME = 4, /* a Name */
    DER_EDI_PARTY_NAME = 5,
    DER_URI = 6,
    DER_IP_ADDRESS = 7, /* 4 or 16 octets, in a name constraint 8 or 32 */
    DER_REGISTERED_ID = 8
};

/* Bits of what der_named_bits writes of a KeyUsage (RFC 5280 4.2.1.3). */
enum der_key_usage {
    DER_DIGITAL_SIGNATURE = 1 << 0,
    DER_NON_REPUDIATION = 1 << 1,
    DER_KEY_ENCIPHERMENT = 1 << 2,
    DER_DATA_ENCIPHERMENT = 1 << 3,
    DER_KEY_AGREEMENT = 1 << 4,
    DER_KEY_CERT_SIGN = 1 << 5,
    DER_CRL_SIGN = 1 << 6,
    DER_ENCIPHER_ONLY = 1 << 7,
    DER_DECIPHER_ONLY = 1 << 8
};

/* The place of an encoding: its identifier octets, length octets and contents octets. An absent field has length 0, at the
 * offset where it would stand. */
typedef struct der_place {
    uint32_t offset; /* the number of octets before it */
    uint32_t length; /* its number of octets */
} der_place;

/* Why and where octets are refused. */
typedef struct der_fault {
    uint32_t number;    /* the result of the call */
    uint32_t is_placed; /* 1 if the position is known, else 0 */
    uint32_t position;  /* the number of octets that had been read, of those that were passed */
} der_fault;

/* written by tools/bindings: structs */
/* Places in a certificate (Certificate, RFC 5280 4.1) */
typedef struct der_certificate_at {
    der_place tbs_certificate;     /* what the signature covers */
    der_place signature_algorithm; /* an AlgorithmIdentifier */
    der_place signature_value;     /* a BIT STRING */

    /* the fields of tbsCertificate */
    der_place version;                 /* with its explicit tag [0]; absent where it is the default, v1 */
    der_place serial_number;           /* an INTEGER */
    der_place signature;               /* an AlgorithmIdentifier */
    der_place issuer;                  /* a Name */
    der_place validity;                /* a SEQUENCE of both dates */
    der_place subject;                 /* a Name */
    der_place subject_public_key_info; /* a SubjectPublicKeyInfo */
    der_place issuer_unique_id;        /* with its implicit tag [1]; may be absent */
    der_place subject_unique_id;       /* with its implicit tag [2]; may be absent */
    der_place extensions;              /* with their explicit tag [3] */

    uint64_t not_before;     /* in seconds from 1970-01-01T00:00:00Z, with no leap seconds; an earlier date is refused (13) */
    uint64_t not_after;      /* the last second in which the certificate is valid; a date before 1970 is refused (13) */
    uint64_t version_number; /* 0 for v1, 1 for v2, 2 for v3; numbers up to 255 are accepted */
} der_certificate_at;

/* Places in an extension (Extension, RFC 5280 4.2) */
typedef struct der_extension_at {
    der_place whole;      /* the whole extension; the next one begins after it */
    der_place extn_id;    /* an OBJECT IDENTIFIER */
    der_place critical;   /* a BOOLEAN; absent where it is the default, FALSE */
    der_place extn_value; /* an OCTET STRING */

    uint32_t is_critical; /* 1 or 0 */
} der_extension_at;

/* Places in a list of revoked certificates (CertificateList, RFC 5280 5.1) */
typedef struct der_certificate_list_at {
    der_place tbs_cert_list;       /* what the signature covers */
    der_place signature_algorithm; /* an AlgorithmIdentifier */
    der_place signature_value;     /* a BIT STRING */

    /* the fields of tbsCertList */
    der_place version;              /* an INTEGER */
    der_place signature;            /* an AlgorithmIdentifier */
    der_place issuer;               /* a Name */
    der_place this_update;          /* a Time */
    der_place next_update;          /* a Time */
    der_place revoked_certificates; /* a SEQUENCE OF */
    der_place crl_extensions;       /* with their explicit tag [0] */

    uint64_t this_update_seconds; /* in seconds from 1970-01-01T00:00:00Z; an earlier date is refused (13) */
    uint64_t next_update_seconds; /* in such seconds, 0 if the field is absent; a date before 1970 is refused (13) */
    uint64_t version_number;      /* 0 for v1, where the field is absent; 1 for v2; numbers up to 255 are accepted */
} der_certificate_list_at;

/* Places in an entry of a list of revoked certificates (RevokedCertificate, RFC 5280 5.1.2.6) */
typedef struct der_revoked_certificate_at {
    der_place whole;                /* the whole entry; the next one begins after it */
    der_place user_certificate;     /* an INTEGER */
    der_place revocation_date;      /* a Time */
    der_place crl_entry_extensions; /* a SEQUENCE OF; may be absent */

    uint64_t revocation_date_seconds; /* in seconds from 1970-01-01T00:00:00Z; an earlier date is refused (13) */
} der_revoked_certificate_at;

/* Places in a public key (SubjectPublicKeyInfo, RFC 5280 4.1.2.7) */
typedef struct der_subject_public_key_info_at {
    der_place algorithm;          /* an AlgorithmIdentifier */
    der_place subject_public_key; /* a BIT STRING */
} der_subject_public_key_info_at;

/* Places in a private key (PrivateKeyInfo, RFC 5958 section 2) */
typedef struct der_private_key_info_at {
    der_place version;               /* an INTEGER */
    der_place private_key_algorithm; /* an AlgorithmIdentifier */
    der_place private_key;           /* an OCTET STRING */
    der_place attributes;            /* with their implicit tag [0]; may be absent */
    der_place public_key;            /* with its implicit tag [1]; may be absent */

    uint64_t version_number; /* 0 for v1, 1 for v2 */
} der_private_key_info_at;

/* Places in a request for a certificate (CertificationRequest, RFC 2986 4.2) */
typedef struct der_certification_request_at {
    der_place certification_request_info; /* what the signature covers */
    der_place signature_algorithm;        /* an AlgorithmIdentifier */
    der_place signature;                  /* a BIT STRING */

    /* the fields of certificationRequestInfo */
    der_place version;         /* an INTEGER, which is 0 */
    der_place subject;         /* a Name */
    der_place subject_pk_info; /* a SubjectPublicKeyInfo */
    der_place attributes;      /* with their implicit tag [0] */
} der_certification_request_at;

/* Places in an OCSP response (OCSPResponse, RFC 6960 4.2.1) */
typedef struct der_ocsp_response_at {
    der_place response_status; /* an ENUMERATED */
    der_place response_bytes;  /* with their explicit tag [0] */

    /* the fields of responseBytes */
    der_place response_type; /* an OBJECT IDENTIFIER; may be absent */
    der_place response;      /* an OCTET STRING; if responseType is id-pkix-ocsp-basic, a BasicOCSPResponse is to be read from its contents octets; may be absent */

    int64_t response_status_number; /* 0 for successful, 1 to 3, 5 or 6 */
} der_ocsp_response_at;

/* Places in a signed OCSP response (BasicOCSPResponse, RFC 6960 4.2.1) */
typedef struct der_basic_ocsp_response_at {
    der_place tbs_response_data;   /* what the signature covers */
    der_place signature_algorithm; /* an AlgorithmIdentifier */
    der_place signature;           /* a BIT STRING */
    der_place certs;               /* with their explicit tag [0]; may be absent */

    /* the fields of tbsResponseData */
    der_place version;             /* with its explicit tag [0]; absent where it is the default, v1 */
    der_place responder_id;        /* a CHOICE: with the explicit tag [1] a Name, with the explicit tag [2] an OCTET STRING */
    der_place produced_at;         /* a GeneralizedTime */
    der_place responses;           /* a SEQUENCE OF SingleResponse */
    der_place response_extensions; /* with their explicit tag [1] */

    uint64_t produced_at_seconds; /* in seconds from 1970-01-01T00:00:00Z; an earlier date is refused (13) */
} der_basic_ocsp_response_at;

/* Places in a response about one certificate (SingleResponse, RFC 6960 4.2.1) */
typedef struct der_single_response_at {
    der_place whole;             /* the whole response; the next one begins after it */
    der_place cert_id;           /* a CertID */
    der_place cert_status;       /* a CHOICE: with its implicit tag [0], [1] or [2] */
    der_place this_update;       /* a GeneralizedTime */
    der_place next_update;       /* with its explicit tag [0] */
    der_place single_extensions; /* with their explicit tag [1] */

    uint64_t this_update_seconds;     /* in seconds from 1970-01-01T00:00:00Z; an earlier date is refused (13) */
    uint64_t next_update_seconds;     /* in such seconds, 0 if the field is absent; a date before 1970 is refused (13) */
    uint64_t revocation_time_seconds; /* in such seconds, 0 if it is not revoked; a date before 1970 is refused (13) */
    uint64_t cert_status_number;      /* 0 for good, 1 for revoked, 2 for unknown */
} der_single_response_at;

/* Places in a message with its type (ContentInfo, RFC 5652 section 3) */
typedef struct der_content_info_at {
    der_place content_type; /* an OBJECT IDENTIFIER */
    der_place content;      /* with its explicit tag [0]; if contentType is id-signedData, a SignedData is to be read from its contents octets */
} der_content_info_at;

/* Places in a signed message (SignedData, RFC 5652 5.1) */
typedef struct der_signed_data_at {
    der_place version;            /* an INTEGER */
    der_place digest_algorithms;  /* a SET OF AlgorithmIdentifier */
    der_place encap_content_info; /* a SEQUENCE */
    der_place certificates;       /* with their implicit tag [0]; may be absent */
    der_place crls;               /* with their implicit tag [1]; may be absent */
    der_place signer_infos;       /* a SET OF SignerInfo */

    /* the fields of encapContentInfo */
    der_place e_content_type; /* an OBJECT IDENTIFIER */
    der_place e_content;      /* an OCTET STRING with its explicit tag [0]; may be absent */

    uint64_t version_number; /* 0 to 5 */
} der_signed_data_at;

/* Places in a signer (SignerInfo, RFC 5652 5.3) */
typedef struct der_signer_info_at {
    der_place whole;               /* the whole signer; the next one begins after it */
    der_place version;             /* an INTEGER */
    der_place sid;                 /* a CHOICE: a SEQUENCE of issuer and serial number, or with its implicit tag [0] a key's identifier */
    der_place digest_algorithm;    /* an AlgorithmIdentifier */
    der_place signed_attrs;        /* with their implicit tag [0]; may be absent */
    der_place signature_algorithm; /* an AlgorithmIdentifier */
    der_place signature;           /* an OCTET STRING */
    der_place unsigned_attrs;      /* with their implicit tag [1]; may be absent */

    uint64_t version_number; /* 0 to 5 */
} der_signer_info_at;

/* Places in an attribute of a name (AttributeTypeAndValue, RFC 5280 4.1.2.4) */
typedef struct der_attribute_type_and_value_at {
    der_place whole; /* the whole attribute; the next one of the same part begins after it */
    der_place type;  /* an OBJECT IDENTIFIER */
    der_place value; /* of any type */
} der_attribute_type_and_value_at;

/* Places in an attribute of a signer, a request or a private key (Attribute, RFC 5652 5.3, RFC 2986 4.1, RFC 5958
 * section 2) */
typedef struct der_attribute_at {
    der_place whole;  /* the whole attribute; the next one begins after it */
    der_place type;   /* an OBJECT IDENTIFIER */
    der_place values; /* a SET OF */
} der_attribute_at;

/* Places in an algorithm identifier (AlgorithmIdentifier, RFC 5280 4.1.1.2) */
typedef struct der_algorithm_identifier_at {
    der_place oid;        /* an OBJECT IDENTIFIER */
    der_place parameters; /* what the identifier defines; a NULL has the octets 05 00; may be absent */
} der_algorithm_identifier_at;

/* Places in a set of parameters of RSASSA-PSS (RSASSA-PSS-params, RFC 4055 3.1) */
typedef struct der_rsassa_pss_params_at {
    der_place hash_algorithm;     /* an AlgorithmIdentifier, with the explicit tag [0]; may be absent */
    der_place mask_gen_algorithm; /* an AlgorithmIdentifier, with the explicit tag [1]; may be absent */
    der_place salt_length;        /* an INTEGER, with the explicit tag [2]; may be absent */
    der_place trailer_field;      /* an INTEGER, with the explicit tag [3]; absent where it is the default, 1 */
} der_rsassa_pss_params_at;

/* Places in an ECDSA signature (ECDSA-Sig-Value, RFC 3279 2.2.3) */
typedef struct der_ecdsa_sig_value_at {
    der_place r; /* an INTEGER */
    der_place s; /* an INTEGER */
} der_ecdsa_sig_value_at;

/* Places in a set of parameters of PBES2 (PBES2-params, RFC 8018 A.4) */
typedef struct der_pbes2_params_at {
    der_place key_derivation_func; /* an AlgorithmIdentifier */
    der_place encryption_scheme;   /* an AlgorithmIdentifier */
} der_pbes2_params_at;

/* Places in a set of parameters of PBKDF2 (PBKDF2-params, RFC 8018 A.2) */
typedef struct der_pbkdf2_params_at {
    der_place salt;            /* a CHOICE: an OCTET STRING, or an AlgorithmIdentifier */
    der_place iteration_count; /* an INTEGER */
    der_place key_length;      /* an INTEGER; may be absent */
    der_place prf;             /* an AlgorithmIdentifier; may be absent */
} der_pbkdf2_params_at;

/* Places in a public key of RSA (RSAPublicKey, RFC 8017 A.1.1) */
typedef struct der_rsa_public_key_at {
    der_place modulus;         /* an INTEGER */
    der_place public_exponent; /* an INTEGER */
} der_rsa_public_key_at;

/* Places in a private key of RSA (RSAPrivateKey, RFC 8017 A.1.2) */
typedef struct der_rsa_private_key_at {
    der_place version;           /* an INTEGER */
    der_place modulus;           /* an INTEGER */
    der_place public_exponent;   /* an INTEGER */
    der_place private_exponent;  /* an INTEGER */
    der_place prime1;            /* an INTEGER */
    der_place prime2;            /* an INTEGER */
    der_place exponent1;         /* an INTEGER */
    der_place exponent2;         /* an INTEGER */
    der_place coefficient;       /* an INTEGER */
    der_place other_prime_infos; /* a SEQUENCE OF OtherPrimeInfo; may be absent */
} der_rsa_private_key_at;

/* Places in a private key of an elliptic curve (ECPrivateKey, RFC 5915 section 3) */
typedef struct der_ec_private_key_at {
    der_place version;     /* an INTEGER */
    der_place private_key; /* an OCTET STRING */
    der_place parameters;  /* a CHOICE: an OBJECT IDENTIFIER, which names the curve, a NULL, or the curve as a SEQUENCE, with the explicit tag [0]; may be absent */
    der_place public_key;  /* a BIT STRING, with the explicit tag [1]; may be absent */
} der_ec_private_key_at;

/* Places in an encrypted private key (EncryptedPrivateKeyInfo, RFC 5958 section 3) */
typedef struct der_encrypted_private_key_info_at {
    der_place encryption_algorithm; /* an AlgorithmIdentifier */
    der_place encrypted_data;       /* an OCTET STRING */
} der_encrypted_private_key_info_at;

/* Places in an authority key identifier (AuthorityKeyIdentifier, RFC 5280 4.2.1.1) */
typedef struct der_authority_key_identifier_at {
    der_place key_identifier;               /* an OCTET STRING, with the implicit tag [0]; may be absent */
    der_place authority_cert_issuer;        /* a SEQUENCE OF GeneralName, with the implicit tag [1]; may be absent */
    der_place authority_cert_serial_number; /* an INTEGER, with the implicit tag [2]; may be absent */
} der_authority_key_identifier_at;

/* Places in a certificate policy (PolicyInformation, RFC 5280 4.2.1.4) */
typedef struct der_policy_information_at {
    der_place policy_identifier; /* an OBJECT IDENTIFIER */
    der_place policy_qualifiers; /* a SEQUENCE OF PolicyQualifierInfo; may be absent */
} der_policy_information_at;

/* Places in a policy qualifier (PolicyQualifierInfo, RFC 5280 4.2.1.4) */
typedef struct der_policy_qualifier_info_at {
    der_place policy_qualifier_id; /* an OBJECT IDENTIFIER */
    der_place qualifier;           /* what `policyQualifierId` defines */
} der_policy_qualifier_info_at;

/* Places in a policy mapping (PolicyMapping, RFC 5280 4.2.1.5) */
typedef struct der_policy_mapping_at {
    der_place issuer_domain_policy;  /* an OBJECT IDENTIFIER */
    der_place subject_domain_policy; /* an OBJECT IDENTIFIER */
} der_policy_mapping_at;

/* Places in a set of basic constraints (BasicConstraints, RFC 5280 4.2.1.9) */
typedef struct der_basic_constraints_at {
    der_place ca;                  /* a BOOLEAN; absent where it is the default, FALSE */
    der_place path_len_constraint; /* an INTEGER; may be absent */
} der_basic_constraints_at;

/* Places in a set of name constraints (NameConstraints, RFC 5280 4.2.1.10) */
typedef struct der_name_constraints_at {
    der_place permitted_subtrees; /* a SEQUENCE OF GeneralSubtree, with the implicit tag [0]; may be absent */
    der_place excluded_subtrees;  /* a SEQUENCE OF GeneralSubtree, with the implicit tag [1]; may be absent */
} der_name_constraints_at;

/* Places in a subtree of names (GeneralSubtree, RFC 5280 4.2.1.10) */
typedef struct der_general_subtree_at {
    der_place base;    /* a GeneralName */
    der_place minimum; /* an INTEGER, with the implicit tag [0]; absent where it is the default, 0 */
    der_place maximum; /* an INTEGER, with the implicit tag [1]; may be absent */
} der_general_subtree_at;

/* Places in a set of policy constraints (PolicyConstraints, RFC 5280 4.2.1.11) */
typedef struct der_policy_constraints_at {
    der_place require_explicit_policy; /* an INTEGER, with the implicit tag [0]; may be absent */
    der_place inhibit_policy_mapping;  /* an INTEGER, with the implicit tag [1]; may be absent */
} der_policy_constraints_at;

/* Places in a distribution point (DistributionPoint, RFC 5280 4.2.1.13) */
typedef struct der_distribution_point_at {
    der_place distribution_point; /* a CHOICE of `fullName`, with the implicit tag [0], and `nameRelativeToCRLIssuer`, with [1], with the explicit tag [0]; may be absent */
    der_place reasons;            /* a BIT STRING, with the implicit tag [1]; may be absent */
    der_place crl_issuer;         /* a SEQUENCE OF GeneralName, with the implicit tag [2]; may be absent */
} der_distribution_point_at;

/* Places in an access description (AccessDescription, RFC 5280 4.2.2.1) */
typedef struct der_access_description_at {
    der_place access_method;   /* an OBJECT IDENTIFIER */
    der_place access_location; /* a GeneralName */
} der_access_description_at;

/* Places in an issuing distribution point (IssuingDistributionPoint, RFC 5280 5.2.5) */
typedef struct der_issuing_distribution_point_at {
    der_place distribution_point;            /* a CHOICE of `fullName`, with the implicit tag [0], and `nameRelativeToCRLIssuer`, with [1], with the explicit tag [0]; may be absent */
    der_place only_contains_user_certs;      /* a BOOLEAN, with the implicit tag [1]; absent where it is the default, FALSE */
    der_place only_contains_ca_certs;        /* a BOOLEAN, with the implicit tag [2]; absent where it is the default, FALSE */
    der_place only_some_reasons;             /* a BIT STRING, with the implicit tag [3]; may be absent */
    der_place indirect_crl;                  /* a BOOLEAN, with the implicit tag [4]; absent where it is the default, FALSE */
    der_place only_contains_attribute_certs; /* a BOOLEAN, with the implicit tag [5]; absent where it is the default, FALSE */
} der_issuing_distribution_point_at;

/* Places in an OCSP request (OCSPRequest, RFC 6960 4.1.1) */
typedef struct der_ocsp_request_at {
    der_place tbs_request;        /* a TBSRequest */
    der_place optional_signature; /* a Signature, with the explicit tag [0]; may be absent */
} der_ocsp_request_at;

/* Places in a body of an OCSP request (TBSRequest, RFC 6960 4.1.1) */
typedef struct der_tbs_request_at {
    der_place version;            /* an INTEGER, with the explicit tag [0]; absent where it is the default, v1 */
    der_place requestor_name;     /* a GeneralName, with the explicit tag [1]; may be absent */
    der_place request_list;       /* a SEQUENCE OF Request */
    der_place request_extensions; /* a SEQUENCE OF Extension, with the explicit tag [2]; may be absent */
} der_tbs_request_at;

/* Places in a request about one certificate (Request, RFC 6960 4.1.1) */
typedef struct der_request_at {
    der_place req_cert;                  /* a CertID */
    der_place single_request_extensions; /* a SEQUENCE OF Extension, with the explicit tag [0]; may be absent */
} der_request_at;

/* Places in a certificate's identifier in OCSP (CertID, RFC 6960 4.1.1) */
typedef struct der_cert_id_at {
    der_place hash_algorithm;   /* an AlgorithmIdentifier */
    der_place issuer_name_hash; /* an OCTET STRING */
    der_place issuer_key_hash;  /* an OCTET STRING */
    der_place serial_number;    /* an INTEGER */
} der_cert_id_at;

/* Places in an issuer and serial number (IssuerAndSerialNumber, RFC 5652 10.2.4) */
typedef struct der_issuer_and_serial_number_at {
    der_place issuer;        /* a Name */
    der_place serial_number; /* an INTEGER */
} der_issuer_and_serial_number_at;

/* Places in an enveloped message (EnvelopedData, RFC 5652 6.1) */
typedef struct der_enveloped_data_at {
    der_place version;                /* an INTEGER */
    der_place originator_info;        /* an OriginatorInfo, with the implicit tag [0]; may be absent */
    der_place recipient_infos;        /* a SET OF RecipientInfo */
    der_place encrypted_content_info; /* an EncryptedContentInfo */
    der_place unprotected_attrs;      /* a SET OF Attribute, with the implicit tag [1]; may be absent */
} der_enveloped_data_at;

/* Places in an encrypted content (EncryptedContentInfo, RFC 5652 6.1) */
typedef struct der_encrypted_content_info_at {
    der_place content_type;                 /* an OBJECT IDENTIFIER */
    der_place content_encryption_algorithm; /* an AlgorithmIdentifier */
    der_place encrypted_content;            /* an OCTET STRING, with the implicit tag [0]; may be absent */
} der_encrypted_content_info_at;

/* Places in a recipient with a key that is transported (KeyTransRecipientInfo, RFC 5652 6.2.1) */
typedef struct der_key_trans_recipient_info_at {
    der_place version;                  /* an INTEGER */
    der_place rid;                      /* a CHOICE: an IssuerAndSerialNumber, or with its implicit tag [0] a key identifier */
    der_place key_encryption_algorithm; /* an AlgorithmIdentifier */
    der_place encrypted_key;            /* an OCTET STRING */
} der_key_trans_recipient_info_at;

/* Places in an encrypted message (EncryptedData, RFC 5652 section 8) */
typedef struct der_encrypted_data_at {
    der_place version;                /* an INTEGER */
    der_place encrypted_content_info; /* an EncryptedContentInfo */
    der_place unprotected_attrs;      /* a SET OF Attribute, with the implicit tag [1]; may be absent */
} der_encrypted_data_at;

/* Places in a list of the certificates of a signer (SigningCertificateV2, RFC 5035 section 3) */
typedef struct der_signing_certificate_v2_at {
    der_place certs;    /* a SEQUENCE OF ESSCertIDv2 */
    der_place policies; /* a SEQUENCE OF PolicyInformation; may be absent */
} der_signing_certificate_v2_at;

/* Places in a certificate's hash value (ESSCertIDv2, RFC 5035 section 4) */
typedef struct der_ess_cert_idv2_at {
    der_place hash_algorithm; /* an AlgorithmIdentifier; may be absent */
    der_place cert_hash;      /* an OCTET STRING */
    der_place issuer_serial;  /* an IssuerSerial; may be absent */
} der_ess_cert_idv2_at;

/* Places in a request for a time stamp (TimeStampReq, RFC 3161 2.4.1) */
typedef struct der_time_stamp_req_at {
    der_place version;         /* an INTEGER */
    der_place message_imprint; /* a MessageImprint */
    der_place req_policy;      /* an OBJECT IDENTIFIER; may be absent */
    der_place nonce;           /* an INTEGER; may be absent */
    der_place cert_req;        /* a BOOLEAN; absent where it is the default, FALSE */
    der_place extensions;      /* a SEQUENCE OF Extension, with the implicit tag [0]; may be absent */
} der_time_stamp_req_at;

/* Places in a hash value of what is stamped (MessageImprint, RFC 3161 2.4.1) */
typedef struct der_message_imprint_at {
    der_place hash_algorithm; /* an AlgorithmIdentifier */
    der_place hashed_message; /* an OCTET STRING */
} der_message_imprint_at;

/* Places in a response with a time stamp (TimeStampResp, RFC 3161 2.4.2) */
typedef struct der_time_stamp_resp_at {
    der_place status;           /* a PKIStatusInfo */
    der_place time_stamp_token; /* a ContentInfo; may be absent */
} der_time_stamp_resp_at;

/* Places in a status of a response (PKIStatusInfo, RFC 3161 2.4.2) */
typedef struct der_pki_status_info_at {
    der_place status;        /* an INTEGER */
    der_place status_string; /* a SEQUENCE OF UTF8String; may be absent */
    der_place fail_info;     /* a BIT STRING; may be absent */
} der_pki_status_info_at;

/* Places in a time stamp (TSTInfo, RFC 3161 2.4.2) */
typedef struct der_tst_info_at {
    der_place version;         /* an INTEGER */
    der_place policy;          /* an OBJECT IDENTIFIER */
    der_place message_imprint; /* a MessageImprint */
    der_place serial_number;   /* an INTEGER */
    der_place gen_time;        /* a GeneralizedTime */
    der_place accuracy;        /* an Accuracy; may be absent */
    der_place ordering;        /* a BOOLEAN; absent where it is the default, FALSE */
    der_place nonce;           /* an INTEGER; may be absent */
    der_place tsa;             /* a GeneralName, with the explicit tag [0]; may be absent */
    der_place extensions;      /* a SEQUENCE OF Extension, with the implicit tag [1]; may be absent */
} der_tst_info_at;

/* Places in an accuracy of a time (Accuracy, RFC 3161 2.4.2) */
typedef struct der_accuracy_at {
    der_place seconds; /* an INTEGER; may be absent */
    der_place millis;  /* an INTEGER, with the implicit tag [0]; may be absent */
    der_place micros;  /* an INTEGER, with the implicit tag [1]; may be absent */
} der_accuracy_at;

/* Places in a PKCS 12 file (PFX, RFC 7292 section 4) */
typedef struct der_pfx_at {
    der_place version;   /* an INTEGER */
    der_place auth_safe; /* a ContentInfo of RFC 2315 section 7, whose content may be absent */
    der_place mac_data;  /* a MacData; may be absent */
} der_pfx_at;

/* Places in a MAC of a PKCS 12 file (MacData, RFC 7292 section 4) */
typedef struct der_mac_data_at {
    der_place mac;        /* a DigestInfo */
    der_place mac_salt;   /* an OCTET STRING */
    der_place iterations; /* an INTEGER; may be absent */
} der_mac_data_at;

/* Places in a hash value with its algorithm (DigestInfo, RFC 8017 9.2) */
typedef struct der_digest_info_at {
    der_place digest_algorithm; /* an AlgorithmIdentifier */
    der_place digest;           /* an OCTET STRING */
} der_digest_info_at;

/* Places in a bag of a PKCS 12 file (SafeBag, RFC 7292 4.2) */
typedef struct der_safe_bag_at {
    der_place bag_id;         /* an OBJECT IDENTIFIER */
    der_place bag_value;      /* what `bagId` defines, with the explicit tag [0] */
    der_place bag_attributes; /* a SET OF Attribute; may be absent */
} der_safe_bag_at;

/* Places in a certificate in a bag (CertBag, RFC 7292 4.2.3) */
typedef struct der_cert_bag_at {
    der_place cert_id;    /* an OBJECT IDENTIFIER */
    der_place cert_value; /* what `certId` defines, with the explicit tag [0] */
} der_cert_bag_at;

DER_ASSERT(sizeof(der_certificate_at) == 128, "13 places and 3 numbers of 64 bits");
DER_ASSERT(offsetof(der_certificate_at, version) == 24, "after 3 places");
DER_ASSERT(offsetof(der_certificate_at, not_before) == 104, "after 13 places");
DER_ASSERT(sizeof(der_extension_at) == 36, "4 places and 1 number of 32 bits");
DER_ASSERT(offsetof(der_extension_at, extn_id) == 8, "after 1 place");
DER_ASSERT(offsetof(der_extension_at, is_critical) == 32, "after 4 places");
DER_ASSERT(sizeof(der_certificate_list_at) == 104, "10 places and 3 numbers of 64 bits");
DER_ASSERT(offsetof(der_certificate_list_at, version) == 24, "after 3 places");
DER_ASSERT(offsetof(der_certificate_list_at, this_update_seconds) == 80, "after 10 places");
DER_ASSERT(sizeof(der_revoked_certificate_at) == 40, "4 places and 1 number of 64 bits");
DER_ASSERT(offsetof(der_revoked_certificate_at, user_certificate) == 8, "after 1 place");
DER_ASSERT(offsetof(der_revoked_certificate_at, revocation_date_seconds) == 32, "after 4 places");
DER_ASSERT(sizeof(der_subject_public_key_info_at) == 16, "2 places");
DER_ASSERT(sizeof(der_private_key_info_at) == 48, "5 places and 1 number of 64 bits");
DER_ASSERT(offsetof(der_private_key_info_at, version_number) == 40, "after 5 places");
DER_ASSERT(sizeof(der_certification_request_at) == 56, "7 places");
DER_ASSERT(offsetof(der_certification_request_at, version) == 24, "after 3 places");
DER_ASSERT(sizeof(der_ocsp_response_at) == 40, "4 places and 1 number of 64 bits");
DER_ASSERT(offsetof(der_ocsp_response_at, response_type) == 16, "after 2 places");
DER_ASSERT(offsetof(der_ocsp_response_at, response_status_number) == 32, "after 4 places");
DER_ASSERT(sizeof(der_basic_ocsp_response_at) == 80, "9 places and 1 number of 64 bits");
DER_ASSERT(offsetof(der_basic_ocsp_response_at, version) == 32, "after 4 places");
DER_ASSERT(offsetof(der_basic_ocsp_response_at, produced_at_seconds) == 72, "after 9 places");
DER_ASSERT(sizeof(der_single_response_at) == 80, "6 places and 4 numbers of 64 bits");
DER_ASSERT(offsetof(der_single_response_at, cert_id) == 8, "after 1 place");
DER_ASSERT(offsetof(der_single_response_at, this_update_seconds) == 48, "after 6 places");
DER_ASSERT(sizeof(der_content_info_at) == 16, "2 places");
DER_ASSERT(sizeof(der_signed_data_at) == 72, "8 places and 1 number of 64 bits");
DER_ASSERT(offsetof(der_signed_data_at, e_content_type) == 48, "after 6 places");
DER_ASSERT(offsetof(der_signed_data_at, version_number) == 64, "after 8 places");
DER_ASSERT(sizeof(der_signer_info_at) == 72, "8 places and 1 number of 64 bits");
DER_ASSERT(offsetof(der_signer_info_at, version) == 8, "after 1 place");
DER_ASSERT(offsetof(der_signer_info_at, version_number) == 64, "after 8 places");
DER_ASSERT(sizeof(der_attribute_type_and_value_at) == 24, "3 places");
DER_ASSERT(offsetof(der_attribute_type_and_value_at, type) == 8, "after 1 place");
DER_ASSERT(sizeof(der_attribute_at) == 24, "3 places");
DER_ASSERT(offsetof(der_attribute_at, type) == 8, "after 1 place");
DER_ASSERT(sizeof(der_algorithm_identifier_at) == 16, "2 places");
DER_ASSERT(sizeof(der_rsassa_pss_params_at) == 32, "4 places");
DER_ASSERT(sizeof(der_ecdsa_sig_value_at) == 16, "2 places");
DER_ASSERT(sizeof(der_pbes2_params_at) == 16, "2 places");
DER_ASSERT(sizeof(der_pbkdf2_params_at) == 32, "4 places");
DER_ASSERT(sizeof(der_rsa_public_key_at) == 16, "2 places");
DER_ASSERT(sizeof(der_rsa_private_key_at) == 80, "10 places");
DER_ASSERT(sizeof(der_ec_private_key_at) == 32, "4 places");
DER_ASSERT(sizeof(der_encrypted_private_key_info_at) == 16, "2 places");
DER_ASSERT(sizeof(der_authority_key_identifier_at) == 24, "3 places");
DER_ASSERT(sizeof(der_policy_information_at) == 16, "2 places");
DER_ASSERT(sizeof(der_policy_qualifier_info_at) == 16, "2 places");
DER_ASSERT(sizeof(der_policy_mapping_at) == 16, "2 places");
DER_ASSERT(sizeof(der_basic_constraints_at) == 16, "2 places");
DER_ASSERT(sizeof(der_name_constraints_at) == 16, "2 places");
DER_ASSERT(sizeof(der_general_subtree_at) == 24, "3 places");
DER_ASSERT(sizeof(der_policy_constraints_at) == 16, "2 places");
DER_ASSERT(sizeof(der_distribution_point_at) == 24, "3 places");
DER_ASSERT(sizeof(der_access_description_at) == 16, "2 places");
DER_ASSERT(sizeof(der_issuing_distribution_point_at) == 48, "6 places");
DER_ASSERT(sizeof(der_ocsp_request_at) == 16, "2 places");
DER_ASSERT(sizeof(der_tbs_request_at) == 32, "4 places");
DER_ASSERT(sizeof(der_request_at) == 16, "2 places");
DER_ASSERT(sizeof(der_cert_id_at) == 32, "4 places");
DER_ASSERT(sizeof(der_issuer_and_serial_number_at) == 16, "2 places");
DER_ASSERT(sizeof(der_enveloped_data_at) == 40, "5 places");
DER_ASSERT(sizeof(der_encrypted_content_info_at) == 24, "3 places");
DER_ASSERT(sizeof(der_key_trans_recipient_info_at) == 32, "4 places");
DER_ASSERT(sizeof(der_encrypted_data_at) == 24, "3 places");
DER_ASSERT(sizeof(der_signing_certificate_v2_at) == 16, "2 places");
DER_ASSERT(sizeof(der_ess_cert_idv2_at) == 24, "3 places");
DER_ASSERT(sizeof(der_time_stamp_req_at) == 48, "6 places");
DER_ASSERT(sizeof(der_message_imprint_at) == 16, "2 places");
DER_ASSERT(sizeof(der_time_stamp_resp_at) == 16, "2 places");
DER_ASSERT(sizeof(der_pki_status_info_at) == 24, "3 places");
DER_ASSERT(sizeof(der_tst_info_at) == 80, "10 places");
DER_ASSERT(sizeof(der_accuracy_at) == 24, "3 places");
DER_ASSERT(sizeof(der_pfx_at) == 24, "3 places");
DER_ASSERT(sizeof(der_mac_data_at) == 24, "3 places");
DER_ASSERT(sizeof(der_digest_info_at) == 16, "2 places");
DER_ASSERT(sizeof(der_safe_bag_at) == 24, "3 places");
DER_ASSERT(sizeof(der_cert_bag_at) == 16, "2 places");
/* end of structs */

/* Returns DER_ABI_VERSION of the library that was linked. */
uint32_t der_abi_version(void);

/* Returns the meaning of a number in English, a text that is never freed; "no such number" for another number. */
const char *der_number_text(uint32_t number);

/* written by tools/bindings: calls */
/* Reads all octets as a certificate (Certificate, RFC 5280 4.1). No signature is verified, and nothing that RFC 5280
 * asks beyond the grammar. */
uint32_t der_certificate(const uint8_t *octets, size_t len, der_certificate_at *out, der_fault *fault);

/* Reads the extension at the front of the octets (Extension, RFC 5280 4.2). Its places count from there. */
uint32_t der_extension(const uint8_t *octets, size_t len, der_extension_at *out, der_fault *fault);

/* Reads all octets as a list of revoked certificates (CertificateList, RFC 5280 5.1). */
uint32_t der_certificate_list(const uint8_t *octets, size_t len, der_certificate_list_at *out, der_fault *fault);

/* Reads the entry of a list of revoked certificates at the front of the octets (RevokedCertificate, RFC 5280
 * 5.1.2.6). Its places count from there. */
uint32_t der_revoked_certificate(const uint8_t *octets, size_t len, der_revoked_certificate_at *out, der_fault *fault);

/* Reads all octets as a public key (SubjectPublicKeyInfo, RFC 5280 4.1.2.7). */
uint32_t der_subject_public_key_info(const uint8_t *octets, size_t len, der_subject_public_key_info_at *out,
                                     der_fault *fault);

/* Reads all octets as a private key (PrivateKeyInfo, RFC 5958 section 2). A PrivateKeyInfo is a OneAsymmetricKey.
 * The key itself is not read. */
uint32_t der_private_key_info(const uint8_t *octets, size_t len, der_private_key_info_at *out, der_fault *fault);

/* Reads all octets as a request for a certificate (CertificationRequest, RFC 2986 4.2). */
uint32_t der_certification_request(const uint8_t *octets, size_t len, der_certification_request_at *out,
                                   der_fault *fault);

/* Reads all octets as an OCSP response (OCSPResponse, RFC 6960 4.2.1). What stands in `response` is not read
 * further. */
uint32_t der_ocsp_response(const uint8_t *octets, size_t len, der_ocsp_response_at *out, der_fault *fault);

/* Reads all octets as a signed OCSP response (BasicOCSPResponse, RFC 6960 4.2.1). The octets are the contents octets
 * of `response`, where responseType is id-pkix-ocsp-basic (1.3.6.1.5.5.7.48.1.1). */
uint32_t der_basic_ocsp_response(const uint8_t *octets, size_t len, der_basic_ocsp_response_at *out, der_fault *fault);

/* Reads the response about one certificate at the front of the octets (SingleResponse, RFC 6960 4.2.1). Its places
 * count from there. */
uint32_t der_single_response(const uint8_t *octets, size_t len, der_single_response_at *out, der_fault *fault);

/* Reads all octets as a message with its type (ContentInfo, RFC 5652 section 3). What stands in `content` is not
 * read further. */
uint32_t der_content_info(const uint8_t *octets, size_t len, der_content_info_at *out, der_fault *fault);

/* Reads all octets as a signed message (SignedData, RFC 5652 5.1). The octets are the contents octets of `content`,
 * where contentType is id-signedData (1.2.840.113549.1.7.2). */
uint32_t der_signed_data(const uint8_t *octets, size_t len, der_signed_data_at *out, der_fault *fault);

/* Reads the signer at the front of the octets (SignerInfo, RFC 5652 5.3). Its places count from there. */
uint32_t der_signer_info(const uint8_t *octets, size_t len, der_signer_info_at *out, der_fault *fault);

/* Reads the attribute of a name at the front of the octets (AttributeTypeAndValue, RFC 5280 4.1.2.4). Its places
 * count from there. */
uint32_t der_attribute_type_and_value(const uint8_t *octets, size_t len, der_attribute_type_and_value_at *out,
                                      der_fault *fault);

/* Reads the attribute of a signer, a request or a private key at the front of the octets (Attribute, RFC 5652 5.3,
 * RFC 2986 4.1, RFC 5958 section 2). Its places count from there. */
uint32_t der_attribute(const uint8_t *octets, size_t len, der_attribute_at *out, der_fault *fault);

/* Reads all octets as an algorithm identifier (AlgorithmIdentifier, RFC 5280 4.1.1.2). */
uint32_t der_algorithm_identifier(const uint8_t *octets, size_t len, der_algorithm_identifier_at *out,
                                  der_fault *fault);

/* Reads all octets as a set of parameters of RSASSA-PSS (RSASSA-PSS-params, RFC 4055 3.1). An absent field has its
 * default: SHA-1, MGF1 with SHA-1, 20 octets of salt, trailer field 1. */
uint32_t der_rsassa_pss_params(const uint8_t *octets, size_t len, der_rsassa_pss_params_at *out, der_fault *fault);

/* Reads all octets as an ECDSA signature (ECDSA-Sig-Value, RFC 3279 2.2.3). */
uint32_t der_ecdsa_sig_value(const uint8_t *octets, size_t len, der_ecdsa_sig_value_at *out, der_fault *fault);

/* Reads all octets as a set of parameters of PBES2 (PBES2-params, RFC 8018 A.4). */
uint32_t der_pbes2_params(const uint8_t *octets, size_t len, der_pbes2_params_at *out, der_fault *fault);

/* Reads all octets as a set of parameters of PBKDF2 (PBKDF2-params, RFC 8018 A.2). */
uint32_t der_pbkdf2_params(const uint8_t *octets, size_t len, der_pbkdf2_params_at *out, der_fault *fault);

/* Reads all octets as a public key of RSA (RSAPublicKey, RFC 8017 A.1.1). */
uint32_t der_rsa_public_key(const uint8_t *octets, size_t len, der_rsa_public_key_at *out, der_fault *fault);

/* Reads all octets as a private key of RSA (RSAPrivateKey, RFC 8017 A.1.2). */
uint32_t der_rsa_private_key(const uint8_t *octets, size_t len, der_rsa_private_key_at *out, der_fault *fault);

/* Reads all octets as a private key of an elliptic curve (ECPrivateKey, RFC 5915 section 3). */
uint32_t der_ec_private_key(const uint8_t *octets, size_t len, der_ec_private_key_at *out, der_fault *fault);

/* Reads all octets as an encrypted private key (EncryptedPrivateKeyInfo, RFC 5958 section 3). */
uint32_t der_encrypted_private_key_info(const uint8_t *octets, size_t len, der_encrypted_private_key_info_at *out,
                                        der_fault *fault);

/* Reads all octets as an authority key identifier (AuthorityKeyIdentifier, RFC 5280 4.2.1.1). */
uint32_t der_authority_key_identifier(const uint8_t *octets, size_t len, der_authority_key_identifier_at *out,
                                      der_fault *fault);

/* Reads all octets as a certificate policy (PolicyInformation, RFC 5280 4.2.1.4). */
uint32_t der_policy_information(const uint8_t *octets, size_t len, der_policy_information_at *out, der_fault *fault);

/* Reads all octets as a policy qualifier (PolicyQualifierInfo, RFC 5280 4.2.1.4). */
uint32_t der_policy_qualifier_info(const uint8_t *octets, size_t len, der_policy_qualifier_info_at *out,
                                   der_fault *fault);

/* Reads all octets as a policy mapping (PolicyMapping, RFC 5280 4.2.1.5). */
uint32_t der_policy_mapping(const uint8_t *octets, size_t len, der_policy_mapping_at *out, der_fault *fault);

/* Reads all octets as a set of basic constraints (BasicConstraints, RFC 5280 4.2.1.9). */
uint32_t der_basic_constraints(const uint8_t *octets, size_t len, der_basic_constraints_at *out, der_fault *fault);

/* Reads all octets as a set of name constraints (NameConstraints, RFC 5280 4.2.1.10). */
uint32_t der_name_constraints(const uint8_t *octets, size_t len, der_name_constraints_at *out, der_fault *fault);

/* Reads all octets as a subtree of names (GeneralSubtree, RFC 5280 4.2.1.10). */
uint32_t der_general_subtree(const uint8_t *octets, size_t len, der_general_subtree_at *out, der_fault *fault);

/* Reads all octets as a set of policy constraints (PolicyConstraints, RFC 5280 4.2.1.11). */
uint32_t der_policy_constraints(const uint8_t *octets, size_t len, der_policy_constraints_at *out, der_fault *fault);

/* Reads all octets as a distribution point (DistributionPoint, RFC 5280 4.2.1.13). */
uint32_t der_distribution_point(const uint8_t *octets, size_t len, der_distribution_point_at *out, der_fault *fault);

/* Reads all octets as an access description (AccessDescription, RFC 5280 4.2.2.1). */
uint32_t der_access_description(const uint8_t *octets, size_t len, der_access_description_at *out, der_fault *fault);

/* Reads all octets as an issuing distribution point (IssuingDistributionPoint, RFC 5280 5.2.5). */
uint32_t der_issuing_distribution_point(const uint8_t *octets, size_t len, der_issuing_distribution_point_at *out,
                                        der_fault *fault);

/* Reads all octets as an OCSP request (OCSPRequest, RFC 6960 4.1.1). */
uint32_t der_ocsp_request(const uint8_t *octets, size_t len, der_ocsp_request_at *out, der_fault *fault);

/* Reads all octets as a body of an OCSP request (TBSRequest, RFC 6960 4.1.1). */
uint32_t der_tbs_request(const uint8_t *octets, size_t len, der_tbs_request_at *out, der_fault *fault);

/* Reads all octets as a request about one certificate (Request, RFC 6960 4.1.1). */
uint32_t der_request(const uint8_t *octets, size_t len, der_request_at *out, der_fault *fault);

/* Reads all octets as a certificate's identifier in OCSP (CertID, RFC 6960 4.1.1). */
uint32_t der_cert_id(const uint8_t *octets, size_t len, der_cert_id_at *out, der_fault *fault);

/* Reads all octets as an issuer and serial number (IssuerAndSerialNumber, RFC 5652 10.2.4). */
uint32_t der_issuer_and_serial_number(const uint8_t *octets, size_t len, der_issuer_and_serial_number_at *out,
                                      der_fault *fault);

/* Reads all octets as an enveloped message (EnvelopedData, RFC 5652 6.1). */
uint32_t der_enveloped_data(const uint8_t *octets, size_t len, der_enveloped_data_at *out, der_fault *fault);

/* Reads all octets as an encrypted content (EncryptedContentInfo, RFC 5652 6.1). */
uint32_t der_encrypted_content_info(const uint8_t *octets, size_t len, der_encrypted_content_info_at *out,
                                    der_fault *fault);

/* Reads all octets as a recipient with a key that is transported (KeyTransRecipientInfo, RFC 5652 6.2.1). */
uint32_t der_key_trans_recipient_info(const uint8_t *octets, size_t len, der_key_trans_recipient_info_at *out,
                                      der_fault *fault);

/* Reads all octets as an encrypted message (EncryptedData, RFC 5652 section 8). */
uint32_t der_encrypted_data(const uint8_t *octets, size_t len, der_encrypted_data_at *out, der_fault *fault);

/* Reads all octets as a list of the certificates of a signer (SigningCertificateV2, RFC 5035 section 3). */
uint32_t der_signing_certificate_v2(const uint8_t *octets, size_t len, der_signing_certificate_v2_at *out,
                                    der_fault *fault);

/* Reads all octets as a certificate's hash value (ESSCertIDv2, RFC 5035 section 4). */
uint32_t der_ess_cert_idv2(const uint8_t *octets, size_t len, der_ess_cert_idv2_at *out, der_fault *fault);

/* Reads all octets as a request for a time stamp (TimeStampReq, RFC 3161 2.4.1). */
uint32_t der_time_stamp_req(const uint8_t *octets, size_t len, der_time_stamp_req_at *out, der_fault *fault);

/* Reads all octets as a hash value of what is stamped (MessageImprint, RFC 3161 2.4.1). */
uint32_t der_message_imprint(const uint8_t *octets, size_t len, der_message_imprint_at *out, der_fault *fault);

/* Reads all octets as a response with a time stamp (TimeStampResp, RFC 3161 2.4.2). */
uint32_t der_time_stamp_resp(const uint8_t *octets, size_t len, der_time_stamp_resp_at *out, der_fault *fault);

/* Reads all octets as a status of a response (PKIStatusInfo, RFC 3161 2.4.2). */
uint32_t der_pki_status_info(const uint8_t *octets, size_t len, der_pki_status_info_at *out, der_fault *fault);

/* Reads all octets as a time stamp (TSTInfo, RFC 3161 2.4.2). */
uint32_t der_tst_info(const uint8_t *octets, size_t len, der_tst_info_at *out, der_fault *fault);

/* Reads all octets as an accuracy of a time (Accuracy, RFC 3161 2.4.2). */
uint32_t der_accuracy(const uint8_t *octets, size_t len, der_accuracy_at *out, der_fault *fault);

/* Reads all octets as a PKCS 12 file (PFX, RFC 7292 section 4). */
uint32_t der_pfx(const uint8_t *octets, size_t len, der_pfx_at *out, der_fault *fault);

/* Reads all octets as a MAC of a PKCS 12 file (MacData, RFC 7292 section 4). */
uint32_t der_mac_data(const uint8_t *octets, size_t len, der_mac_data_at *out, der_fault *fault);

/* Reads all octets as a hash value with its algorithm (DigestInfo, RFC 8017 9.2). */
uint32_t der_digest_info(const uint8_t *octets, size_t len, der_digest_info_at *out, der_fault *fault);

/* Reads all octets as a bag of a PKCS 12 file (SafeBag, RFC 7292 4.2). */
uint32_t der_safe_bag(const uint8_t *octets, size_t len, der_safe_bag_at *out, der_fault *fault);

/* Reads all octets as a certificate in a bag (CertBag, RFC 7292 4.2.3). */
uint32_t der_cert_bag(const uint8_t *octets, size_t len, der_cert_bag_at *out, der_fault *fault);
/* end of calls */

/* Reads all octets as an INTEGER from 0 to 18446744073709551615. */
uint32_t der_unsigned_integer(const uint8_t *octets, size_t len, uint64_t *out, der_fault *fault);

/* Reads all octets as a time (Time, RFC 5280 4.1.2.5): a UTCTime, or a GeneralizedTime without a fraction. Writes the
 * seconds from 1970-01-01T00:00:00Z, with no leap seconds; an earlier time is refused (13). */
uint32_t der_time(const uint8_t *octets, size_t len, uint64_t *out, der_fault *fault);

/* Reads all octets as a GeneralizedTime that may have a fraction of a second, such as `gen_time` of a time stamp. Writes
 * such seconds, without the fraction. */
uint32_t der_fractional_time(const uint8_t *octets, size_t len, uint64_t *out, der_fault *fault);

/* Reads all octets as a BIT STRING with named bits, such as a KeyUsage (RFC 5280 4.2.1.3). Writes the bits 0 to 15: bit 0
 * as 1, bit 1 as 2, bit 2 as 4, and so on. */
uint32_t der_named_bits(const uint8_t *octets, size_t len, uint32_t *out, der_fault *fault);

/* Reads all octets as a GeneralName (RFC 5280 4.2.1.6), and writes its kind, one of der_name_kind. der_contents returns
 * the place of the value: of a directoryName a whole Name, of the other kinds contents octets. */
uint32_t der_general_name(const uint8_t *octets, size_t len, uint32_t *out, der_fault *fault);

/* Reads all octets of both as Names, and writes 1 if they match (RFC 5280 7.1), else 0. A fault of `second` is returned
 * only if `first` has none. */
uint32_t der_names_match(const uint8_t *first, size_t first_len, const uint8_t *second, size_t second_len, uint32_t *out,
                         der_fault *fault);

/* Reads all octets as a Name, and writes it as text, with a zero at its end (RFC 4514): `CN=one,O=two`. An attribute without
 * a short name there, and a value that is no text, is hexadecimal; control characters have a backslash. If the buffer is too
 * short (103), it is unchanged; `length` is that of the text, without the zero. */
uint32_t der_name_text(const uint8_t *octets, size_t len, char *buffer, size_t size, size_t *length, der_fault *fault);

/* Returns 1 if the contents octets of a dNSName name a host (RFC 9525 6.3), else 0: both are domain names and equal but for
 * the case of letters, or the name is "*." before a domain name, and the host one label, a period and this domain name. */
uint32_t der_name_is_of_host(const uint8_t *name, size_t name_len, const uint8_t *host, size_t host_len);

/* Reads all octets as GeneralNames, such as the value of a subjectAltName, and writes 1 if one is a dNSName that names the
 * host, else 0. */
uint32_t der_names_host(const uint8_t *octets, size_t len, const uint8_t *host, size_t host_len, uint32_t *out, der_fault *fault);

/* Reads all octets as GeneralNames, and writes 1 if one is an iPAddress with these 4 or 16 octets, else 0. */
uint32_t der_names_address(const uint8_t *octets, size_t len, const uint8_t *address, size_t address_len, uint32_t *out,
                           der_fault *fault);

/* Reads all octets as a certificate revocation list, and writes the first entry whose serial number has these contents
 * octets; if there is none, the length of each place of `out` is 0. */
uint32_t der_find_revoked(const uint8_t *octets, size_t len, const uint8_t *serial, size_t serial_len,
                          der_revoked_certificate_at *out, der_fault *fault);

/* The hash values that a CertID has of an issuer (RFC 6960 4.1.1): of its Name, and of its key without tag, length and
 * unused bits. */
typedef struct der_cert_id_hashes {
    const uint8_t *name, *key;
    size_t len; /* of each */
} der_cert_id_hashes;

/* Reads all octets as a CertID, and writes 1 if it has these hash values and a serial number with these contents octets,
 * else 0. The caller compares the algorithm. */
uint32_t der_cert_id_is(const uint8_t *octets, size_t len, const der_cert_id_hashes *hashes, const uint8_t *serial,
                        size_t serial_len, uint32_t *out, der_fault *fault);

/* Reads all octets as an IssuerAndSerialNumber (RFC 5652 10.2.4), and writes 1 if it names the certificate, else 0: the
 * issuers match, and the serial numbers are equal. A fault is that of the octets, or else that of the certificate. */
uint32_t der_issuer_and_serial_number_is(const uint8_t *octets, size_t len, const uint8_t *certificate, size_t certificate_len,
                                         uint32_t *out, der_fault *fault);

/* Writes the octets of signed attributes that are hashed (RFC 5652 5.4): those at the place, with the tag of a SET OF. The
 * place is `signed_attrs` of der_signer_info_at. If the buffer is too short (103), `written` is the length that is enough. */
uint32_t der_signed_attributes(const uint8_t *octets, size_t len, const der_place *signed_attrs, uint8_t *buffer,
                               size_t buffer_len, size_t *written, der_fault *fault);

/* Writes the contents octets of an OBJECT IDENTIFIER as text, such as 2.5.29.17, with a zero at its end, as far as it fits.
 * Returns the length of the whole text; 0 for octets that are no object identifier, or have an arc over 64 bits. */
size_t der_object_identifier_text(const uint8_t *contents, size_t len, char *buffer, size_t size);

/* Whether this text is that of the contents octets. */
int der_object_identifier_is(const uint8_t *contents, size_t len, const char *dotted);

/* Reads all octets as a certificate, and writes which rules of RFC 5280 it breaks: 0, or the sum of the
 * bits DER_CERTIFICATE_. No path, no signature and no other rule is checked. */
uint32_t der_check_rfc5280(const uint8_t *octets, size_t len, uint64_t *broken, der_fault *fault);

/* Reads all octets as a certificate revocation list, and writes which rules it breaks, as bits DER_LIST_. */
uint32_t der_check_rfc5280_list(const uint8_t *octets, size_t len, uint64_t *broken, der_fault *fault);

/* ---- A chain of certificates (RFC 5280 6.1, with the policies of RFC 9618). */

/* written by tools/bindings: structs of check path */
/* The inputs of the validation of a chain beside the chain, with places within the octets (RFC 5280 6.1.1). */
typedef struct der_path_inputs {
    uint64_t moment;             /* (b), in seconds from 1970-01-01T00:00:00Z */
    der_place anchor_name;       /* (d)(1): a Name, such as the subject of a certificate that is trusted */
    der_place anchor_key;        /* (d)(2) to (4): a SubjectPublicKeyInfo */
    der_place policies;          /* (c): encodings of OBJECT IDENTIFIERs, one after another; of length 0: any policy */
    der_place constraints;       /* (h), (i): a NameConstraints; of length 0: each name is permitted, and none excluded */
    uint32_t mapping_inhibit;    /* (e); a number other than 0 is true */
    uint32_t explicit_policy;    /* (f); a number other than 0 is true */
    uint32_t any_policy_inhibit; /* (g); a number other than 0 is true */
    uint32_t reserved;           /* 0 */
} der_path_inputs;

/* What has to verify of a certificate (RFC 5280 6.1.3 (a)(1)). */
typedef struct der_verification_at {
    der_place signed_octets; /* what the signature covers: tbsCertificate of the certificate */
    der_place algorithm;     /* its signatureAlgorithm, an AlgorithmIdentifier */
    der_place signature;     /* its signatureValue, a BIT STRING */
    der_place key;           /* a SubjectPublicKeyInfo: that of the certificate before it, or of the anchor */
    der_place parameters;    /* the key's own parameters, or those that it inherits (6.1.4 (d) to (f)); of length 0: none */
} der_verification_at;

/* What is said of a chain. */
typedef struct der_path_at {
    uint64_t refused_index; /* which certificate is refused, from 0; the number of certificates where none of them is */
    uint64_t policy_count;  /* how many policies user_constrained_policy_set has (6.1.6) */
    uint64_t policies_len;  /* how many octets they have */
    uint32_t step;          /* the step that refuses (der_step), where the result is 104; else 0 */
    uint32_t reserved;      /* 0 */
} der_path_at;

DER_ASSERT(sizeof(der_path_inputs) == 56, "4 places and 1 number of 64 bits and 4 numbers of 32 bits");
DER_ASSERT(offsetof(der_path_inputs, anchor_name) == 8, "after 1 number of 64 bits");
DER_ASSERT(offsetof(der_path_inputs, mapping_inhibit) == 40, "after 4 places and 1 number of 64 bits");
DER_ASSERT(sizeof(der_verification_at) == 40, "5 places");
DER_ASSERT(sizeof(der_path_at) == 32, "3 numbers of 64 bits and 2 numbers of 32 bits");
DER_ASSERT(offsetof(der_path_at, step) == 24, "after 3 numbers of 64 bits");
/* end of structs of check path */

/* The steps that refuse a certificate. A number never changes its meaning. */
enum der_step {
    /* written by tools/bindings: steps of certificates */
    DER_STEP_VALIDITY = 1,                  /* 6.1.3 (a)(2): the moment is outside the validity */
    DER_STEP_ISSUER = 2,                    /* 6.1.3 (a)(4): the issuer is not the subject before it, or the anchor */
    DER_STEP_PERMITTED = 3,                 /* 6.1.3 (b): a name is not within the permitted subtrees */
    DER_STEP_EXCLUDED = 4,                  /* 6.1.3 (c): a name is within an excluded subtree */
    DER_STEP_POLICIES = 5,                  /* 6.1.3 (f): no policy is left, and one is required */
    DER_STEP_ANY_POLICY_IS_MAPPED = 6,      /* 6.1.4 (a): anyPolicy is mapped */
    DER_STEP_CA = 7,                        /* 6.1.4 (k): not of version 3, or not a CA's */
    DER_STEP_PATH_LENGTH = 8,               /* 6.1.4 (l): the chain is longer than a pathLenConstraint allows */
    DER_STEP_KEY_USAGE = 9,                 /* 6.1.4 (n): keyUsage does not have keyCertSign */
    DER_STEP_UNKNOWN_EXTENSION = 10,        /* 6.1.4 (o): a critical extension is not processed */
    DER_STEP_UNKNOWN_EXTENSION_AT_END = 11, /* 6.1.5 (f): the same of the last certificate */
    DER_STEP_USER_POLICIES = 12             /* 6.1.5 (g): no policy of the user is left, and one is required */
    /* end of steps of certificates */
};

/* Validates a chain: the places of its certificates, from the one that the anchor issued to the end certificate. All places
 * are within the octets.
 *
 * 0: the chain is valid if for each certificate what stands at its place of `verifications` verifies ((a)(1)), and the
 * certificate is not revoked ((a)(3)); these are left to the caller. `policies` has the policies of the user that the chain
 * is valid for, each as the encoding of an OBJECT IDENTIFIER, one after another.
 *
 * Else no verification and no policy is written: 104 if a step refuses the certificate at `refused_index`; 105 if one of its
 * extensions stands twice or cannot be read, of those that 6.1 processes; 106 for no certificates; 100 for a place that is
 * not within the octets, or the number of the first fault of what is read at it, whose position counts from the start of all
 * octets; 103 if `room` is less than `count`, or `policies_size` less than `policies_len`, which is written.
 *
 * `out` is always written, but for a null pointer (101). */
uint32_t der_check_path(const uint8_t *octets, size_t len, const der_path_inputs *inputs, const der_place *chain, size_t count,
                        der_verification_at *verifications, size_t room, uint8_t *policies, size_t policies_size,
                        der_path_at *out, der_fault *fault);

/* Returns the section and the letter of a step of RFC 5280, such as "6.1.3 (a)(2)", a text that is never freed; "no step" for
 * another number. */
const char *der_step_text(uint32_t step);

/* ---- The status of a certificate, by a list (RFC 5280 6.3.3) or an answer of OCSP (RFC 6960). No signature is verified. */

/* The number of a reason (RFC 5280 5.3.1). A set of reasons has the bits of ReasonFlags (4.2.1.13): bit 1 as 2 for
 * keyCompromise, to bit 8 as 256 for aACompromise. */
enum der_reason {
    DER_UNSPECIFIED = 0,
    DER_KEY_COMPROMISE = 1,
    DER_CA_COMPROMISE = 2,
    DER_AFFILIATION_CHANGED = 3,
    DER_SUPERSEDED = 4,
    DER_CESSATION_OF_OPERATION = 5,
    DER_CERTIFICATE_HOLD = 6,
    DER_REMOVE_FROM_CRL = 8,
    DER_PRIVILEGE_WITHDRAWN = 9,
    DER_AA_COMPROMISE = 10
};

/* written by tools/bindings: structs of list status */
/* What a list says of a certificate (RFC 5280 6.3.3). */
typedef struct der_list_status_at {
    uint64_t revocation_date_seconds; /* when, in seconds from 1970-01-01T00:00:00Z; 0 if the certificate is not revoked */
    uint32_t is_revoked;              /* 1 or 0 */
    uint32_t reason;                  /* one of der_reason: why it is revoked; unspecified where the entry has no reason */
    uint32_t reasons;                 /* the reasons for which certificates stand in the list, as bits of ReasonFlags */
    uint32_t step;                    /* the step that refuses (der_list_step), where the result is 107; else 0 */
} der_list_status_at;

DER_ASSERT(sizeof(der_list_status_at) == 24, "1 number of 64 bits and 4 numbers of 32 bits");
DER_ASSERT(offsetof(der_list_status_at, is_revoked) == 8, "after 1 number of 64 bits");
/* end of structs of list status */

/* The steps that refuse a list. A number never changes its meaning. */
enum der_list_step {
    /* written by tools/bindings: steps of lists */
    DER_LIST_DELTA = 1,                   /* 5.2.4: the list is a delta */
    DER_LIST_UNKNOWN_EXTENSION = 2,       /* 5.2: a critical extension is not processed */
    DER_LIST_UNREAD_ENTRY = 3,            /* 5.3: an extension of an entry stands twice, or cannot be read */
    DER_LIST_UNKNOWN_ENTRY_EXTENSION = 4, /* 5.3: a critical extension of an entry is not processed */
    DER_LIST_ISSUER = 5,                  /* 6.3.3 (b)(1): the issuer is not that of the certificate */
    DER_LIST_POINT_NAME = 6,              /* 6.3.3 (b)(2)(i): the list is of other distribution points */
    DER_LIST_USER_CERTIFICATES = 7,       /* 6.3.3 (b)(2)(ii): the list has end entities alone, and the certificate is a CA's */
    DER_LIST_CA_CERTIFICATES = 8,         /* 6.3.3 (b)(2)(iii): the list has CAs alone, and the certificate is no CA's */
    DER_LIST_ATTRIBUTE_CERTIFICATES = 9,  /* 6.3.3 (b)(2)(iv): the list has attribute certificates alone */
    DER_LIST_THIS_UPDATE = 10,            /* 5.1.2.4: the list is issued after the moment */
    DER_LIST_NEXT_UPDATE = 11,            /* 6.3.3 (a)(1): the moment is after nextUpdate */
    DER_LIST_NO_NEW_REASONS = 12          /* 6.3.3 (e): the list has no reason */
    /* end of steps of lists */
};

/* Says what a list of revoked certificates tells of a certificate at a moment, in seconds from 1970 (RFC 5280 6.3.3). Both are
 * at places within the octets. The list is the own one of the certificate's issuer: whole, no delta, and not indirect.
 *
 * 0: the list tells whether the certificate is revoked, if the signature of the list verifies ((g)) by the key of its issuer,
 * whose path is valid and whose keyUsage, if it is there, has cRLSign ((f)); these are left to the caller.
 *
 * Else 107 if a step refuses the list; 105 if an extension of the certificate that 6.1 processes stands twice or cannot be
 * read, 109 if one of the list that 6.3.3 processes does; 100 for a place that is not within the octets, or the number of the
 * first fault of what is read at it, whose position counts from the start of all octets: first the certificate, then the list.
 *
 * `out` is always written, but for a null pointer (101). */
uint32_t der_list_status(const uint8_t *octets, size_t len, const der_place *certificate, const der_place *list, uint64_t moment,
                         der_list_status_at *out, der_fault *fault);

/* written by tools/bindings: structs of revocation status */
/* What lists say of a certificate (RFC 5280 6.3.3). */
typedef struct der_revocation_status_at {
    uint64_t revocation_date_seconds; /* when, in seconds from 1970-01-01T00:00:00Z; 0 if the certificate is not revoked */
    uint64_t refused_index;           /* which list is not read, from 0; the number of lists where each is */
    uint32_t status;                  /* 0: not revoked, 1: revoked, 2: the lists do not tell; one of der_revocation */
    uint32_t reason;                  /* one of der_reason: why it is revoked; unspecified where the entry has no reason */
    uint32_t reasons;                 /* known reasons, as bits of ReasonFlags, where the lists do not tell; else 0 */
    uint32_t reserved;                /* 0 */
} der_revocation_status_at;

DER_ASSERT(sizeof(der_revocation_status_at) == 32, "2 numbers of 64 bits and 4 numbers of 32 bits");
DER_ASSERT(offsetof(der_revocation_status_at, status) == 16, "after 2 numbers of 64 bits");
/* end of structs of revocation status */

/* cert_status of 6.3.3. */
enum der_revocation {
    DER_UNREVOKED = 0,   /* the certificate is in none of the lists, and these have all reasons */
    DER_REVOKED = 1,     /* it is revoked */
    DER_UNDETERMINED = 2 /* it is in none of the lists that are used, and these do not have all reasons */
};

/* Says what lists tell of a certificate by the whole of 6.3.3, with distribution points, indirect lists and deltas: complete
 * lists and deltas, in any order; those that 6.3.3 does not use say nothing. All are at places within the octets. `use_deltas`
 * is use-deltas (6.3.1 (b)): a number other than 0 is true.
 *
 * 0: this is the status, if the signature of each list verifies ((g), (h)) by the key of its issuer, whose path is valid and
 * whose keyUsage, if it is there, has cRLSign ((f)); these are left to the caller.
 *
 * Else 105 if an extension of the certificate that 6.3.3 processes stands twice or cannot be read; 100 for a place that is not
 * within the octets, or the number of the first fault of what is read at it, whose position counts from the start of all
 * octets: first the certificate, then each list.
 *
 * `out` is always written, but for a null pointer (101). */
uint32_t der_revocation_status(const uint8_t *octets, size_t len, const der_place *certificate, const der_place *lists,
                               size_t count, uint64_t moment, uint32_t use_deltas, der_revocation_status_at *out,
                               der_fault *fault);

/* written by tools/bindings: structs of ocsp status */
/* What is asked of an answer of OCSP, with places within the octets (RFC 6960 3.2, 4.1.1). */
typedef struct der_ocsp_inputs {
    uint64_t moment;     /* in seconds from 1970-01-01T00:00:00Z */
    der_place answer;    /* a BasicOCSPResponse */
    der_place issuer;    /* the Name of the certificate's issuer */
    der_place algorithm; /* the contents octets of the hash algorithm's identifier: 2B 0E 03 02 1A for SHA-1 */
    der_place name_hash; /* the hash value of the issuer's name, by this algorithm */
    der_place key_hash;  /* the hash value of the issuer's public key: of the octets of the BIT STRING subjectPublicKey */
    der_place serial;    /* the contents octets of the certificate's serial number */
} der_ocsp_inputs;

/* Who may have signed an answer (RFC 6960 4.2.2.2). */
typedef struct der_responder_at {
    uint64_t index;     /* which certificate of the answer, from 0; 0 for the issuer */
    uint32_t is_issuer; /* 1: the issuer of the certificate; 0: the holder of a certificate of the answer */
    uint32_t reserved;  /* 0 */
} der_responder_at;

/* What an answer says of a certificate. */
typedef struct der_ocsp_status_at {
    uint64_t this_update_seconds;     /* in seconds from 1970-01-01T00:00:00Z */
    uint64_t next_update_seconds;     /* 0 if it is absent */
    uint64_t revocation_time_seconds; /* 0 if the certificate is not revoked */
    uint64_t responder_count;         /* how many may have signed the answer */
    uint64_t key_hash_len;            /* how many octets the hash value of the responder's key has */
    uint32_t cert_status_number;      /* 0: good, 1: revoked, 2: unknown */
    uint32_t reason;                  /* one of der_reason: why it is revoked; unspecified where there is no reason */
    uint32_t has_key_hash;            /* 1: the answer names its responder by the hash value of a key; 0: by a name */
    uint32_t step;                    /* the step that refuses (der_ocsp_step), where the result is 108; else 0 */
} der_ocsp_status_at;

DER_ASSERT(sizeof(der_ocsp_inputs) == 56, "6 places and 1 number of 64 bits");
DER_ASSERT(offsetof(der_ocsp_inputs, answer) == 8, "after 1 number of 64 bits");
DER_ASSERT(sizeof(der_responder_at) == 16, "1 number of 64 bits and 2 numbers of 32 bits");
DER_ASSERT(offsetof(der_responder_at, is_issuer) == 8, "after 1 number of 64 bits");
DER_ASSERT(sizeof(der_ocsp_status_at) == 56, "5 numbers of 64 bits and 4 numbers of 32 bits");
DER_ASSERT(offsetof(der_ocsp_status_at, cert_status_number) == 40, "after 5 numbers of 64 bits");
/* end of structs of ocsp status */

/* The steps that refuse an answer. A number never changes its meaning. */
enum der_ocsp_step {
    /* written by tools/bindings: steps of answers */
    DER_OCSP_CRITICAL_EXTENSION = 1, /* 4.4: an extension of the answer, or of its part about the certificate, is critical */
    DER_OCSP_NOT_ANSWERED = 2,       /* 3.2 (1): the answer is about other certificates */
    DER_OCSP_THIS_UPDATE = 3,        /* 3.2 (5): the status is known to be correct only after the moment */
    DER_OCSP_NEXT_UPDATE = 4,        /* 3.2 (6): newer information is available at the moment */
    DER_OCSP_NO_RESPONDER = 5        /* 3.2 (4): the answer names nobody who may sign it (4.2.2.2) */
    /* end of steps of answers */
};

/* Says what an answer tells of a certificate (RFC 6960 3.2, 4.2.2.2).
 *
 * 0: the answer tells the status, if its signature verifies with the key of one of `responders`: of the issuer, or of a
 * certificate of the answer whose own signature verifies with the issuer's key. If `has_key_hash` is 1, the SHA-1 hash value of
 * that key is `key_hash`. These are left to the caller, and whether the answer is recent enough (3.2 (5)), and whether a
 * responder's certificate is revoked (4.2.2.2.1).
 *
 * Else no responder and no hash value is written: 108 if a step refuses the answer; 100 for a place that is not within the
 * octets, or the number of the first fault of what is read at it, whose position counts from the start of all octets: first the
 * answer, then the name; 103 if `room` is less than `responder_count`, or `key_hash_size` less than `key_hash_len`, which are
 * written.
 *
 * `out` is always written, but for a null pointer (101). */
uint32_t der_ocsp_status(const uint8_t *octets, size_t len, const der_ocsp_inputs *inputs, der_responder_at *responders,
                         size_t room, uint8_t *key_hash, size_t key_hash_size, der_ocsp_status_at *out, der_fault *fault);

/* Returns the section and the letter of a step of RFC 5280 that refuses a list, such as "6.3.3 (b)(1)", or of RFC 6960 that
 * refuses an answer, such as "3.2 (1)", a text that is never freed; "no step" for another number. */
const char *der_list_step_text(uint32_t step);
const char *der_ocsp_step_text(uint32_t step);

/* Reads all octets as a value of the type with a name. Writes the value's one encoding to the front of a buffer, and its
 * length to `written`. If the buffer is too short (103), only `written` is written, with the length that is enough; so a
 * first call may have no buffer. If the octets are refused, or no type has the name (102), both are unchanged.
 *
 * The names are those of certview lines ("cert", "crl", "spki", "pkcs8", "keyusage" ..) and of derview ("i64", "oid",
 * "utctime" ..); docs/FORMAT.md has them. The encoding is the octets that were read, except for derview's types of sets
 * that are read in any order and written in order, which have as many octets. A set of a message stays as it came. */
uint32_t der_canonical(const uint8_t *name, size_t name_len, const uint8_t *octets, size_t len, uint8_t *buffer,
                       size_t buffer_len, size_t *written, der_fault *fault);

/* der_canonical for a name that ends with an octet 0, as "cert". */
uint32_t der_canonical_named(const char *name, const uint8_t *octets, size_t len, uint8_t *buffer, size_t buffer_len,
                             size_t *written, der_fault *fault);

/* Returns the place of the encoding after a place; after a place of no octets, that of the encoding there. If the octets
 * have none, some place within them is returned. */
der_place der_next_encoding(const uint8_t *octets, size_t len, const der_place *last);

/* Returns the place of the contents octets of an encoding, whose place a call wrote for these octets. For another place,
 * some place within the octets is returned. */
der_place der_contents(const uint8_t *octets, size_t len, const der_place *place);

/* Returns the place of the octets of a BIT STRING, such as a key or a signature, whose place a call wrote for these octets; a
 * place of no octets if bits of the last one are unused. */
der_place der_bit_string_octets(const uint8_t *octets, size_t len, const der_place *place);

/* Returns the place of the octets that a signature covers: the first field of a certificate, a list, a request or a signed
 * OCSP response. Only headers are read. For octets that are no such message, some place within them is returned. */
der_place der_signed_octets(const uint8_t *octets, size_t len);

/* ---- Lists within a message. All places count from the start of the message's octets:
 *
 *     der_place left = der_extensions(octets, len, &certificate.extensions);
 *     while (left.length > 0) {
 *         result = der_next_extension(octets, len, &left, &extension, &fault);
 *         if (result != 0) ...
 *     }
 */

/* Returns the place of the extensions of a certificate, a list or a response, without their headers; a place of no octets
 * if the field is absent. */
der_place der_extensions(const uint8_t *octets, size_t len, const der_place *field);

/* Returns the place of the items of a field with one header, such as the entries of a list; a place of no octets if the
 * field is absent. */
der_place der_items(const uint8_t *octets, size_t len, const der_place *field);

/* written by tools/bindings: next calls */
/* Reads the extension at the front of `left`, and moves `left` past it. The places count from the start of the
 * octets. At first, `left` is the result of der_extensions. Returns 100 if `left` is not within the octets. */
uint32_t der_next_extension(const uint8_t *octets, size_t len, der_place *left, der_extension_at *out,
                            der_fault *fault);

/* Reads the entry of a list of revoked certificates at the front of `left`, and moves `left` past it. The places
 * count from the start of the octets. At first, `left` is the result of der_items for `revoked_certificates`.
 * Returns 100 if `left` is not within the octets. */
uint32_t der_next_revoked_certificate(const uint8_t *octets, size_t len, der_place *left,
                                      der_revoked_certificate_at *out, der_fault *fault);

/* Reads the response about one certificate at the front of `left`, and moves `left` past it. The places count from
 * the start of the octets. At first, `left` is the result of der_items for `responses`. Returns 100 if `left` is not
 * within the octets. */
uint32_t der_next_single_response(const uint8_t *octets, size_t len, der_place *left, der_single_response_at *out,
                                  der_fault *fault);

/* Reads the signer at the front of `left`, and moves `left` past it. The places count from the start of the octets.
 * At first, `left` is the result of der_items for `signer_infos`. Returns 100 if `left` is not within the octets. */
uint32_t der_next_signer_info(const uint8_t *octets, size_t len, der_place *left, der_signer_info_at *out,
                              der_fault *fault);

/* Reads the attribute of a signer, a request or a private key at the front of `left`, and moves `left` past it. The
 * places count from the start of the octets. At first, `left` is the result of der_items for `signed_attrs`,
 * `unsigned_attrs` or `attributes`. Returns 100 if `left` is not within the octets. */
uint32_t der_next_attribute(const uint8_t *octets, size_t len, der_place *left, der_attribute_at *out,
                            der_fault *fault);

/* Reads the certificate policy at the front of `left`, and moves `left` past it. The places count from the start of
 * the octets. At first, `left` is the result of der_items for the list. Returns 100 if `left` is not within the
 * octets. */
uint32_t der_next_policy_information(const uint8_t *octets, size_t len, der_place *left, der_policy_information_at *out,
                                     der_fault *fault);

/* Reads the policy qualifier at the front of `left`, and moves `left` past it. The places count from the start of
 * the octets. At first, `left` is the result of der_items for `policy_qualifiers`. Returns 100 if `left` is not
 * within the octets. */
uint32_t der_next_policy_qualifier_info(const uint8_t *octets, size_t len, der_place *left,
                                        der_policy_qualifier_info_at *out, der_fault *fault);

/* Reads the policy mapping at the front of `left`, and moves `left` past it. The places count from the start of the
 * octets. At first, `left` is the result of der_items for the list. Returns 100 if `left` is not within the octets. */
uint32_t der_next_policy_mapping(const uint8_t *octets, size_t len, der_place *left, der_policy_mapping_at *out,
                                 der_fault *fault);

/* Reads the subtree of names at the front of `left`, and moves `left` past it. The places count from the start of
 * the octets. At first, `left` is the result of der_items for `permitted_subtrees` or `excluded_subtrees`. Returns
 * 100 if `left` is not within the octets. */
uint32_t der_next_general_subtree(const uint8_t *octets, size_t len, der_place *left, der_general_subtree_at *out,
                                  der_fault *fault);

/* Reads the distribution point at the front of `left`, and moves `left` past it. The places count from the start of
 * the octets. At first, `left` is the result of der_items for the list. Returns 100 if `left` is not within the
 * octets. */
uint32_t der_next_distribution_point(const uint8_t *octets, size_t len, der_place *left, der_distribution_point_at *out,
                                     der_fault *fault);

/* Reads the access description at the front of `left`, and moves `left` past it. The places count from the start of
 * the octets. At first, `left` is the result of der_items for the list. Returns 100 if `left` is not within the
 * octets. */
uint32_t der_next_access_description(const uint8_t *octets, size_t len, der_place *left, der_access_description_at *out,
                                     der_fault *fault);

/* Reads the request about one certificate at the front of `left`, and moves `left` past it. The places count from
 * the start of the octets. At first, `left` is the result of der_items for `request_list`. Returns 100 if `left` is
 * not within the octets. */
uint32_t der_next_request(const uint8_t *octets, size_t len, der_place *left, der_request_at *out, der_fault *fault);

/* Reads the certificate's hash value at the front of `left`, and moves `left` past it. The places count from the
 * start of the octets. At first, `left` is the result of der_items for `certs`. Returns 100 if `left` is not within
 * the octets. */
uint32_t der_next_ess_cert_idv2(const uint8_t *octets, size_t len, der_place *left, der_ess_cert_idv2_at *out,
                                der_fault *fault);

/* Reads the bag of a PKCS 12 file at the front of `left`, and moves `left` past it. The places count from the start
 * of the octets. At first, `left` is the result of der_items for the SafeContents. Returns 100 if `left` is not
 * within the octets. */
uint32_t der_next_safe_bag(const uint8_t *octets, size_t len, der_place *left, der_safe_bag_at *out, der_fault *fault);
/* end of next calls */

/* The attributes of a name that are left: parts that were not entered, and attributes of the part that was. */
typedef struct der_name_left {
    der_place parts;
    der_place attributes;
} der_name_left;

/* Returns all attributes of a name:
 *
 *     der_name_left left = der_name(octets, len, &certificate.subject);
 *     while (der_has_attribute(&left)) {
 *         result = der_next_name_attribute(octets, len, &left, &attribute, &fault);
 *         if (result != 0) ...
 *     }
 */
der_name_left der_name(const uint8_t *octets, size_t len, const der_place *name);

/* Returns 1 if an attribute is left, else 0. */
int der_has_attribute(const der_name_left *left);

/* Reads the next attribute that is left, and moves `left` past it. Returns 100 if `left` is not within the octets, or is no
 * name. */
uint32_t der_next_name_attribute(const uint8_t *octets, size_t len, der_name_left *left,
                                 der_attribute_type_and_value_at *out, der_fault *fault);

/* ---- Messages that are written from their parts.
 *
 * The caller has the fields of a message as encodings, each with its tag, in octets, in any order; and their places in the
 * struct that the call that reads the message writes. A place of length 0 is an absent field. Versions, dates in seconds,
 * `is_critical` and `response_status_number` are taken from the numbers, and the places of these fields are not looked at; a
 * date or a version that may be absent is absent where its number is 0.
 *
 * A call writes the encoding to the front of the buffer, and its length to `written`. If the buffer is too short (103), only
 * `written` is written, with the length that is enough. Else `written` and the buffer are unchanged, and the result is the
 * number of the first part that is refused, numbers before fields: 100 if its place is not within the octets, else that of its
 * first fault, whose position counts from the part. The octets and the buffer do not overlap. No call takes memory. */

/* Identifier octets of der_write_encoding. */
enum der_identifier {
    DER_BOOLEAN = 0x01, /* 0xff is TRUE */
    DER_OCTET_STRING = 0x04,
    DER_NULL = 0x05,
    DER_OBJECT_IDENTIFIER = 0x06,
    DER_ENUMERATED = 0x0a,
    DER_SEQUENCE = 0x30,
    DER_SET = 0x31,
    DER_PRIMITIVE = 0x80,  /* + n: the implicit tag [n] of contents octets that are no encodings */
    DER_CONSTRUCTED = 0xa0 /* + n: the explicit tag [n] of an encoding, or the implicit one of a SEQUENCE or SET */
};

/* A TBSCertificate (RFC 5280 4.1.1.1), which is signed: `version_number`, both dates, and the other fields of
 * tbsCertificate. */
uint32_t der_write_tbs_certificate(const uint8_t *octets, size_t len, const der_certificate_at *at, uint8_t *buffer,
                                   size_t buffer_len, size_t *written, der_fault *fault);

/* A Certificate: its three fields. */
uint32_t der_write_certificate(const uint8_t *octets, size_t len, const der_certificate_at *at, uint8_t *buffer,
                               size_t buffer_len, size_t *written, der_fault *fault);

/* An Extension (RFC 5280 4.2): `is_critical`, `extn_id` and `extn_value`. */
uint32_t der_write_extension(const uint8_t *octets, size_t len, const der_extension_at *at, uint8_t *buffer,
                             size_t buffer_len, size_t *written, der_fault *fault);

/* An entry of a list (RFC 5280 5.1.2.6): the date and the other fields. */
uint32_t der_write_revoked_certificate(const uint8_t *octets, size_t len, const der_revoked_certificate_at *at,
                                       uint8_t *buffer, size_t buffer_len, size_t *written, der_fault *fault);

/* A TBSCertList (RFC 5280 5.1.2), which is signed: `version_number`, both dates, and the other fields of tbsCertList. */
uint32_t der_write_tbs_cert_list(const uint8_t *octets, size_t len, const der_certificate_list_at *at, uint8_t *buffer,
                                 size_t buffer_len, size_t *written, der_fault *fault);

/* A CertificateList: its three fields. */
uint32_t der_write_certificate_list(const uint8_t *octets, size_t len, const der_certificate_list_at *at, uint8_t *buffer,
                                    size_t buffer_len, size_t *written, der_fault *fault);

/* A CertificationRequestInfo (RFC 2986 4.1), which is signed: the fields of certificationRequestInfo but the version,
 * which is 0. */
uint32_t der_write_certification_request_info(const uint8_t *octets, size_t len, const der_certification_request_at *at,
                                              uint8_t *buffer, size_t buffer_len, size_t *written, der_fault *fault);

/* A CertificationRequest: its three fields. */
uint32_t der_write_certification_request(const uint8_t *octets, size_t len, const der_certification_request_at *at,
                                         uint8_t *buffer, size_t buffer_len, size_t *written, der_fault *fault);

/* A CertID (RFC 6960 4.1.1). */
uint32_t der_write_cert_id(const uint8_t *octets, size_t len, const der_cert_id_at *at, uint8_t *buffer, size_t buffer_len,
                           size_t *written, der_fault *fault);

/* A Request about one certificate (RFC 6960 4.1.1). */
uint32_t der_write_request(const uint8_t *octets, size_t len, const der_request_at *at, uint8_t *buffer, size_t buffer_len,
                           size_t *written, der_fault *fault);

/* A TBSRequest (RFC 6960 4.1.1): its fields but the version, which is 0. */
uint32_t der_write_tbs_request(const uint8_t *octets, size_t len, const der_tbs_request_at *at, uint8_t *buffer,
                               size_t buffer_len, size_t *written, der_fault *fault);

/* An OCSPRequest (RFC 6960 4.1.1). */
uint32_t der_write_ocsp_request(const uint8_t *octets, size_t len, const der_ocsp_request_at *at, uint8_t *buffer,
                                size_t buffer_len, size_t *written, der_fault *fault);

/* A SingleResponse (RFC 6960 4.2.1): both dates, `cert_id`, `cert_status` and `single_extensions`. */
uint32_t der_write_single_response(const uint8_t *octets, size_t len, const der_single_response_at *at, uint8_t *buffer,
                                   size_t buffer_len, size_t *written, der_fault *fault);

/* A ResponseData (RFC 6960 4.2.1), which is signed: the date, and the other fields of tbsResponseData but the version,
 * which is 0. */
uint32_t der_write_response_data(const uint8_t *octets, size_t len, const der_basic_ocsp_response_at *at, uint8_t *buffer,
                                 size_t buffer_len, size_t *written, der_fault *fault);

/* A BasicOCSPResponse: its four fields. */
uint32_t der_write_basic_ocsp_response(const uint8_t *octets, size_t len, const der_basic_ocsp_response_at *at,
                                       uint8_t *buffer, size_t buffer_len, size_t *written, der_fault *fault);

/* An OCSPResponse (RFC 6960 4.2.1): `response_status_number` and `response_bytes`. */
uint32_t der_write_ocsp_response(const uint8_t *octets, size_t len, const der_ocsp_response_at *at, uint8_t *buffer,
                                 size_t buffer_len, size_t *written, der_fault *fault);

/* An encoding with an identifier octet, such as one of der_identifier, and these contents octets, which are not read.
 * Another number is refused. */
uint32_t der_write_encoding(uint32_t identifier, const uint8_t *contents, size_t len, uint8_t *buffer, size_t buffer_len,
                            size_t *written, der_fault *fault);

/* A BIT STRING of all bits of these octets, such as a signature. */
uint32_t der_write_bit_string(const uint8_t *octets, size_t len, uint8_t *buffer, size_t buffer_len, size_t *written,
                              der_fault *fault);

/* A BIT STRING with named bits, such as a KeyUsage: bit 0 is the highest bit of the first octet, and zeros at the end are
 * left out. Octet 0x06 has the bits 5 and 6, keyCertSign and cRLSign. */
uint32_t der_write_named_bits(const uint8_t *octets, size_t len, uint8_t *buffer, size_t buffer_len, size_t *written,
                              der_fault *fault);

/* An INTEGER that is not negative, from its octets, most significant first. */
uint32_t der_write_unsigned_integer(const uint8_t *octets, size_t len, uint8_t *buffer, size_t buffer_len, size_t *written,
                                    der_fault *fault);

/* A SubjectPublicKeyInfo of an Ed25519 key, of 32 octets (RFC 8410). */
uint32_t der_write_ed25519_key(const uint8_t *octets, size_t len, uint8_t *buffer, size_t buffer_len, size_t *written,
                               der_fault *fault);

/* A SubjectPublicKeyInfo of a P-256 key: 04 and both coordinates, or 02 or 03 and the first (RFC 5480). It is not tested
 * whether the point is one of the curve. */
uint32_t der_write_p256_key(const uint8_t *octets, size_t len, uint8_t *buffer, size_t buffer_len, size_t *written,
                            der_fault *fault);

/* A SubjectPublicKeyInfo of an RSA key, from the encoding of its RSAPublicKey, which is not read: a SEQUENCE of the
 * modulus and the exponent. */
uint32_t der_write_rsa_key(const uint8_t *octets, size_t len, uint8_t *buffer, size_t buffer_len, size_t *written,
                           der_fault *fault);

/* An AttributeTypeAndValue, from the contents octets of its type and its text in UTF-8: a PrintableString, an IA5String
 * or a UTF8String, as RFC 5280 has it for the type. A text that does not fit is refused (13). der_write_encoding makes a
 * part of a Name of it (DER_SET), and a Name of parts (DER_SEQUENCE). */
uint32_t der_write_name_attribute(const uint8_t *type, size_t type_len, const uint8_t *text, size_t text_len,
                                  uint8_t *buffer, size_t buffer_len, size_t *written, der_fault *fault);

/* A Time (RFC 5280 4.1.2.5): a UTCTime until 2049, then a GeneralizedTime. A year after 9999 is refused (14). */
uint32_t der_write_time(uint64_t seconds, uint8_t *buffer, size_t buffer_len, size_t *written, der_fault *fault);

/* A GeneralizedTime. */
uint32_t der_write_generalized_time(uint64_t seconds, uint8_t *buffer, size_t buffer_len, size_t *written, der_fault *fault);

#undef DER_ASSERT
#ifdef __cplusplus
}
#endif
#endif
