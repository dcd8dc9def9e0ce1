/* What a chain of certificates needs beside its validation: encodings of files, policies, and keys with the parameters that they
 * inherit. */
#ifndef PATH_H
#define PATH_H
#include "writing.h"

#include <openssl/pem.h>

/* The first encoding of a file in PEM, or all octets of another. */
static inline octets read_encoding(const char *name)
{
    octets all = read_file(name);
    BIO *text = BIO_new_mem_buf(all.at, (int)all.len);
    char *label = NULL, *header = NULL;
    unsigned char *found = NULL;
    long len = 0;
    if (text != NULL && PEM_read_bio(text, &label, &header, &found, &len) == 1) {
        uint8_t *at = room_for((size_t)len);
        all.at = at;
        all.len = at != NULL ? (size_t)len : 0;
        if (all.len > 0)
            memcpy(at, found, all.len);
    }
    OPENSSL_free(label);
    OPENSSL_free(header);
    OPENSSL_free(found);
    BIO_free(text);
    return all;
}

static inline octets in_room(der_place place)
{
    octets all = {room, taken};
    return part(all, place);
}

/* The place of the encodings of policies in the room: those of a text with commas. */
static inline der_place policies_of(char *text)
{
    der_place all = {(uint32_t)used, 0};
    octets it;
    uint8_t *at;
    char *dotted;
    for (dotted = strtok(text, ","); dotted != NULL; dotted = strtok(NULL, ",")) {
        ASN1_OBJECT *object = OBJ_txt2obj(dotted, 1);
        octets own = {OBJ_get0_data(object), OBJ_length(object)};
        all.length += add_encoding(DER_OBJECT_IDENTIFIER, own).length;
        ASN1_OBJECT_free(object);
    }
    it = at_place(all);
    at = room_for(it.len);
    if (at != NULL)
        memcpy(at, it.at, it.len);
    it.at = at;
    return place_in_room(it);
}

static inline void print_policies(octets all)
{
    der_place item = {0, 0};
    while (next_item(all, &item)) {
        octets it = contents(all, item);
        char dotted[128];
        if (der_object_identifier_text(it.at, it.len, dotted, sizeof dotted) < sizeof dotted)
            printf(" %s", dotted);
    }
}

/* The key of a verification, whose places are of the room. If it inherits its parameters, they are put into it. */
static inline octets working_key(const der_verification_at *at)
{
    octets key = in_room(at->key), how;
    der_subject_public_key_info_at fields;
    der_algorithm_identifier_at algorithm;
    der_place contents;
    int is_own = at->parameters.offset - at->key.offset < at->key.length;
    if (at->parameters.length == 0 || is_own || der_subject_public_key_info(key.at, key.len, &fields, NULL) != 0)
        return key;
    how = part(key, fields.algorithm);
    if (der_algorithm_identifier(how.at, how.len, &algorithm, NULL) != 0)
        return key;
    contents = add(part(how, algorithm.oid));
    contents.length += add(in_room(at->parameters)).length;
    contents = add_encoding(DER_SEQUENCE, at_place(contents));
    contents.length += add(part(key, fields.subject_public_key)).length;
    return at_place(add_encoding(DER_SEQUENCE, at_place(contents)));
}

/* Which signature is the first that does not verify; the number of them where each does. The keys by which they verify are
 * written. */
static inline size_t first_unsigned(const der_verification_at *at, size_t count, octets *keys)
{
    octets all = {room, taken};
    size_t i;
    for (i = 0; i < count; i++) {
        keys[i] = working_key(&at[i]);
        if (!is_signed(in_room(at[i].signed_octets), in_room(at[i].algorithm), bits(all, at[i].signature), keys[i], NULL))
            break;
    }
    return i;
}

enum { MOST = 64 };

/* What a path is valid for, or why it is refused, and at which certificate. */
typedef struct answer {
    octets keys[MOST]; /* of the certificates before each */
    uint8_t policies[1 << 12];
    der_path_at out;
    const char *why;
} answer;

/* Validates a path of some of these certificates, but for lists; says whether it is valid. */
static inline int is_valid(const certificate *all, const der_path_inputs *inputs, const size_t *path, size_t count, answer *it)
{
    der_verification_at at[MOST];
    der_place places[MOST];
    uint32_t result;
    size_t i;
    for (i = 0; i < count; i++)
        places[i] = place_in_room(all[path[i]].whole);
    result = der_check_path(room, taken, inputs, places, count, at, MOST, it->policies, sizeof it->policies, &it->out, NULL);
    it->why = it->out.step != 0 ? der_step_text(it->out.step) : der_number_text(result);
    if (result != 0)
        return 0;
    it->out.refused_index = first_unsigned(at, count, it->keys);
    it->why = it->out.refused_index < count ? "6.1.3 (a)(1)" : NULL;
    return it->why == NULL;
}

/* Prints an answer, and gives the status of the program. */
static inline int tell(const answer *it)
{
    octets policies = {it->policies, it->out.policies_len};
    if (it->why != NULL) {
        printf("refused %zu %s\n", (size_t)it->out.refused_index + 1, it->why);
        return 1;
    }
    printf("valid");
    print_policies(policies);
    puts("");
    return 0;
}

/* Reads the certificates of files up to "-", and gives the words behind it. */
static inline char **read_certificates(char **words, certificate *to, size_t *count)
{
    for (; *words != NULL && strcmp(*words, "-") != 0; words++)
        read_certificate(read_encoding(*words), &to[(*count)++]);
    return words + (*words != NULL);
}
#endif
