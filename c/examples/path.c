/* Validates a chain of certificates (RFC 5280 6.1), by OpenSSL's signatures and by lists of revoked certificates (6.3.3): path
 * SECONDS FLAGS POLICIES ANCHOR CERTIFICATE.. [- LIST.. [- CERTIFICATE..]], in DER or PEM, from the certificate that is trusted
 * to that of the end, at a moment in seconds from 1970, and then of further issuers of lists. FLAGS has a letter for each input
 * of 6.1.1 that is set: e, f and g, or - for none; POLICIES has the policies of the user with commas, or - for any. */
#include "path.h"
#include "revocation.h"

typedef struct asked {
    der_path_inputs inputs;
    certificate all[MOST]; /* the anchor's, those of the chain, and further ones */
    int is_under_way[MOST]; /* whether it is asked about, as where a list is signed with the key of one that it has */
    list lists[MOST];
    size_t chain, count, list_count;
} asked;

static size_t first_revoked(asked *it, const size_t *path, size_t count, const octets *keys);

/* Whether a path from the anchor is valid and unrevoked: of the certificates from an index on, and of others before them. */
static int has_path(asked *it, size_t *path, size_t from)
{
    const der_path_inputs plain = {.moment = it->inputs.moment, .anchor_name = it->inputs.anchor_name,
                                   .anchor_key = it->inputs.anchor_key};
    size_t i, k, count = MOST - from;
    answer found;
    if (is_valid(it->all, &plain, path + from, count, &found) && first_revoked(it, path + from, count, found.keys) == count)
        return 1;
    for (i = 1; i < it->count && from > 0; i++) {
        for (k = from; k < MOST && path[k] != i; k++)
            ;
        path[from - 1] = i;
        if (k == MOST && is_named(&it->all[i], &it->all[path[from]]) && has_path(it, path, from - 1))
            return 1;
    }
    return 0;
}

/* Whether a list is signed with one of the keys above a certificate of a path, or with that of a certificate with a path of its
 * own (6.3.3 (f) to (h)). */
static int is_trusted(const list *of, asked *it, const size_t *path, size_t at, const octets *keys)
{
    size_t i, own[MOST];
    for (i = 0; i <= at; i++)
        if (signing_fault(of, &it->all[i > 0 ? path[i - 1] : 0], keys[i]) == NULL)
            return 1;
    for (i = 1; i < it->count; i++) {
        own[MOST - 1] = i;
        if (signing_fault(of, &it->all[i], key_of(&it->all[i])) == NULL && has_path(it, own, MOST - 1))
            return 1;
    }
    return 0;
}

/* Whether lists tell that a certificate of a path is not revoked (6.1.3 (a)(3)). */
static int is_unrevoked(asked *it, const size_t *path, size_t at, const octets *keys)
{
    der_revocation_status_at told;
    der_place one = place_in_room(it->all[path[at]].whole), lists[MOST];
    size_t i, count = 0;
    for (i = 0; i < it->list_count; i++)
        if (is_trusted(&it->lists[i], it, path, at, keys))
            lists[count++] = place_in_room(it->lists[i].whole);
    return der_revocation_status(room, taken, &one, lists, count, it->inputs.moment, 1, &told, NULL) == 0
           && told.status == DER_UNREVOKED;
}

/* Which certificate of a path is not known as unrevoked; the number of them where each is. One that is asked about passes. */
static size_t first_revoked(asked *it, const size_t *path, size_t count, const octets *keys)
{
    size_t i;
    for (i = 0; i < count; i++) {
        int is_known, *is_under_way = &it->is_under_way[path[i]];
        if (*is_under_way)
            continue;
        *is_under_way = 1;
        is_known = is_unrevoked(it, path, i, keys);
        *is_under_way = 0;
        if (!is_known)
            break;
    }
    return i;
}

static int validate(asked *it)
{
    static answer found;
    size_t i, path[MOST];
    for (i = 0; i < it->chain; i++)
        path[i] = i + 1;
    if (is_valid(it->all, &it->inputs, path, it->chain, &found)) {
        found.out.refused_index = first_revoked(it, path, it->chain, found.keys);
        found.why = found.out.refused_index < it->chain ? "6.1.3 (a)(3)" : NULL;
    }
    return tell(&found);
}

int main(int argc, char **argv)
{
    static asked it;
    char **words;
    if (argc < 6 || argc > MOST) {
        fprintf(stderr, "path SECONDS FLAGS POLICIES ANCHOR CERTIFICATE.. [- LIST.. [- CERTIFICATE..]], at most 64 words\n");
        return 2;
    }
    it.inputs.moment = moment(argv[1]);
    it.inputs.mapping_inhibit = strchr(argv[2], 'e') != NULL;
    it.inputs.explicit_policy = strchr(argv[2], 'f') != NULL;
    it.inputs.any_policy_inhibit = strchr(argv[2], 'g') != NULL;
    words = read_certificates(argv + 4, it.all, &it.count);
    it.chain = it.count - 1;
    if (it.all[0].at.subject.length == 0)
        return refused("the anchor is no certificate");
    it.inputs.anchor_name = place_in_room(subject_of(&it.all[0]));
    it.inputs.anchor_key = place_in_room(key_of(&it.all[0]));
    if (strcmp(argv[3], "-") != 0)
        it.inputs.policies = policies_of(argv[3]);
    for (; *words != NULL && strcmp(*words, "-") != 0; words++)
        it.list_count += (size_t)read_list(read_encoding(*words), &it.lists[it.list_count]);
    read_certificates(words + (*words != NULL), it.all, &it.count);
    return validate(&it);
}
