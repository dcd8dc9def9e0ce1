/* What the tests of calls share: what holds is counted, and what does not is told. */
#include <barleypulley/der.h>

#include <stdio.h>
#include <stdlib.h>
#include <string.h>

static long passed, failed;

static void check(int holds, const char *what)
{
    if (holds) {
        passed++;
    } else {
        failed++;
        fprintf(stderr, "FAILED: %s\n", what);
    }
}

/* 0x5a in each octet, so that a write is seen */
#define FILL(value) memset(&(value), 0x5a, sizeof(value))
#define IS_FILLED(value, type)                                                       \
    do {                                                                             \
        type filled;                                                                 \
        FILL(filled);                                                                \
        check(memcmp(&(value), &filled, sizeof filled) == 0, #type " is as it was"); \
    } while (0)

/* whether a place is within so many octets */
static inline int is_within(size_t len, der_place place)
{
    return place.offset <= len && place.length <= len - place.offset;
}

/* the octets of a file, at most as many as the room has; 0 where there is none */
static inline size_t read_file(const char *path, uint8_t *room, size_t size)
{
    FILE *file = path != NULL ? fopen(path, "rb") : NULL;
    size_t len = file != NULL ? fread(room, 1, size, file) : 0;
    if (file != NULL)
        fclose(file);
    return len;
}

static inline int end_of_tests(void)
{
    printf("%ld passed, %ld failed\n", passed, failed);
    return failed != 0;
}
