/* Answers lines "CALL FILE TIMES" on standard input: the nanoseconds of this thread that so many rounds over the
 * messages of the file took, and the sum of the answers in one round; "-" where the library has no such call. A file is
 * messages, each after its length in four octets, the most significant first. */
#include "peer.h"

#include <stdio.h>
#include <stdlib.h>
#include <string.h>
#include <time.h>

struct messages {
    char path[512];
    const uint8_t *octets;
    size_t size;
};

static struct messages read_file(const char *path) {
    struct messages all;
    FILE *file = fopen(path, "rb");
    if (!file)
        exit(1);
    fseek(file, 0, SEEK_END);
    all.size = (size_t)ftell(file);
    rewind(file);
    uint8_t *octets = malloc(all.size + 1);
    if (!octets || fread(octets, 1, all.size, file) != all.size)
        exit(1);
    fclose(file);
    all.octets = octets;
    snprintf(all.path, sizeof all.path, "%s", path);
    return all;
}

/* One round, by a name that a counter of instructions finds. */
__attribute__((noinline)) size_t measured(peer_call call, const struct messages *all) {
    size_t sum = 0;
    const uint8_t *at = all->octets, *end = at + all->size;
    while (end - at >= 4) {
        size_t len = (size_t)at[0] << 24 | (size_t)at[1] << 16 | (size_t)at[2] << 8 | at[3];
        sum += call(at + 4, len);
        at += 4 + len;
    }
    return sum;
}

static long long now(void) {
    struct timespec time;
    clock_gettime(CLOCK_THREAD_CPUTIME_ID, &time);
    return time.tv_sec * 1000000000LL + time.tv_nsec;
}

static peer_call call_of(const char *name) {
    for (const struct peer_does *it = peer_does_all; it->name; it++)
        if (!strcmp(it->name, name))
            return it->call;
    return NULL;
}

int main(void) {
    char name[64], path[512];
    int times;
    struct messages all = {0};
    while (scanf("%63s %511s %d", name, path, &times) == 3) {
        peer_call call = call_of(name);
        if (!call) {
            puts("-");
        } else {
            if (strcmp(all.path, path)) {
                free((void *)all.octets);
                all = read_file(path);
            }
            size_t sum = 0;
            long long start = now();
            for (int i = 0; i < times; i++)
                sum = measured(call, &all);
            printf("%lld %zu\n", now() - start, sum);
        }
        fflush(stdout);
    }
    return 0;
}
