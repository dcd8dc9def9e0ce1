/* The memory that the library takes, from malloc: the three calls that its object asks for.
 *
 * `ok` is true where there is memory. A request of no octets is answered by a place that is never read, and that free
 * takes. */
#include <stdbool.h>
#include <stddef.h>
#include <stdlib.h>

struct memory {
    bool ok;
    void *at;
};

static max_align_t nowhere;

static struct memory memory_at(void *at)
{
    struct memory answer = {at != NULL, at != NULL ? at : &nowhere};
    return answer;
}

struct memory rattle_alloc(size_t size, size_t align)
{
    return memory_at(malloc(size != 0 ? size : align));
}

struct memory rattle_realloc(void *at, size_t old_size, size_t size, size_t align)
{
    (void)old_size;
    return memory_at(realloc(at, size != 0 ? size : align));
}

void rattle_dealloc(void *at)
{
    free(at);
}
