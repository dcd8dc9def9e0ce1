/* What the files of the library in C share: refusals of a call itself. */
#include <barleypulley/der.h>

/* Returns the fault that the caller passed, or one that nobody reads if the caller passed none. */
static inline der_fault *asked(der_fault *fault, der_fault *unasked)
{
    return fault != NULL ? fault : unasked;
}

/* Writes a refusal that has no position, and returns its number. */
static inline uint32_t refuse(uint32_t number, der_fault *fault)
{
    fault->number = number;
    fault->is_placed = 0;
    fault->position = 0;
    return number;
}

/* Whether a pointer is null though there are octets. */
static inline int is_null(const uint8_t *octets, size_t len)
{
    return octets == NULL && len != 0;
}
