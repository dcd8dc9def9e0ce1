/* A shared library for LD_PRELOAD: the time is that of the variable MOMENT, in seconds from 1970. */
#include <stdlib.h>
#include <time.h>

time_t time(time_t *to)
{
    time_t now = (time_t)atoll(getenv("MOMENT"));
    if (to != NULL)
        *to = now;
    return now;
}
