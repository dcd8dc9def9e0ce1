/* What a library of a newer release asks its C library for by names that this machine's may not have. */
#include <stdarg.h>
#include <stdio.h>
#include <stdlib.h>

#pragma weak __isoc23_strtol
#pragma weak __isoc23_strtoul
#pragma weak __isoc23_strtoll
#pragma weak __isoc23_strtoull
#pragma weak __isoc23_sscanf

long __isoc23_strtol(const char *text, char **end, int base) {
    return strtol(text, end, base);
}

unsigned long __isoc23_strtoul(const char *text, char **end, int base) {
    return strtoul(text, end, base);
}

long long __isoc23_strtoll(const char *text, char **end, int base) {
    return strtoll(text, end, base);
}

unsigned long long __isoc23_strtoull(const char *text, char **end, int base) {
    return strtoull(text, end, base);
}

int __isoc23_sscanf(const char *text, const char *format, ...) {
    va_list all;
    va_start(all, format);
    int count = vsscanf(text, format, all);
    va_end(all);
    return count;
}
