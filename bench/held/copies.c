/* How many bytes a call copies and fills: the archive calls memcpy and memset, and in this program these two count. */
#include "held.h"
#include <string.h>

static moved sum;

__attribute__((no_builtin)) void *memcpy(void *restrict to, const void *restrict from, size_t n) {
    sum.copied += n;
    for (size_t i = 0; i < n; i++)
        ((uint8_t *)to)[i] = ((const uint8_t *)from)[i];
    return to;
}

__attribute__((no_builtin)) void *memset(void *to, int byte, size_t n) {
    sum.filled += n;
    for (size_t i = 0; i < n; i++)
        ((uint8_t *)to)[i] = (uint8_t)byte;
    return to;
}

moved moved_by(int who, const question *q) {
    sum = (moved){0, 0};
    run(who, q);
    return sum;
}
