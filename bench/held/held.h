/* What the gate holds of a call. */
#ifndef BENCH_HELD_H
#define BENCH_HELD_H
#include "../bench.h"

/* the bytes of stack that a call takes, its own frame and all below */
size_t stack_of(int who, const question *q);

/* the bytes that a call copies and fills by memcpy and memset; what the compiler does by a few instructions, of 128 bytes and less, is not counted */
typedef struct {
    size_t copied, filled;
} moved;
moved moved_by(int who, const question *q);
#endif
