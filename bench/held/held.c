/* held: what a call takes of the stack, and how many bytes it copies and fills, against what is promised. The gate runs this: it ends with 1 where a call takes more. */
#include "held.h"
#include <stdio.h>

/* our calls and their yardsticks; the stack that the header promises; the bytes that a call with one board copies and fills, and those that each further board may add (a file that is written is copied out) */
static const struct {
    const char *name;
    int ours, exact;
    size_t stack, copied, filled, each;
} calls[] = {
    {"solve", OURS, EXACT, RANJUPELI_STACK, 2304, 16896, 0},
    {"write", OUR_WRITER, EXACT_WRITER, RANJUPELI_WRITE_STACK, 2048 + RANJUPELI_FILE(1), 28160, 44},
    {"earth", OUR_EARTH, EXACT_EARTH, RANJUPELI_STACK, 2048, 16896, 0},
};

static int within(const char *what, size_t taken, size_t most) {
    if (taken <= most)
        return 1;
    printf(" (%s: more than %zu)", what, most);
    return 0;
}

/* Each call once before: the first call of a function of the C library goes through the loader, which takes stack of its own. */
static int stack_held(size_t i, question *q) {
    ask(q, 0, 256);
    run(calls[i].ours, q);
    run(calls[i].exact, q);
    size_t ours = stack_of(calls[i].ours, q);
    printf("stack in bytes, %s: ours %zu exact %zu", calls[i].name, ours, stack_of(calls[i].exact, q));
    int held = within("stack", ours + 1, calls[i].stack);
    printf("\n");
    return held;
}

static int bytes_held(size_t i, question *q) {
    static const int sizes[] = {1, 32, 256};
    int held = 1;
    printf("bytes copied and filled, %s:", calls[i].name);
    for (size_t k = 0; k < sizeof sizes / sizeof *sizes; k++) {
        size_t more = calls[i].each * (size_t)(sizes[k] - 1);
        ask(q, 0, sizes[k]);
        moved bytes = moved_by(calls[i].ours, q);
        printf("%s N = %d %zu %zu", k ? "," : "", sizes[k], bytes.copied, bytes.filled);
        held &= within("copied", bytes.copied, calls[i].copied + more) & within("filled", bytes.filled, calls[i].filled);
    }
    printf("\n");
    return held;
}

int main(void) {
    static question q;
    int held = 1;
    for (size_t i = 0; i < sizeof calls / sizeof *calls; i++)
        held &= stack_held(i, &q) & bytes_held(i, &q);
    return held ? 0 : 1;
}
