/* The calls that are measured, by number, and the question that is put to them. */
#include "bench.h"

const char *const who_names[ALL] = {"ours", "exact", "doubles", "ours", "exact", "ours", "exact"};
static int64_t numbers[RANJUPELI_MOST];
static double doubles[MOST_DOUBLES];
static uint8_t file[MOST_BYTES];

void run(int who, const question *q) {
    switch (who) {
    case OURS:
        ranjupeli_solve(q->network, q->network_len, q->fault, 20, numbers, RANJUPELI_MOST);
        break;
    case EXACT:
        exact_solve(q->network, q->network_len, q->fault, 20, numbers, RANJUPELI_MOST);
        break;
    case DOUBLES:
        doubles_solve(q->network, q->network_len, q->fault, 20, doubles, MOST_DOUBLES);
        break;
    case OUR_WRITER:
        ranjupeli_write(VOLTS, UNIT, q->boards, q->n, file, sizeof file);
        break;
    case EXACT_WRITER:
        exact_write(VOLTS, UNIT, q->boards, q->n, file, sizeof file);
        break;
    case OUR_EARTH:
        ranjupeli_earth(q->network, q->network_len, q->fault + 2, 12);
        break;
    default:
        exact_earth(q->network, q->network_len, q->fault + 2, 12);
    }
}

void ask(question *q, int shape, int n) {
    make_network(q, shape, n);
    make_fault(q, n, 3, 1, 2, 3);
}
