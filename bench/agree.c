/* Whether the three agree: the archive and the exact yardstick in every number, the doubles nearly. */
#include "bench.h"
#include <stdio.h>
#include <string.h>

static int64_t ours[RANJUPELI_MOST], exact[RANJUPELI_MOST];
static double near[MOST_DOUBLES];
static int numbers[256];

static int same_answer(ranjupeli_answer a, ranjupeli_answer b) {
    return a.number == b.number && a.place == b.place && a.n == b.n && a.amps == b.amps && a.owner == b.owner && a.start == b.start && a.len == b.len;
}

/* x0 + x1 t + x2 t^2 + x3 t^3 over D, in doubles */
static int is_near(const int64_t *x, double d, const double *z) {
    const double h = 0.86602540378443864676;
    double r = ((double)x[0] + h * (double)x[1] + .5 * (double)x[2]) / d - z[0];
    double i = (.5 * (double)x[1] + h * (double)x[2] + (double)x[3]) / d - z[1];
    return r * r + i * i < 1e-18;
}

static int all_near(ranjupeli_answer a, ranjupeli_answer b) {
    if (b.number != a.number || b.place != a.place || b.n != a.n || b.amps > a.amps + 1 || a.amps > b.amps + 1)
        return 0;
    for (size_t i = 0; a.number == 0 && i < 3 + 6 * (size_t)a.n; i++)
        if (!is_near(ours + 1 + 4 * i, (double)ours[0], near + 2 * i))
            return 0;
    return 1;
}

int agree(const question *q) {
    memset(ours, 0x55, sizeof ours);
    memset(exact, 0x55, sizeof exact);
    ranjupeli_answer a = ranjupeli_solve(q->network, q->network_len, q->fault, 20, ours, RANJUPELI_MOST);
    ranjupeli_answer b = exact_solve(q->network, q->network_len, q->fault, 20, exact, RANJUPELI_MOST);
    ranjupeli_answer c = doubles_solve(q->network, q->network_len, q->fault, 20, near, MOST_DOUBLES);
    numbers[a.number]++;
    if (!same_answer(a, b) || memcmp(ours, exact, sizeof ours) != 0)
        printf("the exact yardstick differs: %d %d %d %llu, not %d %d %d %llu\n", b.number, b.place, b.n, (unsigned long long)b.amps, a.number, a.place, a.n, (unsigned long long)a.amps);
    else if (!all_near(a, c))
        printf("the doubles differ: %d %d %d %llu, not %d %d %d %llu\n", c.number, c.place, c.n, (unsigned long long)c.amps, a.number, a.place, a.n, (unsigned long long)a.amps);
    else
        return 1;
    return 0;
}

/* Every kind and phase at a few boards. */
static int each_fault(question *q) {
    int n = (int)q->n, asked = 0;
    for (int i = 0; i < 4; i++)
        for (int kind = 0; kind < 4; kind++)
            for (int phase = 0; phase < 3; phase++, asked++) {
                make_fault(q, i == 0 ? n : 1 + (int)chance((uint32_t)n), kind, phase, (int)chance(1366), (int)chance(1366));
                if (!agree(q))
                    return 0;
            }
    return asked;
}

static int questions_agree(question *q) {
    int more = each_fault(q), torn = damaged(q, agree), without = forgetful(q, agree);
    unearth(q);
    int bare = each_fault(q);
    return more && torn && without && bare ? more + torn + without + bare : 0;
}

int agree_on_many(void) {
    int asked = on_networks(questions_agree);
    return asked && all_came("solve", numbers, 0xfff | 1 << 14 | 1 << 16 | 1 << 21) ? asked : 0;
}
