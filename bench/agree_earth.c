/* Whether both say the same of earth returns: in every field of the reply. */
#include "bench.h"
#include <stdio.h>
#include <string.h>

enum { LONGEST_LABEL = 24 };

/* how often each number came, without an earth return and with one */
static int numbers[2][256];

static int replies_agree(const question *q, const uint8_t *label, size_t len) {
    ranjupeli_earth_return a = ranjupeli_earth(q->network, q->network_len, label, len);
    ranjupeli_earth_return b = exact_earth(q->network, q->network_len, label, len);
    numbers[a.earthed == 1][a.number]++;
    if (a.number == b.number && a.place == b.place && a.earthed == b.earthed && a.owner == b.owner && a.start == b.start && a.len == b.len)
        return 1;
    printf("the exact yardstick differs: %d %d %d %d %zu %zu, not %d %d %d %d %zu %zu\n", b.number, b.place, b.earthed, b.owner, b.start, b.len, a.number, a.place, a.earthed, a.owner, a.start, a.len);
    return 0;
}

int agree_on_label(const question *q) {
    return replies_agree(q, q->fault + 2, 12);
}

/* The label twice, one behind the other, cut to a length: a board's has twelve bytes. */
static int agree_on_cut(const question *q, size_t len) {
    uint8_t label[LONGEST_LABEL];
    memcpy(label, q->fault + 2, 12);
    memcpy(label + 12, q->fault + 2, 12);
    return replies_agree(q, label, len);
}

static int each_length(const question *q) {
    for (size_t len = 0; len <= LONGEST_LABEL; len++)
        if (!agree_on_cut(q, len))
            return 0;
    return LONGEST_LABEL + 1;
}

/* A label of a board's length, and one of any. */
static int agree_on_two(const question *q) {
    return agree_on_label(q) && agree_on_cut(q, chance(LONGEST_LABEL + 1)) ? 2 : 0;
}

/* Every board's label, each time typed in another case, and one that no board has. */
static int each_label(question *q) {
    int n = (int)q->n;
    for (int k = 1; k <= n + 1; k++) {
        make_fault(q, k, 0, 0, 0, 0);
        if (!agree_on_label(q))
            return 0;
    }
    make_fault(q, 1 + (int)chance((uint32_t)n), 0, 0, 0, 0);
    int more = each_length(q);
    return more ? n + 1 + more : 0;
}

static int labels_agree(question *q) {
    int more = each_label(q), torn = damaged(q, agree_on_two), without = forgetful(q, agree_on_two);
    unearth(q);
    int bare = each_label(q), worse = damaged(q, agree_on_two);
    return more && torn && without && bare && worse ? more + torn + without + bare + worse : 0;
}

int agree_on_many_labels(void) {
    int asked = on_networks(labels_agree);
    return asked && all_came("earth", numbers[0], 0xfff | 1 << 14 | 1 << 21) && all_came("earth, with one", numbers[1], 1) ? asked : 0;
}
