/* What those that must agree are tried on: networks of all shapes and sizes, and damaged ones. */
#include "bench.h"
#include <stdio.h>
#include <string.h>

int on_networks(int (*agreed)(question *)) {
    static question q;
    int all = 0;
    for (int shape = 0; shape < SHAPES; shape++)
        for (int n = 1; n <= 256; n = n < 8 ? n + 1 : 2 * n) {
            make_network(&q, shape, n);
            int more = agreed(&q);
            if (!more)
                return 0;
            all += more;
        }
    return all;
}

/* A byte of another value, the bit of a letter's case changed, in a label or not, a large part of an impedance, z1 and z2 zero, or the network cut off. */
static void damage(question *q, int small) {
    uint8_t *s = &q->network[chance((uint32_t)q->network_len)];
    switch (chance(16)) {
    case 0:
        q->network_len = 1 + chance((uint32_t)q->network_len);
        break;
    case 1: /* the high byte of one: at most 4,095 */
        q->network[RANJUPELI_FILE(chance((uint32_t)q->n)) + 29 + 2 * chance(8)] = (uint8_t)chance(16);
        break;
    case 2: case 3: case 4: case 5:
        *s ^= 0x20;
        break;
    case 6: case 7: case 8: case 9:
        q->fault[2 + chance(12)] ^= 0x20;
        break;
    case 10: /* a cable may be so, a transformer not */
        memset(q->network + RANJUPELI_FILE(chance((uint32_t)q->n)) + 28, 0, 8);
        break;
    default:
        *s = (uint8_t)chance(small ? 6 : 256);
    }
}

int damaged(const question *whole, int (*agreed)(const question *)) {
    int all = 0;
    for (int i = 0; i < 200; i++) {
        question q = *whole;
        for (uint32_t changes = 1 + chance(3); changes; changes--)
            damage(&q, i % 2);
        int more = agreed(&q);
        if (!more)
            return 0;
        all += more;
    }
    return all;
}

int forgetful(const question *whole, int (*agreed)(const question *)) {
    static const ranjupeli_ohms tries[][4] = {
        {{0, 0}, {0, 0}, {0, 0}, {0, 0}},    /* 21, but of a cable */
        {{0, 1}, {0, 1}, {0, 0}, {0, 0}},    /* one part is enough, */
        {{1, 0}, {1, 0}, {0, 0}, {0, 0}},
        {{0, 256}, {0, 256}, {0, 0}, {0, 0}},
        {{256, 0}, {256, 0}, {0, 0}, {0, 0}},
        {{0, 0}, {0, 0}, {3, 4}, {0, 0}},    /* and one of z0 is not */
        {{0, 0}, {0, 1}, {0, 0}, {0, 0}},    /* 10 comes first, */
        {{0, 0}, {0, 0}, {4096, 0}, {0, 0}},
        {{0, 0}, {0, 0}, {0, 0}, {0, 1366}}, /* and 11 later */
        {{0, 1}, {0, 1}, {0, 0}, {0, 1366}},
    };
    int all = 0;
    for (int kind = RANJUPELI_CABLE; kind <= RANJUPELI_BLOCKING; kind++)
        for (size_t i = 0; i < sizeof tries / sizeof *tries; i++) {
            question q = *whole;
            put_last(&q, kind, tries[i]);
            int more = agreed(&q);
            if (!more)
                return 0;
            all += more;
        }
    return all;
}

int all_came(const char *who, const int came[256], uint32_t which) {
    for (unsigned number = 0; number < 256; number++) {
        int has = number < 32 && which >> number & 1;
        if (has != (came[number] > 0)) {
            printf("%s: %u came %d times\n", who, number, came[number]);
            return 0;
        }
    }
    return 1;
}
