/* Networks of a shape: cables, with a transformer here and there, under labels that differ in their last three letters alone, and each time they are typed in case. */
#include "bench.h"
#include <string.h>

const char *const shape_names[SHAPES] = {"chain", "star", "tree"};

static uint32_t state = 2463534242u;

/* The same numbers in every run. */
uint32_t chance(uint32_t below) {
    state ^= state << 13;
    state ^= state >> 17;
    state ^= state << 5;
    return state % below;
}

static void put_u16(uint8_t *s, unsigned x) {
    s[0] = (uint8_t)(x & 255);
    s[1] = (uint8_t)(x >> 8);
}

static void put_ohms(uint8_t *s, unsigned r, unsigned x) {
    put_u16(s, r);
    put_u16(s + 2, x);
}

static void put_label(uint8_t *s, int place) {
    memcpy(s, "HALL-WESTAAA", 12);
    for (int i = 11; place > 0; i--, place /= 26)
        s[i] = (uint8_t)('A' + place % 26);
    for (int i = 0; i < 12; i++)
        if (s[i] != '-' && chance(2))
            s[i] |= 0x20;
}

static int feeder_of(int shape, int r) {
    return shape == 0 ? r - 1 : shape == 1 ? 1 : 1 + (int)chance((uint32_t)r - 1);
}

static void put_source(uint8_t *s) {
    memcpy(s + 14, "            ", 12);
    put_ohms(s + 28, 2, 20);
    put_ohms(s + 32, 3, 18);
    put_ohms(s + 36, 1, 5);
    put_ohms(s + 40, 2, 5);
}

/* Of eight records one is a transformer with an odd clock, one is a star/star, the others are cables. No chain of 256 is past 4,095. */
static void put_record(uint8_t *s, int r) {
    int kind = r % 8 == 7 ? 4 : r % 8 == 3 ? 3 : 2;
    unsigned ohm = 1 + chance(4), reactance = 1 + chance(9);
    s[26] = (uint8_t)kind;
    s[27] = kind == 4 ? (uint8_t)(1 + 2 * chance(6)) : 0;
    put_ohms(s + 28, ohm, reactance);
    put_ohms(s + 32, ohm, reactance);
    put_ohms(s + 36, ohm + 1, reactance + 2);
    if (kind != 2)
        put_ohms(s + 40, 0, 1);
}

/* The board of a record. The four impedances stand first in a board, as one behind the other in the record. */
static void take_board(ranjupeli_board *b, const uint8_t *s) {
    memcpy(b, s + 28, 16);
    memcpy(b->label, s + 2, 12);
    memcpy(b->feeder, s + 14, 12);
    b->kind = s[26];
    b->clock = s[27];
}

void make_network(question *q, int shape, int n) {
    memset(q, 0, sizeof *q);
    q->n = (size_t)n;
    q->network_len = 8 + 44 * (size_t)n;
    memcpy(q->network, "HD", 2);
    put_u16(q->network + 2, VOLTS);
    put_u16(q->network + 4, UNIT);
    put_u16(q->network + 6, (unsigned)n);
    for (int r = 1; r <= n; r++) {
        uint8_t *s = q->network + 8 + 44 * (r - 1);
        memcpy(s, "BD", 2);
        put_label(s + 2, r);
        if (r == 1) {
            put_source(s);
        } else {
            put_label(s + 14, feeder_of(shape, r));
            put_record(s, r);
        }
        take_board(&q->boards[r - 1], s);
    }
}

/* The same network with the source's star point off earth, and transformers that block where there were ones that start a zero sequence. */
void unearth(question *q) {
    for (size_t r = 1; r <= q->n; r++) {
        uint8_t *s = q->network + 8 + 44 * (r - 1);
        if (s[26] != 0 && s[26] != 4)
            continue;
        s[26]++;
        memset(s + 36, 0, 8);
        take_board(&q->boards[r - 1], s);
    }
}

void put_last(question *q, int kind, const ranjupeli_ohms z[4]) {
    uint8_t *s = q->network + RANJUPELI_FILE(q->n - 1);
    s[26] = (uint8_t)kind;
    s[27] = kind >= 4 ? 11 : 0;
    for (int i = 0; i < 4; i++)
        put_ohms(s + 28 + 4 * i, z[i].r, z[i].x);
    take_board(&q->boards[q->n - 1], s);
}

void make_fault(question *q, int k, int kind, int phase, int r, int x) {
    memcpy(q->fault, "FT", 2);
    put_label(q->fault + 2, k);
    q->fault[14] = (uint8_t)kind;
    q->fault[15] = (uint8_t)phase;
    put_ohms(q->fault + 16, (unsigned)r, (unsigned)x);
}
