/* What the yardsticks read: the network, its boards and the fault, with the paper's checks in the paper's order. */
#ifndef BENCH_READ_H
#define BENCH_READ_H
#include "ranjupeli.h"
#include <string.h>

enum { HEAD = 8, RECORD = 44, FAULT = 20, BOARDS = 256, MOST = 4095, MOST_ZF = 1365 };

typedef ranjupeli_ohms ohms;

/* twelve bytes as two words, their letters as capitals: two comparisons tell two labels apart */
typedef struct {
    uint64_t first;
    uint32_t last;
} label;

/* a board with the sums of its chain, the head of its part (boards joined by kinds 2 and 3), and whether that has an earth return */
typedef struct {
    label own;
    ohms z1, z2, z0;
    uint16_t feeder, head, turn;
    uint8_t earthed;
} board;

typedef struct {
    uint16_t volts, unit, n;
    board boards[BOARDS];
} network;

/* a record, of a file or as a board that is lent: its fields, and where its labels stand */
typedef struct {
    const uint8_t *label, *feeder;
    ohms z1, z2, z0, zn;
    uint8_t kind, clock;
} record;

typedef struct {
    ohms zf;
    uint16_t k;
    uint8_t kind, phase;
} fault;

static inline uint16_t u16_at(const uint8_t *s) {
    uint16_t x;
    memcpy(&x, s, 2);
    return x;
}

static inline ohms ohms_at(const uint8_t *s) {
    return (ohms){u16_at(s), u16_at(s + 2)};
}

/* a to z of eight bytes read as A to Z: of each byte bit 7 says whether it is a small letter, and two places down it is the bit of its case */
static inline uint64_t capitals(uint64_t w) {
    const uint64_t each = 0x0101010101010101u;
    uint64_t seven = w & 0x7f * each, small = (seven + 0x1f * each) & ~(seven + 0x05 * each) & ~w & 0x80 * each;
    return w ^ small >> 2;
}

static inline label label_at(const uint8_t *s) {
    uint64_t first;
    uint32_t last;
    memcpy(&first, s, 8);
    memcpy(&last, s + 8, 4);
    return (label){capitals(first), (uint32_t)capitals(last)};
}

static inline record record_at(const uint8_t *s) {
    return (record){s + 2, s + 14, ohms_at(s + 28), ohms_at(s + 32), ohms_at(s + 36), ohms_at(s + 40), s[26], s[27]};
}

static inline record record_of(const ranjupeli_board *b) {
    return (record){b->label, b->feeder, b->z1, b->z2, b->z0, b->zn, b->kind, b->clock};
}

static inline ranjupeli_answer refused(uint8_t number, uint16_t place, uint8_t owner, size_t start, size_t len) {
    return (ranjupeli_answer){.number = number, .place = place, .owner = owner, .start = start, .len = len};
}

static inline int over(ohms z, uint16_t most) {
    return z.r > most || z.x > most;
}

static inline int is_zero(ohms z) {
    return z.r == 0 && z.x == 0;
}

static inline int same(ohms a, ohms b) {
    return a.r == b.r && a.x == b.x;
}

static inline ohms plus(ohms a, ohms b) {
    return (ohms){(uint16_t)(a.r + b.r), (uint16_t)(a.x + b.x)};
}

/* z0 + 3 zn */
static inline ohms earthed(ohms z0, ohms zn) {
    return (ohms){(uint16_t)(z0.r + 3 * zn.r), (uint16_t)(z0.x + 3 * zn.x)};
}

/* The first board with the label among the first n, counted from 1; 0: none. Most labels differ at their end, so that is looked at first. */
static inline uint16_t find(const board *boards, size_t n, label l) {
    for (size_t i = 0; i < n; i++)
        if (boards[i].own.last == l.last && boards[i].own.first == l.first)
            return (uint16_t)(i + 1);
    return 0;
}

/* 1 to 12 visible bytes, then spaces. */
static inline int formed(const uint8_t *s) {
    size_t i = 0;
    while (i < 12 && s[i] >= 0x21 && s[i] <= 0x7e)
        i++;
    if (i == 0)
        return 0;
    while (i < 12 && s[i] == ' ')
        i++;
    return i == 12;
}
#endif
