/* Records judged one after the other, and their sums. */
#ifndef BENCH_RECORDS_H
#define BENCH_RECORDS_H
#include "read.h"

/* 9 */
static inline int kind_wrong(size_t r, uint8_t kind, uint8_t clock) {
    if ((kind < 2) != (r == 1))
        return 1;
    switch (kind) {
    case 0: case 1: case 2: case 3:
        return clock != 0;
    case 4:
        return clock > 11 || clock % 2 == 0;
    case 5:
        return clock > 11;
    default:
        return 1;
    }
}

/* 10 */
static inline int impedance_wrong(record f) {
    if (over(f.z1, MOST) || over(f.z2, MOST) || over(f.z0, MOST) || over(f.zn, MOST))
        return 1;
    switch (f.kind) {
    case 0:
        return is_zero(f.z1) || is_zero(f.z2);
    case 1:
        return is_zero(f.z1) || is_zero(f.z2) || !is_zero(f.z0) || !is_zero(f.zn);
    case 2:
        return !same(f.z1, f.z2) || !is_zero(f.zn);
    case 5:
        return !same(f.z1, f.z2) || !is_zero(f.z0) || !is_zero(f.zn);
    default:
        return !same(f.z1, f.z2);
    }
}

/* 21: a transformer whose impedance was forgotten; the kind is one of 0 to 5 */
static inline int forgotten(record f) {
    return f.kind >= 3 && is_zero(f.z1);
}

/* The board's zero sequence, from its record and its feeder's: the head of its part, and if that has an earth return the sum from there on. */
static inline void zero_sequence(board *b, const board *up, size_t r, record f) {
    ohms term = earthed(f.z0, f.zn); /* a cable's zn is zero */
    if (f.kind == 2 || f.kind == 3) {
        b->head = up->head;
        b->earthed = up->earthed;
        b->z0 = up->earthed ? plus(up->z0, term) : (ohms){0, 0};
    } else {
        b->head = (uint16_t)r;
        b->earthed = f.kind == 0 || f.kind == 4;
        b->z0 = term; /* kinds 1 and 5 have none */
    }
}

/* 3 */
static inline int head_wrong(uint16_t volts, uint16_t unit, size_t n) {
    return volts < 1 || volts > 1000 || unit < 10 || unit > 1000 || n < 1 || n > BOARDS;
}

/* Record r, behind r - 1 that are kept: the number of the first of 6 to 10, 21 and 11 that it breaks, or 0 and its board. */
static inline uint8_t judge(board *boards, size_t r, record f) {
    static const board none;
    if (!formed(f.label))
        return 6;
    board *b = &boards[r - 1];
    b->own = label_at(f.label);
    if (find(boards, r - 1, b->own))
        return 7;
    b->feeder = r == 1 ? 0 : find(boards, r - 1, label_at(f.feeder));
    if (r == 1 ? memcmp(f.feeder, "            ", 12) != 0 : b->feeder == 0)
        return 8;
    if (kind_wrong(r, f.kind, f.clock))
        return 9;
    if (impedance_wrong(f))
        return 10;
    if (forgotten(f))
        return 21;
    const board *up = b->feeder ? &boards[b->feeder - 1] : &none;
    b->z1 = plus(up->z1, f.z1);
    b->z2 = plus(up->z2, f.z2);
    b->turn = (uint16_t)(up->turn + f.clock);
    zero_sequence(b, up, r, f);
    return over(b->z1, MOST) || over(b->z2, MOST) || over(b->z0, MOST) ? 11 : 0;
}

/* 1 to 10, 21 and 11. Accepted: number 0. */
static inline ranjupeli_answer read_network(network *w, const uint8_t *s, size_t len) {
    if (len < HEAD)
        return refused(1, 0, RANJUPELI_NETWORK, 0, len);
    if (s[0] != 'H' || s[1] != 'D')
        return refused(2, 0, RANJUPELI_NETWORK, 0, HEAD);
    w->volts = u16_at(s + 2);
    w->unit = u16_at(s + 4);
    w->n = u16_at(s + 6);
    if (head_wrong(w->volts, w->unit, w->n))
        return refused(3, 0, RANJUPELI_NETWORK, 0, HEAD);
    if (len != HEAD + RECORD * (size_t)w->n)
        return refused(4, 0, RANJUPELI_NETWORK, 0, HEAD);
    for (size_t r = 1; r <= w->n; r++) {
        size_t start = HEAD + RECORD * (r - 1);
        uint8_t number = s[start] != 'B' || s[start + 1] != 'D' ? 5 : judge(w->boards, r, record_at(s + start));
        if (number)
            return refused(number, (uint16_t)r, RANJUPELI_NETWORK, start, RECORD);
    }
    return refused(0, 0, 0, 0, 0);
}

/* 12 to 19. Accepted: number 0. */
static inline ranjupeli_answer read_fault(fault *f, const network *w, const uint8_t *s, size_t len, int room) {
    if (len != FAULT)
        return refused(12, 0, RANJUPELI_FAULT, 0, len);
    if (s[0] != 'F' || s[1] != 'T')
        return refused(13, 0, RANJUPELI_FAULT, 0, FAULT);
    f->k = find(w->boards, w->n, label_at(s + 2));
    if (!f->k)
        return refused(14, 0, RANJUPELI_FAULT, 0, FAULT);
    f->kind = s[14];
    f->phase = s[15];
    if (f->kind > 3)
        return refused(15, 0, RANJUPELI_FAULT, 0, FAULT);
    if (f->phase > 2 || (f->kind == 0 && f->phase != 0))
        return refused(16, 0, RANJUPELI_FAULT, 0, FAULT);
    f->zf = ohms_at(s + 16);
    if (over(f->zf, MOST_ZF))
        return refused(17, 0, RANJUPELI_FAULT, 0, FAULT);
    if (!room)
        return refused(19, 0, RANJUPELI_FAULT, 0, 0);
    return refused(0, 0, 0, 0, 0);
}

static inline ranjupeli_answer accepted(const network *w, const fault *f, uint64_t amps) {
    return (ranjupeli_answer){.amps = amps, .place = f->k, .n = w->n, .start = HEAD + RECORD * (f->k - 1u), .len = RECORD};
}

/* The records on the chain of board k. */
static inline void mark_chain(uint8_t *on, const network *w, uint16_t k) {
    memset(on, 0, w->n);
    for (; k; k = w->boards[k - 1].feeder)
        on[k - 1] = 1;
}

/* The impedances that a board shares with the faulted one: its own sums on the chain, else its feeder's share; zero sequence only in one part. */
typedef struct {
    ohms z1, z2, z0;
} shared;

static inline shared share(const board *b, int on, const shared *shares, uint16_t head) {
    static const shared none;
    shared s = on ? (shared){b->z1, b->z2, b->z0} : b->feeder ? shares[b->feeder - 1] : none;
    if (b->head != head)
        s.z0 = (ohms){0, 0};
    return s;
}

/* What board j has to do with the faulted one: what they share, its turn against the other's (whole rounds left in), whether its record lies on the other's chain, whether both are in one part, and whether that has an earth return. */
typedef struct {
    shared s;
    int d, on, joined, earth;
} standing;

static inline standing stands(const network *w, const fault *f, const uint8_t *on, shared *shares, size_t j) {
    const board *at = &w->boards[f->k - 1], *b = &w->boards[j];
    int joined = b->head == at->head;
    shares[j] = share(b, on[j], shares, at->head);
    return (standing){shares[j], b->turn + 11 * at->turn, on[j], joined, joined && at->earthed};
}
#endif
