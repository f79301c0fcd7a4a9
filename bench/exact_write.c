/* The writer's yardstick: the same checks in the same order and the same bytes, as one would write them in C. */
#include "bench.h"
#include "records.h"

static ranjupeli_written wrote(uint8_t number, size_t place, size_t len) {
    return (ranjupeli_written){.number = number, .place = (uint16_t)place, .len = len};
}

/* the four impedances stand in a board as in a record, one behind the other */
static void put_record(uint8_t *s, const ranjupeli_board *b) {
    memcpy(s, "BD", 2);
    memcpy(s + 2, b->label, 12);
    memcpy(s + 14, b->feeder, 12);
    s[26] = b->kind;
    s[27] = b->clock;
    memcpy(s + 28, b, 16);
}

ranjupeli_written exact_write(uint16_t volts, uint16_t unit, const ranjupeli_board *boards, size_t n, uint8_t *out, size_t out_len) {
    board kept[BOARDS];
    if (head_wrong(volts, unit, n))
        return wrote(3, 0, 0);
    for (size_t r = 1; r <= n; r++) {
        uint8_t number = judge(kept, r, record_of(&boards[r - 1]));
        if (number)
            return wrote(number, r, 0);
    }
    if (out_len < RANJUPELI_FILE(n))
        return wrote(20, 0, 0);
    uint16_t head[3] = {volts, unit, (uint16_t)n};
    memcpy(out, "HD", 2);
    memcpy(out + 2, head, 6);
    for (size_t i = 0; i < n; i++)
        put_record(out + RANJUPELI_FILE(i), &boards[i]);
    return wrote(0, 0, RANJUPELI_FILE(n));
}
