/* Whether both writers agree: in every reply and in every byte of the output, those behind the file too. */
#include "bench.h"
#include <stdio.h>
#include <string.h>

/* what is written: up to two boards more than a file can have */
typedef struct {
    uint16_t volts, unit;
    ranjupeli_board boards[258];
    size_t n;
} list;

enum { ROOM = MOST_BYTES + 64 };
static uint8_t ours[ROOM], exact[ROOM];
static int numbers[256];

static int same_bytes(void) {
    for (size_t i = 0; i < ROOM; i++)
        if (ours[i] != exact[i]) {
            printf("the exact writer leaves %d at byte %zu, not %d\n", exact[i], i, ours[i]);
            return 0;
        }
    return 1;
}

static int writers_agree(const list *l, size_t room) {
    for (size_t i = 0; i < ROOM; i++)
        ours[i] = exact[i] = (uint8_t)(i * 7 + 3);
    ranjupeli_written a = ranjupeli_write(l->volts, l->unit, l->boards, l->n, ours, room);
    ranjupeli_written b = exact_write(l->volts, l->unit, l->boards, l->n, exact, room);
    if (a.number != b.number || a.place != b.place || a.len != b.len) {
        printf("the exact writer differs: %d %d %zu, not %d %d %zu\n", b.number, b.place, b.len, a.number, a.place, a.len);
        return 0;
    }
    numbers[a.number]++;
    return same_bytes();
}

/* Exactly the file's length, one byte less, some more, and none. */
static int in_every_room(const list *l) {
    size_t len = l->n <= 256 ? RANJUPELI_FILE(l->n) : MOST_BYTES;
    return writers_agree(l, len) && writers_agree(l, len - 1) && writers_agree(l, len + 1 + chance(60)) && writers_agree(l, 0) ? 4 : 0;
}

static void listed(list *l, const question *q) {
    memset(l, 0, sizeof *l);
    l->volts = VOLTS;
    l->unit = UNIT;
    memcpy(l->boards, q->boards, sizeof q->boards);
    l->n = q->n;
}

int agree_on_file(const question *q) {
    static list l;
    listed(&l, q);
    if (!in_every_room(&l) || !writers_agree(&l, q->network_len))
        return 0;
    if (memcmp(ours, q->network, q->network_len) == 0)
        return 5;
    printf("what is written of %zu boards is not their file\n", q->n);
    return 0;
}

/* Written or refused: the question's boards, which need not be sound. */
static int agree_on_boards(const question *q) {
    static list l;
    listed(&l, q);
    return in_every_room(&l);
}

static void spoil_head(list *l) {
    static const uint16_t edges[] = {0, 1, 9, 10, 1000, 1001, 65535};
    switch (chance(3)) {
    case 0:
        l->volts = edges[chance(7)];
        break;
    case 1:
        l->unit = edges[chance(7)];
        break;
    default:
        l->n = chance(259);
    }
}

static void spoil_board(list *l) {
    ranjupeli_board *b = &l->boards[chance((uint32_t)l->n)], *other = &l->boards[chance((uint32_t)l->n)];
    ranjupeli_ohms *z[4] = {&b->z1, &b->z2, &b->z0, &b->zn};
    switch (chance(10)) {
    case 0:
        memcpy(b->label, other->label, 12);
        break;
    case 1:
        memcpy(b->feeder, other->label, 12);
        break;
    case 2:
        b->kind = (uint8_t)chance(8);
        break;
    case 3:
        b->clock = (uint8_t)chance(14);
        break;
    case 4:
        z[chance(4)]->r = (uint16_t)chance(chance(2) ? 3 : 4100);
        break;
    case 5:
        b->z1.x = b->z2.x = (uint16_t)chance(4100);
        break;
    case 6:
        z[2 + chance(2)]->x = (uint16_t)chance(1500);
        break;
    case 7:
        (chance(2) ? b->label : b->feeder)[chance(12)] ^= 0x20;
        break;
    case 8:
        b->z1 = b->z2 = (ranjupeli_ohms){0, 0};
        break;
    default:
        ((uint8_t *)b)[chance(sizeof *b)] = (uint8_t)chance(256);
    }
}

/* One to three fields changed: most of them refused, each time by another rule. */
static int spoilt(const question *q) {
    static list l;
    int tried = 0;
    for (int i = 0; i < 200; i++) {
        listed(&l, q);
        for (uint32_t changes = 1 + chance(3); changes && l.n; changes--)
            if (chance(8))
                spoil_board(&l);
            else
                spoil_head(&l);
        int more = in_every_room(&l);
        if (!more)
            return 0;
        tried += more;
    }
    return tried;
}

static int files_agree(question *q) {
    int sound = agree_on_file(q), without = sound ? forgetful(q, agree_on_boards) : 0, more = without ? spoilt(q) : 0;
    return more ? sound + without + more : 0;
}

int agree_on_many_files(void) {
    int tried = on_networks(files_agree);
    return tried && all_came("write", numbers, 1 << 0 | 1 << 3 | 0x3f << 6 | 1 << 20 | 1 << 21) ? tried : 0;
}
