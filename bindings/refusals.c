/* What ranjupeli_write refuses, and what it leaves alone: a line for each try, which bindings/test holds to what must come. */
#include "ranjupeli.h"
#include <stdio.h>
#include <string.h>

enum { MANY = 70000, PAINT = 0x5a };
static ranjupeli_board boards[MANY];
static uint8_t out[RANJUPELI_LONGEST + 16];

/* GEN, and cables from it to B00001, B00002 and so on. */
static void plan(void) {
    memset(boards, 0, sizeof boards);
    for (unsigned i = 0; i < MANY; i++) {
        ranjupeli_board *b = &boards[i];
        ranjupeli_label(b->label, i == 0 ? "GEN" : "B00000");
        ranjupeli_label(b->feeder, i == 0 ? "" : "GEN");
        b->kind = i == 0 ? RANJUPELI_SOURCE : RANJUPELI_CABLE;
        b->z1.x = b->z2.x = 20;
        for (unsigned at = 5, rest = i; rest > 0; at--, rest /= 10)
            b->label[at] = (uint8_t)('0' + rest % 10);
    }
}

/* Written to so much room of a painted output: number, place, length, and how many bytes behind the file (after a refusal: of all) have lost their paint. */
static void say(const char *what, uint16_t volts, uint16_t unit, size_t n, size_t room) {
    memset(out, PAINT, sizeof out);
    ranjupeli_written w = ranjupeli_write(volts, unit, boards, n, out, room);
    size_t changed = 0;
    for (size_t i = w.len; i < sizeof out; i++)
        changed += out[i] != PAINT;
    printf("%d %d %zu %zu: %zu boards in %zu bytes%s\n", w.number, w.place, w.len, changed, n, room, what);
}

static void say_head(void) {
    static const size_t counts[] = {0, 1, 256, 257, 65535, 65536, 65537, MANY};
    for (size_t i = 0; i < sizeof counts / sizeof *counts; i++)
        say("", 230, 1000, counts[i], sizeof out);
    say(", 0 volts", 0, 1000, 3, sizeof out);
    say(", a unit of 1,001", 230, 1001, 3, sizeof out);
}

/* Three boards with one label as given; the next plan mends it. */
static void say_label(const char *what, uint8_t label[12], const char *text) {
    ranjupeli_label(label, text);
    say(what, 230, 1000, 3, sizeof out);
    plan();
}

/* Each spoils one of three boards, and the next plan mends it. */
static void say_boards(void) {
    say_label(", a label of thirteen letters", boards[1].label, "BOOTH-WEST-12");
    say_label(", a used label", boards[2].label, "B00001");
    say_label(", a label used in another case", boards[2].label, "b00001");
    say_label(", a feeder in another case", boards[2].feeder, "b00001");
    say_label(", a board that feeds itself", boards[2].feeder, "B00002");
    boards[1].clock = 11;
    say(", a cable with a clock", 230, 1000, 3, sizeof out);
    plan();
    boards[1].z2.x = 21;
    say(", a cable with another z2", 230, 1000, 3, sizeof out);
    plan();
    boards[2].z1.x = boards[2].z2.x = 4076;
    say(", a sum of 4,096", 230, 1000, 3, sizeof out);
    say(", a sum of 4,096", 230, 1000, 3, 0);
    plan();
}

/* A transformer in place of the first cable, its reactances as given; the next plan mends it. */
static void say_transformer(const char *what, uint16_t z1, uint16_t z2, uint16_t zn, size_t room) {
    ranjupeli_board *b = &boards[1];
    b->kind = RANJUPELI_DELTA_STAR;
    b->clock = 11;
    b->z1.x = z1;
    b->z2.x = z2;
    b->zn.x = zn;
    say(what, 230, 1000, 3, room);
    plan();
}

/* z1 zero: 21 of a transformer, behind 10 and before 11, and nothing of a cable. */
static void say_forgotten(void) {
    say_transformer(", a transformer without z1", 0, 0, 0, sizeof out);
    say_transformer(", a transformer without z1", 0, 0, 0, 0);
    say_transformer(", a transformer without z1, with another z2", 0, 20, 0, sizeof out);
    say_transformer(", a transformer without z1, with a sum of 4,098", 0, 0, 1366, sizeof out);
    say_transformer(", a transformer with a sum of 4,098", 20, 20, 1366, sizeof out);
    say_transformer(", a transformer of one count", 1, 1, 0, sizeof out);
    boards[2].z1.x = boards[2].z2.x = 4076;
    say_transformer(", a transformer without z1 before a sum of 4,096", 0, 0, 0, sizeof out);
    boards[1].z1.x = boards[1].z2.x = 4076;
    boards[2].kind = RANJUPELI_STAR_STAR;
    boards[2].z1.x = boards[2].z2.x = 0;
    say(", a transformer without z1 behind a sum of 4,096", 230, 1000, 3, sizeof out);
    plan();
    boards[2].z1.x = boards[2].z2.x = 0;
    say(", a cable of no length", 230, 1000, 3, sizeof out);
    plan();
}

static void say_rooms(void) {
    static const size_t rooms[] = {0, RANJUPELI_FILE(3) - 1, RANJUPELI_FILE(3), RANJUPELI_FILE(3) + 1};
    for (size_t i = 0; i < sizeof rooms / sizeof *rooms; i++)
        say("", 230, 1000, 3, rooms[i]);
}

int main(void) {
    plan();
    say_head();
    say_boards();
    say_forgotten();
    say_rooms();
    return 0;
}
