/* A network planned in C: plan FILE writes three boards to FILE, asks a fault of them and prints the answer.
 *
 *     GEN            the set, 230 V, star point earthed
 *      |
 *      +---- cable, 30 + j10 milliohms -------------- BOOTH-WEST-1   <- somebody crushes it: phase a to earth
 *      |
 *      +---- transformer Dyn11, j20 milliohms ------- HALL */
#include "lines.h"

static ranjupeli_board boards[256];
static size_t n;
static uint8_t network[RANJUPELI_LONGEST];
static int64_t numbers[RANJUPELI_MOST];

/* One more board, fed by another: "" for the source, which is fed by none. */
static void add(const char *label, const char *feeder, ranjupeli_board b) {
    ranjupeli_label(b.label, label);
    ranjupeli_label(b.feeder, feeder);
    boards[n++] = b;
}

/* In milliohms, r and x. What is not said is 0. */
static void plan(void) {
    add("GEN", "", (ranjupeli_board){.kind = RANJUPELI_SOURCE, .z1 = {0, 20}, .z2 = {0, 20}, .z0 = {0, 5}, .zn = {0, 5}});
    add("BOOTH-WEST-1", "GEN", (ranjupeli_board){.kind = RANJUPELI_CABLE, .z1 = {30, 10}, .z2 = {30, 10}, .z0 = {90, 30}});
    add("HALL", "GEN", (ranjupeli_board){.kind = RANJUPELI_DELTA_STAR, .clock = 11, .z1 = {0, 20}, .z2 = {0, 20}, .z0 = {0, 20}});
}

int main(int argc, char **argv) {
    if (argc < 2) {
        fprintf(stderr, "plan FILE: where is the network to be written?\n");
        return 2;
    }
    plan();
    /* 230 V between phase and neutral; a count is 1,000 microohms, which is a milliohm */
    ranjupeli_written w = ranjupeli_write(230, 1000, boards, n, network, sizeof network);
    if (w.number != RANJUPELI_ACCEPTED) {
        print_refused(w.number, w.place);
        return 1;
    }
    if (write_file(argv[1], network, w.len) != 0) {
        fprintf(stderr, "plan: %s could not be written\n", argv[1]);
        return 1;
    }
    /* mark, label, kind 1: one phase to earth, phase 0: a, and no impedance of the fault itself */
    uint8_t fault[20] = {'F', 'T', [14] = 1, [15] = 0};
    ranjupeli_label(fault + 2, "BOOTH-WEST-1");
    print_answer(ranjupeli_solve(network, w.len, fault, sizeof fault, numbers, RANJUPELI_MOST), network, fault, numbers);
    return 0;
}
