/* What the crew sees when the star point of the set is lifted off earth. Somebody crushes the booth's cable, phase a to earth:
 *
 *     GEN            the set, 230 V: star point earthed, then off earth
 *      |
 *      +---- cable, 30 + j10 milliohms -------------- BOOTH-WEST-1   <- phase a to earth
 *
 * Off earth nothing flows and no breaker opens, but b and c rise to the voltage between phases. */
#include "ranjupeli.h"
#include <stdio.h>

enum { VOLTS = 230, MILLIOHM = 1000 };
static uint8_t network[RANJUPELI_FILE(2)];
static int64_t numbers[RANJUPELI_NUMBERS(2)];

/* The volts of x0 + x1 t + x2 t^2 + x3 t^3 over D, t a turn of 30 degrees, cut down to a whole number. */
static unsigned volts(const int64_t *x, int64_t d) {
    const double h = 0.86602540378443864676; /* the sine of 60 degrees */
    double re = ((double)x[0] + h * (double)x[1] + .5 * (double)x[2]) / (double)d, im = (.5 * (double)x[1] + h * (double)x[2] + (double)x[3]) / (double)d;
    unsigned n = 0;
    while ((n + 1.) * (n + 1.) <= (re * re + im * im) * VOLTS * VOLTS)
        n++;
    return n;
}

/* Plans the two boards with such a set, asks the fault, and prints the amps and the booth's three voltages. */
static int ask(const char *how, ranjupeli_board set) {
    ranjupeli_board boards[2] = {set, {.kind = RANJUPELI_CABLE, .z1 = {30, 10}, .z2 = {30, 10}, .z0 = {90, 30}}};
    ranjupeli_label(boards[0].label, "GEN");
    ranjupeli_label(boards[0].feeder, "");
    ranjupeli_label(boards[1].label, "BOOTH-WEST-1");
    ranjupeli_label(boards[1].feeder, "GEN");
    uint8_t fault[20] = {'F', 'T', [14] = 1, [15] = 0};
    ranjupeli_label(fault + 2, "BOOTH-WEST-1");
    ranjupeli_written w = ranjupeli_write(VOLTS, MILLIOHM, boards, 2, network, sizeof network);
    ranjupeli_answer a = ranjupeli_solve(network, w.len, fault, sizeof fault, numbers, RANJUPELI_NUMBERS(2));
    if (w.number != RANJUPELI_ACCEPTED || a.number != RANJUPELI_ACCEPTED) {
        fprintf(stderr, "rise: %s\n", ranjupeli_sentence(w.number ? w.number : a.number));
        return 1;
    }
    const int64_t *booth = numbers + RANJUPELI_NUMBERS(1);
    printf("%s: %llu A; a %u V, b %u V, c %u V\n", how, (unsigned long long)a.amps, volts(booth, numbers[0]), volts(booth + 4, numbers[0]), volts(booth + 8, numbers[0]));
    return 0;
}

int main(void) {
    return ask("star point earthed", (ranjupeli_board){.kind = RANJUPELI_SOURCE, .z1 = {0, 20}, .z2 = {0, 20}, .z0 = {0, 5}, .zn = {0, 5}})
        || ask("star point off earth", (ranjupeli_board){.kind = RANJUPELI_FLOATING_SOURCE, .z1 = {0, 20}, .z2 = {0, 20}});
}
