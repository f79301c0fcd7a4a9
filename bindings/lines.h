/* The lines of an answer, as the program `short` prints them: for the examples. */
#ifndef RANJUPELI_LINES_H
#define RANJUPELI_LINES_H
#include "ranjupeli.h"
#include <stdio.h>

/* A label without its closing spaces. */
static inline void print_label(const uint8_t *label) {
    int n = 12;
    while (n > 0 && label[n - 1] == ' ')
        n--;
    printf("%.*s", n, (const char *)label);
}

/* Three phases, each on a line of its own, behind the board's label where there is one. */
static inline void print_phases(const uint8_t *label, char what, const int64_t *x) {
    for (int phase = 0; phase < 3; phase++, x += 4) {
        if (label) {
            print_label(label);
            printf(" ");
        }
        printf("%c %c %lld %lld %lld %lld\n", what, 'a' + phase, (long long)x[0], (long long)x[1], (long long)x[2], (long long)x[3]);
    }
}

static inline void print_accepted(ranjupeli_answer a, const uint8_t *network, const uint8_t *fault, const int64_t *numbers) {
    /* the first line's label as it was typed in the fault, the boards' as in the network */
    printf("FAULT ");
    print_label(fault + 2);
    printf(" %d %d %llu\n", fault[14], fault[15], (unsigned long long)a.amps);
    printf("D %lld\n", (long long)numbers[0]);
    print_phases(NULL, 'I', numbers + 1);
    for (size_t r = 0; r < a.n; r++) {
        const uint8_t *label = network + RANJUPELI_FILE(r) + 2;
        print_phases(label, 'V', numbers + RANJUPELI_NUMBERS(r));
        print_phases(label, 'I', numbers + RANJUPELI_NUMBERS(r) + 12);
    }
}

/* What a refusal's number says goes to standard error. */
static inline void print_refused(uint8_t number, uint16_t place) {
    printf("REFUSED %d %d\n", number, place);
    fprintf(stderr, "%s\n", ranjupeli_sentence(number));
}

static inline void print_answer(ranjupeli_answer a, const uint8_t *network, const uint8_t *fault, const int64_t *numbers) {
    if (a.number == RANJUPELI_ACCEPTED)
        print_accepted(a, network, fault, numbers);
    else
        print_refused(a.number, a.place);
}

/* How many bytes are read. A missing file counts as empty. */
static inline size_t read_file(const char *name, uint8_t *into, size_t room) {
    FILE *file = fopen(name, "rb");
    if (!file)
        return 0;
    size_t n = fread(into, 1, room, file);
    fclose(file);
    return n;
}

/* Status 0: the whole file is written. */
static inline int write_file(const char *name, const uint8_t *bytes, size_t len) {
    FILE *file = fopen(name, "wb");
    if (!file)
        return 1;
    size_t n = fwrite(bytes, 1, len, file);
    return fclose(file) != 0 || n != len;
}
#endif
