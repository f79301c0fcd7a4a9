/* The program `short` once more, in C over the archive: example NETWORK [SHOWN] < FAULT prints the same text.
 * What a refusal's number says goes to standard error, the bytes that the answer shows to the file SHOWN.
 * Without words it prints what every number says. */
#include "lines.h"

static uint8_t network[16384];
static uint8_t fault[21];
static int64_t numbers[RANJUPELI_MOST];

static void print_numbers(void) {
    for (unsigned number = 0; number <= RANJUPELI_FORGOTTEN; number++) /* the greatest, though not the last to be tested */
        printf("%u %s\n", number, ranjupeli_sentence(number));
}

int main(int argc, char **argv) {
    if (argc < 2) {
        print_numbers();
        return 0;
    }
    size_t network_len = read_file(argv[1], network, sizeof network);
    size_t fault_len = fread(fault, 1, sizeof fault, stdin);
    ranjupeli_answer a = ranjupeli_solve(network, network_len, fault, fault_len, numbers, RANJUPELI_MOST);
    print_answer(a, network, fault, numbers);
    ranjupeli_bytes shown = ranjupeli_shown(a, network, fault);
    return argc > 2 ? write_file(argv[2], shown.bytes, shown.len) : 0;
}
