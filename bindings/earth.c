/* A loop tester shows nothing at a board: which transformer is to blame? The program `earth` once more, in C over the archive:
 * earth NETWORK LABEL [SHOWN] prints the same line. The label is typed in any case; spaces are put behind it where it is short.
 * What a refusal's number says goes to standard error, the bytes that it shows to the file SHOWN. */
#include "lines.h"
#include <string.h>

static uint8_t network[16384];

/* Spaces behind a short text. A longer one is not cut, for that could name another board: it is lent as it was typed, refused, and shown so. */
static ranjupeli_bytes typed(const char *text) {
    static uint8_t padded[12];
    size_t n = strlen(text);
    if (n > sizeof padded)
        return ranjupeli_part((const uint8_t *)text, 0, n);
    ranjupeli_label(padded, text);
    return ranjupeli_part(padded, 0, sizeof padded);
}

static void print_earth(ranjupeli_earth_return e) {
    if (e.number != RANJUPELI_ACCEPTED)
        print_refused(e.number, e.place);
    else
        printf("%s record %d\n", e.earthed ? "earth return from" : "none, stopped at", e.place);
}

int main(int argc, char **argv) {
    if (argc < 3) {
        fprintf(stderr, "earth NETWORK LABEL [SHOWN]: which board of which network?\n");
        return 2;
    }
    size_t network_len = read_file(argv[1], network, sizeof network);
    ranjupeli_bytes label = typed(argv[2]);
    ranjupeli_earth_return e = ranjupeli_earth(network, network_len, label.bytes, label.len);
    print_earth(e);
    ranjupeli_bytes shown = ranjupeli_earth_shown(e, network, label.bytes);
    return argc > 3 ? write_file(argv[3], shown.bytes, shown.len) : 0;
}
