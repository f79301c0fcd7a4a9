/* The earth return's yardstick: the same checks in the same order, as one would write them in C. The head of each board's part is carried down as the records are read, so one look answers. */
#include "bench.h"
#include "records.h"

static ranjupeli_earth_return refused_earth(ranjupeli_answer why) {
    return (ranjupeli_earth_return){.number = why.number, .place = why.place, .owner = why.owner, .start = why.start, .len = why.len};
}

ranjupeli_earth_return exact_earth(const uint8_t *net, size_t net_len, const uint8_t *lbl, size_t lbl_len) {
    network w;
    ranjupeli_answer a = read_network(&w, net, net_len);
    if (a.number)
        return refused_earth(a);
    uint16_t k = lbl_len == 12 ? find(w.boards, w.n, label_at(lbl)) : 0;
    if (!k)
        return refused_earth(refused(14, 0, RANJUPELI_LABEL, 0, lbl_len));
    const board *b = &w.boards[k - 1];
    return (ranjupeli_earth_return){.place = b->head, .earthed = b->earthed};
}
