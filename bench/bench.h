/* The parts of the benchmark. */
#ifndef BENCH_H
#define BENCH_H
#include "ranjupeli.h"

enum { SHAPES = 3, VOLTS = 230, UNIT = 100, MOST_BYTES = 8 + 44 * 256, MOST_DOUBLES = 2 * (3 + 6 * 256) };

/* a network of one of the shapes, the boards of which it is the file, and a fault at one of them */
typedef struct {
    uint8_t network[MOST_BYTES], fault[20];
    size_t network_len;
    ranjupeli_board boards[256];
    size_t n;
} question;

extern const char *const shape_names[SHAPES];
void make_network(question *q, int shape, int n);
void unearth(question *q);
/* the last record, and its board, as one of another kind with such impedances: z1, z2, z0, zn */
void put_last(question *q, int kind, const ranjupeli_ohms z[4]);
void make_fault(question *q, int k, int kind, int phase, int r, int x);
uint32_t chance(uint32_t below);

ranjupeli_answer exact_solve(const uint8_t *network, size_t network_len, const uint8_t *fault, size_t fault_len, int64_t *buffer, size_t buffer_len);
/* the real and the imaginary part of each voltage and current, where the others have four numbers */
ranjupeli_answer doubles_solve(const uint8_t *network, size_t network_len, const uint8_t *fault, size_t fault_len, double *buffer, size_t buffer_len);
ranjupeli_written exact_write(uint16_t volts, uint16_t unit, const ranjupeli_board *boards, size_t boards_len, uint8_t *out, size_t out_len);
ranjupeli_earth_return exact_earth(const uint8_t *network, size_t network_len, const uint8_t *label, size_t label_len);

/* networks of every shape and many sizes, each tried by a function that says how often: the sum; 0 where some differ */
int on_networks(int (*agreed)(question *));
/* the network with one to three bytes changed or cut off, each time another, mostly refused, each time by another rule: the same */
int damaged(const question *whole, int (*agreed)(const question *));
/* the last record as a cable and as each transformer, with z1 zero or nearly so, alone and with another rule broken: the same */
int forgetful(const question *whole, int (*agreed)(const question *));
/* whether exactly these numbers came, a bit for each */
int all_came(const char *who, const int came[256], uint32_t which);

/* whether the three agree on a question: exactly, and nearly */
int agree(const question *q);
/* all kinds, phases and boards of some networks, and damaged ones: how many questions; 0 where some differ */
int agree_on_many(void);
/* whether both writers write the question's network from its boards */
int agree_on_file(const question *q);
/* sound and spoilt boards, in outputs of several lengths: how many; 0 where some differ */
int agree_on_many_files(void);
/* whether both say the same of the earth return of the fault's board */
int agree_on_label(const question *q);
/* all labels of some networks, labels of all lengths, and damaged networks: how many; 0 where some differ */
int agree_on_many_labels(void);

/* who is called: the solvers, behind them the writers, and behind them those that look for an earth return */
enum { OURS, EXACT, DOUBLES, SOLVERS, OUR_WRITER = SOLVERS, EXACT_WRITER, WRITERS, OUR_EARTH = WRITERS, EXACT_EARTH, ALL };
extern const char *const who_names[ALL];
void run(int who, const question *q);
/* two phases to earth at the last board: the fault with the most to compute */
void ask(question *q, int shape, int n);
#endif
