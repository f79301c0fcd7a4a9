/* times: checks that all agree, then prints how long a call takes, a line for each: what is called, shape, N, who, seconds. bench/run makes a table of it.
 * times SHAPE N WHO TIMES: only calls, for tools that count instructions. */
#include "../bench.h"
#include <stdio.h>
#include <stdlib.h>
#include <time.h>

enum { ROUNDS = 100, SIZES = 3, TABLES = 3 };
static const int sizes[SIZES] = {1, 32, 256};

/* what is measured: those from first to end in turn, ours first, on questions on which they agree */
typedef struct {
    const char *name;
    int first, end;
    int (*agreed)(const question *);
} table;

static const table tables[TABLES] = {{"solve", OURS, SOLVERS, agree}, {"write", OUR_WRITER, WRITERS, agree_on_file}, {"earth", OUR_EARTH, ALL, agree_on_label}};

static double seconds(void) {
    struct timespec now;
    clock_gettime(CLOCK_MONOTONIC, &now);
    return (double)now.tv_sec + 1e-9 * (double)now.tv_nsec;
}

static double batch(int who, const question *q, int times) {
    double begun = seconds();
    for (int i = 0; i < times; i++)
        run(who, q);
    return (seconds() - begun) / times;
}

/* So many calls that a batch takes about a millisecond: longer ones are interrupted on a busy machine. */
static int calls(int who, const question *q) {
    int times = 1;
    while (batch(who, q, times) * times < 5e-4)
        times *= 2;
    return times;
}

/* The best of several rounds, all of a table in turn. */
static void measure(const question *q, const table *t, double best[ALL]) {
    int times[ALL];
    for (int who = t->first; who < t->end; who++) {
        times[who] = calls(who, q);
        best[who] = batch(who, q, times[who]);
    }
    for (int round = 0; round < ROUNDS; round++)
        for (int who = t->first; who < t->end; who++) {
            double took = batch(who, q, times[who]);
            if (took < best[who])
                best[who] = took;
        }
}

static int time_shape(const table *t, int shape) {
    static question q;
    double best[ALL];
    for (int i = 0; i < SIZES; i++) {
        ask(&q, shape, sizes[i]);
        if (!t->agreed(&q))
            return 0;
        measure(&q, t, best);
        for (int who = t->first; who < t->end; who++)
            printf("%s %s %d %s %.4g\n", t->name, shape_names[shape], sizes[i], who_names[who], best[who]);
    }
    return 1;
}

static int time_all(void) {
    for (const table *t = tables; t < tables + TABLES; t++)
        for (int shape = 0; shape < SHAPES; shape++)
            if (!time_shape(t, shape))
                return 1;
    return 0;
}

int main(int argc, char **argv) {
    static question q;
    if (argc > 4) {
        ask(&q, atoi(argv[1]), atoi(argv[2]));
        for (int i = atoi(argv[4]); i > 0; i--)
            run(atoi(argv[3]), &q);
        return 0;
    }
    int asked = agree_on_many(), written = asked ? agree_on_many_files() : 0, labels = written ? agree_on_many_labels() : 0;
    if (!asked || !written || !labels)
        return 1;
    fprintf(stderr, "%d questions, sound and damaged: all numbers agree\n", asked);
    fprintf(stderr, "%d files, sound and refused: all bytes agree\n", written);
    fprintf(stderr, "%d labels, of sound and damaged networks: all replies agree\n", labels);
    return time_all();
}
