/* The yardstick in doubles: the same file reading, then complex numbers rounded at each step. */
#include "bench.h"
#include "records.h"
#pragma STDC CX_LIMITED_RANGE ON

typedef _Complex double cx;

typedef struct {
    cx s1, s2, s0;
} sequences;

static const double h = 0.86602540378443864676; /* the sine of 60 degrees */
static const double turns[12][2] = {
    {1, 0}, {h, .5}, {.5, h}, {0, 1}, {-.5, h}, {-h, .5}, {-1, 0}, {-h, -.5}, {-.5, -h}, {0, -1}, {.5, -h}, {h, -.5},
};

static cx complex(double r, double x) {
    return __builtin_complex(r, x);
}

static cx of(ohms z) {
    return complex(z.r, z.x);
}

static cx turn(int n) {
    return complex(turns[n][0], turns[n][1]);
}

/* n / z, by one real division. */
static cx over_z(cx n, cx z) {
    double r = __real__ z, x = __imag__ z, by = 1 / (r * r + x * x);
    return n * complex(r * by, -x * by);
}

/* An earth fault at a board without earth return. */
static int unearthed(const board *b, const fault *f) {
    return !b->earthed && (f->kind == 1 || f->kind == 3);
}

static sequences short_circuit(const board *b, const fault *f) {
    cx z1 = of(b->z1), z2 = of(b->z2), zf = of(f->zf), g = of(b->z0) + 3 * zf, i, by;
    switch (unearthed(b, f) ? 3 + f->kind : f->kind) {
    case 0:
        return (sequences){over_z(1, z1 + zf), 0, 0};
    case 1:
        i = over_z(1, z1 + z2 + g);
        return (sequences){i, i, i};
    case 2:
        i = over_z(1, z1 + z2 + zf);
        return (sequences){i, -i, 0};
    case 4: /* one phase to earth: no current */
        return (sequences){0, 0, 0};
    case 6: /* two phases to earth: as clear of it, without Zf */
        i = over_z(1, z1 + z2);
        return (sequences){i, -i, 0};
    default:
        by = over_z(1, z1 * z2 + (z1 + z2) * g);
        return (sequences){(z2 + g) * by, -g * by, -z2 * by};
    }
}

/* What a part without earth return is lifted by, in zero sequence. */
static cx lift_of(const board *b, const fault *f, const sequences *i) {
    if (!unearthed(b, f))
        return 0;
    cx w = 1 - of(b->z1) * i->s1;
    return f->kind == 1 ? -w : w;
}

static void phases(cx *out, int p, int whole, const sequences *x) {
    int d = whole % 12;
    for (int i = 0; i < 3; i++) {
        cx sum = x->s0 + turn((8 * i + 12 - d) % 12) * x->s1 + turn((4 * i + d) % 12) * x->s2;
        out[(p + i) % 3] = turn(8 * p % 12) * sum;
    }
}

static void put_board(cx *out, const standing *b, const sequences *i, cx lift, int p) {
    sequences w = {1 - of(b->s.z1) * i->s1, -of(b->s.z2) * i->s2, -of(b->s.z0) * i->s0};
    if (b->joined)
        w.s0 += lift;
    phases(out, p, b->d, &w);
    if (!b->on) {
        memset(out + 3, 0, 3 * sizeof *out);
        return;
    }
    sequences c = *i;
    if (!b->earth)
        c.s0 = 0;
    phases(out + 3, p, b->d, &c);
}

static uint64_t amps(const network *w, const fault *f, const sequences *i) {
    cx z = f->kind == 3 ? 3 * i->s0 : f->kind == 1 ? 3 * i->s1 : i->s1;
    double r = __real__ z, x = __imag__ z, square = r * r + x * x;
    if (f->kind == 2)
        square *= 3;
    return (uint64_t)(__builtin_sqrt(square) * w->volts * 1e6 / w->unit);
}

static void put_boards(cx *out, const network *w, const fault *f, const sequences *i) {
    uint8_t on[BOARDS];
    shared shares[BOARDS];
    cx lift = lift_of(&w->boards[f->k - 1], f, i);
    mark_chain(on, w, f->k);
    for (size_t j = 0; j < w->n; j++) {
        standing b = stands(w, f, on, shares, j);
        put_board(out + 3 + 6 * j, &b, i, lift, f->phase);
    }
}

ranjupeli_answer doubles_solve(const uint8_t *net, size_t net_len, const uint8_t *flt, size_t flt_len, double *buffer, size_t buffer_len) {
    network w;
    fault f;
    ranjupeli_answer a = read_network(&w, net, net_len);
    if (a.number)
        return a;
    a = read_fault(&f, &w, flt, flt_len, buffer_len >= 6 + 12 * (size_t)w.n);
    if (a.number)
        return a;
    sequences i = short_circuit(&w.boards[f.k - 1], &f);
    cx *out = (cx *)buffer;
    phases(out, f.phase, 0, &i);
    put_boards(out, &w, &f, &i);
    return accepted(&w, &f, amps(&w, &f, &i));
}
