/* The exact yardstick: the same whole numbers as the archive's, as one would write them in C. */
#include "bench.h"
#include "records.h"

/* R + jX: all impedances and all sequence currents and voltages are of this form */
typedef struct {
    int64_t r, x;
} plane;

typedef struct {
    plane s1, s2, s0;
} sequences;

static plane of(ohms z) {
    return (plane){z.r, z.x};
}

static plane add(plane a, plane b) {
    return (plane){a.r + b.r, a.x + b.x};
}

static plane minus(plane a) {
    return (plane){-a.r, -a.x};
}

static plane times(plane a, plane b) {
    return (plane){a.r * b.r - a.x * b.x, a.r * b.x + a.x * b.r};
}

static const plane one = {1, 0}, nil = {0, 0};

/* An earth fault at a board without earth return. */
static int unearthed(const board *b, const fault *f) {
    return !b->earthed && (f->kind == 1 || f->kind == 3);
}

/* The fault's currents over D, and D. */
static int64_t short_circuit(sequences *i, const board *b, const fault *f) {
    plane z1 = of(b->z1), z2 = of(b->z2), zf = of(f->zf);
    plane g = {b->z0.r + 3 * zf.r, b->z0.x + 3 * zf.x}, n;
    switch (unearthed(b, f) ? 3 + f->kind : f->kind) {
    case 0:
        n = add(z1, zf);
        *i = (sequences){one, nil, nil};
        break;
    case 1:
        n = add(add(z1, z2), g);
        *i = (sequences){one, one, one};
        break;
    case 2:
        n = add(add(z1, z2), zf);
        *i = (sequences){one, minus(one), nil};
        break;
    case 4: /* one phase to earth: no current */
        n = one;
        *i = (sequences){nil, nil, nil};
        break;
    case 6: /* two phases to earth: as clear of it, without Zf */
        n = add(z1, z2);
        *i = (sequences){one, minus(one), nil};
        break;
    default:
        n = add(times(z1, z2), times(add(z1, z2), g));
        *i = (sequences){add(z2, g), minus(g), minus(z2)};
    }
    plane conjugate = {n.r, -n.x};
    *i = (sequences){times(i->s1, conjugate), times(i->s2, conjugate), times(i->s0, conjugate)};
    return n.r * n.r + n.x * n.x;
}

/* What a part without earth return is lifted by, in zero sequence, over D. */
static plane lift_of(const board *b, const fault *f, int64_t D, const sequences *i) {
    if (!unearthed(b, f))
        return nil;
    plane drop = times(of(b->z1), i->s1), w = {D - drop.r, -drop.x};
    return f->kind == 1 ? minus(w) : w;
}

/* j^n z */
static plane quarters(int n, plane z) {
    if (n & 1)
        z = (plane){-z.x, z.r};
    return n & 2 ? minus(z) : z;
}

/* c0 + a c1 + a^2 c2, a being t^4: as a is t^2 - 1, a^2 is -t^2, ja is -t and ja^2 is t - t^3, all four numbers are differences */
static void put_thirds(int64_t *out, plane c0, plane c1, plane c2) {
    out[0] = c0.r - c1.r;
    out[1] = c2.x - c1.x;
    out[2] = c1.r - c2.r;
    out[3] = c0.x - c2.x;
}

/* What phases a, b, c show, p the odd one, the board turned by d against the faulted one. A turn is quarters, which make R + jX of R + jX, and thirds, which only say which phase shows what. */
static void phases(int64_t *out, int p, int d, const sequences *x) {
    plane u = x->s0, v = quarters(d, x->s1), w = quarters(-d, x->s2), all = add(u, add(v, w));
    int odd = (p + 2 * d) % 3, next = odd == 2 ? 0 : odd + 1, last = next == 2 ? 0 : next + 1;
    int64_t *first = out + 4 * odd, *second = out + 4 * next, *third = out + 4 * last;
    switch (p) {
    case 0:
        put_thirds(first, all, nil, nil);
        put_thirds(second, u, w, v);
        put_thirds(third, u, v, w);
        break;
    case 1: /* all times a^2 */
        put_thirds(first, nil, nil, all);
        put_thirds(second, w, v, u);
        put_thirds(third, v, w, u);
        break;
    default: /* all times a */
        put_thirds(first, nil, all, nil);
        put_thirds(second, v, u, w);
        put_thirds(third, w, u, v);
    }
}

static void put_board(int64_t *out, const standing *b, int64_t D, const sequences *i, plane lift, int p) {
    plane drop = times(of(b->s.z1), i->s1);
    sequences w = {{D - drop.r, -drop.x}, minus(times(of(b->s.z2), i->s2)), minus(times(of(b->s.z0), i->s0))};
    if (b->joined)
        w.s0 = add(w.s0, lift);
    phases(out, p, b->d, &w);
    if (!b->on) {
        memset(out + 12, 0, 12 * sizeof *out);
        return;
    }
    sequences c = *i;
    if (!b->earth)
        c.s0 = nil;
    phases(out + 12, p, b->d, &c);
}

/* The greatest n with n n den <= num: a guess in doubles, put right by whole numbers. */
static uint64_t amps(const network *w, const board *b, const fault *f, int64_t D) {
    uint64_t z2 = (uint64_t)b->z2.r * b->z2.r + (uint64_t)b->z2.x * b->z2.x;
    uint64_t factor = unearthed(b, f) ? 0 : f->kind == 0 ? 1 : f->kind == 1 ? 9 : f->kind == 2 ? 3 : 9 * z2;
    uint64_t volts = w->volts * 1000000ull, unit = w->unit;
    unsigned __int128 num = (unsigned __int128)factor * (volts * volts), den = (unsigned __int128)(uint64_t)D * (unit * unit);
    uint64_t n = (uint64_t)__builtin_sqrt((double)num / (double)den);
    while ((unsigned __int128)n * n * den > num)
        n--;
    while ((unsigned __int128)(n + 1) * (n + 1) * den <= num)
        n++;
    return n;
}

static void put_boards(int64_t *buffer, const network *w, const fault *f, const sequences *i) {
    uint8_t on[BOARDS];
    shared shares[BOARDS];
    plane lift = lift_of(&w->boards[f->k - 1], f, buffer[0], i);
    mark_chain(on, w, f->k);
    for (size_t j = 0; j < w->n; j++) {
        standing b = stands(w, f, on, shares, j);
        put_board(buffer + RANJUPELI_NUMBERS(j), &b, buffer[0], i, lift, f->phase);
    }
}

ranjupeli_answer exact_solve(const uint8_t *net, size_t net_len, const uint8_t *flt, size_t flt_len, int64_t *buffer, size_t buffer_len) {
    network w;
    fault f;
    ranjupeli_answer a = read_network(&w, net, net_len);
    if (a.number)
        return a;
    a = read_fault(&f, &w, flt, flt_len, buffer_len >= RANJUPELI_NUMBERS(w.n));
    if (a.number)
        return a;
    sequences i;
    const board *at = &w.boards[f.k - 1];
    buffer[0] = short_circuit(&i, at, &f);
    phases(buffer + 1, f.phase, 0, &i);
    put_boards(buffer, &w, &f, &i);
    return accepted(&w, &f, amps(&w, at, &f, buffer[0]));
}
