/* Ranjupeli for C: short circuits of a radial network, answered exactly or refused by the first rule broken;
 * the file of a network, written from its boards or refused by the same rules;
 * and the record that a board's earth return comes from, or the one that stops it.
 *
 * Link target/staticlib/libranjupeli.a (tools/archive proves and writes it) into a program for x86-64 Linux.
 * It has three functions, ranjupeli_solve, ranjupeli_write and ranjupeli_earth. What they do is proved:
 * crates/ranjupeli_c/src/lib.rt has their contracts, docs/CONTRACTS.md says them in words; docs/FORMAT.md explains the fields and
 * what to do about a refusal.
 *
 * Limits, and what the caller answers for (nothing can prove it of C):
 * - x86-64 only. They need memcpy and memset, and nothing else: no heap, no files, no locale, no state between calls.
 * - They start no thread and take no lock. Calls in several threads do not meet, as long as no two share a buffer or an output.
 * - Stack: less than 20 KB below the caller, RANJUPELI_STACK, and for ranjupeli_write less than 32 KB, RANJUPELI_WRITE_STACK (docs/SPEED.md has the table).
 *   Give a thread that calls them 32 KB or more, one that writes 48 KB.
 * - No pointer is null, even where its length is 0: no boards, no output, no label. Each length is true.
 * - The buffer is aligned for int64_t and overlaps neither file; the output does not overlap the boards.
 * - Any bytes and any boards may be lent, of any length. An accepted network has 8 + 44 N bytes, N from 1 to 256; a fault has 20, a label 12.
 * - The buffer needs 13 + 24 N numbers. A shorter one is refused (19); RANJUPELI_MOST is enough for every network.
 * - The output needs 8 + 44 N bytes. A shorter one is refused (20); RANJUPELI_LONGEST is enough for every network. */
#ifndef RANJUPELI_H
#define RANJUPELI_H
#include <stddef.h>
#include <stdint.h>

#ifdef __cplusplus
extern "C" {
#endif

/* the bytes of stack that a call of ranjupeli_solve or ranjupeli_earth takes less than, and one of ranjupeli_write; the project's gate holds both */
#define RANJUPELI_STACK (20 * 1024)
#define RANJUPELI_WRITE_STACK (32 * 1024)

/* the numbers that n boards need, and those that the largest network needs */
#define RANJUPELI_NUMBERS(n) (13 + 24 * (size_t)(n))
#define RANJUPELI_MOST RANJUPELI_NUMBERS(256)

/* the bytes of a network file of n boards, and those of the longest */
#define RANJUPELI_FILE(n) (8 + 44 * (size_t)(n))
#define RANJUPELI_LONGEST RANJUPELI_FILE(256)

/* the numbers of an answer: 0, or the rule that was broken first, in the order in which they are tested.
 * ranjupeli_solve gives 0 to 17, 19 and 21, ranjupeli_write 0, 3, 6 to 11, 20 and 21, ranjupeli_earth 0 to 11, 14 and 21.
 * No answer has 18 any more, and none will: it refused earth faults at boards without earth return, which are answered now. */
enum {
    RANJUPELI_ACCEPTED = 0,
    RANJUPELI_SHORT_NETWORK = 1,    /* network under 8 bytes */
    RANJUPELI_HEAD_MARK = 2,        /* head mark */
    RANJUPELI_HEAD_VALUES = 3,      /* volts, unit or N */
    RANJUPELI_NETWORK_LENGTH = 4,   /* length not 8 + 44 N */
    RANJUPELI_BOARD_MARK = 5,       /* board mark */
    RANJUPELI_LABEL_FORM = 6,       /* form of a record's own label */
    RANJUPELI_LABEL_USED = 7,       /* label used earlier, in any case */
    RANJUPELI_FEEDER = 8,           /* feeder: none of the source, an earlier label of others */
    RANJUPELI_KIND_OR_CLOCK = 9,    /* kind or clock, or kind in the wrong record */
    RANJUPELI_IMPEDANCE = 10,       /* impedance over 4,095 or against the kind's rule */
    RANJUPELI_FORGOTTEN = 21,       /* transformer (kinds 3 to 5) with z1 zero: tested behind 10, before 11 */
    RANJUPELI_SUM = 11,             /* part of Z1, Z2 or an existing Z0 over 4,095 */
    RANJUPELI_FAULT_LENGTH = 12,    /* fault not 20 bytes */
    RANJUPELI_FAULT_MARK = 13,      /* fault mark */
    RANJUPELI_UNKNOWN_BOARD = 14,   /* no board has the label, in any case; one that is not of twelve bytes is no board's */
    RANJUPELI_FAULT_KIND = 15,      /* fault kind over 3 */
    RANJUPELI_FAULT_PHASE = 16,     /* phase over 2, or kind 0 with phase not 0 */
    RANJUPELI_FAULT_IMPEDANCE = 17, /* part of Zf over 1,365 */
    RANJUPELI_SHORT_BUFFER = 19,    /* buffer under 13 + 24 N numbers */
    RANJUPELI_SHORT_OUTPUT = 20     /* output shorter than the file */
};

/* whose bytes an answer shows */
enum { RANJUPELI_NETWORK = 0, RANJUPELI_FAULT = 1, RANJUPELI_LABEL = 2 };

/* Accepted: number 0, the place of the faulted board (from 1), N, the amps, and that board's record.
 * Refused: the number of the rule, the place that it names (0: none), N = 0, amps = 0, and the bytes that it shows. */
typedef struct {
    uint64_t amps;
    size_t start;   /* the bytes shown: from start on, len of them, */
    size_t len;
    uint16_t place;
    uint16_t n;
    uint8_t number;
    uint8_t owner;  /* of the network or of the fault: RANJUPELI_NETWORK, RANJUPELI_FAULT */
} ranjupeli_answer;

/* Accepted, the buffer holds D at 0, the fault's currents of phases a, b, c at 1, 5, 9, and from 13 + 24 (r - 1) on the
 * 24 numbers of board r: its voltages a, b, c, then its record's currents a, b, c. Four numbers x0 x1 x2 x3 mean
 * (x0 + x1 t + x2 t^2 + x3 t^3) / D, t a turn of 30 degrees. What lies behind keeps its values. Refused, all of it does. */
ranjupeli_answer ranjupeli_solve(const uint8_t *network, size_t network_len,
                                 const uint8_t *fault, size_t fault_len,
                                 int64_t *buffer, size_t buffer_len);

/* Bytes, a part of what was lent. */
typedef struct {
    const uint8_t *bytes;
    size_t len;
} ranjupeli_bytes;

/* len bytes of what was lent, from start on */
static inline ranjupeli_bytes ranjupeli_part(const uint8_t *lent, size_t start, size_t len) {
    ranjupeli_bytes part = {lent + start, len};
    return part;
}

/* The bytes that an answer shows: pass the same network and fault again. */
static inline ranjupeli_bytes ranjupeli_shown(ranjupeli_answer answer, const uint8_t *network, const uint8_t *fault) {
    return ranjupeli_part(answer.owner == RANJUPELI_NETWORK ? network : fault, answer.start, answer.len);
}

/* An impedance r + jx, in counts: a count is as many microohms as the unit says. */
typedef struct {
    uint16_t r, x;
} ranjupeli_ohms;

/* what a board is, or hangs on */
enum {
    RANJUPELI_SOURCE = 0,          /* a set or a mains connection, star point earthed; only the first board */
    RANJUPELI_FLOATING_SOURCE = 1, /* a set whose star point floats; only the first board */
    RANJUPELI_CABLE = 2,           /* a cable, a busbar, a distributor lead */
    RANJUPELI_STAR_STAR = 3,       /* a transformer star/star, both star points earthed */
    RANJUPELI_DELTA_STAR = 4,      /* a transformer, delta at the feeder, earthed star at the board */
    RANJUPELI_BLOCKING = 5         /* a transformer that keeps earth current out on both sides */
};

/* A board, and the cable or transformer that feeds it. The source stands first, every other board after its feeder. */
typedef struct {
    ranjupeli_ohms z1;  /* of the set, cable or transformer, in positive sequence: what its data sheet gives; only a cable's may be zero */
    ranjupeli_ohms z2;  /* in negative sequence: as z1, but for a set */
    ranjupeli_ohms z0;  /* in zero sequence, with the way back through the protective conductor: often several times z1 */
    ranjupeli_ohms zn;  /* between star point and earth, entered once; 0 for a plain strap, and for a cable */
    uint8_t label[12];  /* what is written on it: 1 to 12 visible characters, then spaces; no earlier board has the same, A and a being the same */
    uint8_t feeder[12]; /* the label of the board that feeds it, in any case; twelve spaces for the source */
    uint8_t kind;       /* RANJUPELI_SOURCE to RANJUPELI_BLOCKING */
    uint8_t clock;      /* the number of a transformer's vector group (Dyn11: 11); 0 for sources, cables and star/star */
} ranjupeli_board;

#if defined(__cplusplus) && __cplusplus >= 201103L
static_assert(sizeof(ranjupeli_board) == 42, "the archive's boards are 42 bytes long");
#elif defined(__STDC_VERSION__) && __STDC_VERSION__ >= 201112L
_Static_assert(sizeof(ranjupeli_board) == 42, "the archive's boards are 42 bytes long");
#endif

/* A text as a label, spaces behind it. One of more than twelve characters is not cut, for that could name another board:
 * it becomes zeros, and so a label of wrong form (6), no board's feeder (8) and no board's label (14). */
static inline void ranjupeli_label(uint8_t label[12], const char *text) {
    size_t n = 0, i;
    while (n <= 12 && text[n] != 0)
        n++;
    for (i = 0; i < 12; i++)
        label[i] = (uint8_t)(n > 12 ? 0 : i < n ? text[i] : ' ');
}

/* Accepted: number 0, place 0 and the file's length. Refused: the number of the rule, the board that breaks it (from 1; 0: none), len = 0. */
typedef struct {
    size_t len;
    uint16_t place;
    uint8_t number;
} ranjupeli_written;

/* Accepted, the output begins with the file of these boards: what ranjupeli_solve takes as a network, with N the number of boards.
 * What lies behind keeps its values. Refused, all of it does. Refused are exactly the boards whose file ranjupeli_solve would refuse, by
 * the same number and place; then outputs shorter than the file (20). volts: phase to neutral; unit: microohms in a count. */
ranjupeli_written ranjupeli_write(uint16_t volts, uint16_t unit,
                                  const ranjupeli_board *boards, size_t boards_len,
                                  uint8_t *out, size_t out_len);

/* Accepted: number 0, and the record that the answer names (from 1): where the board's zero sequence starts (earthed 1), or what stops
 * it (earthed 0), the nearest record from the board to the source that is a floating source or a blocking transformer. No bytes are shown.
 * Refused: the number of the rule, the place that it names (0: none), earthed 0, and the bytes that it shows. */
typedef struct {
    size_t start;    /* the bytes shown: from start on, len of them, */
    size_t len;
    uint16_t place;
    uint8_t number;
    uint8_t owner;   /* of the network or of the label: RANJUPELI_NETWORK, RANJUPELI_LABEL */
    uint8_t earthed; /* 1: earth return from record place; 0: none, stopped at record place */
} ranjupeli_earth_return;

/* Whether the board with this label has an earth return, and which record to thank or to blame: for a crew whose loop tester shows nothing.
 * The label is typed in any case and has twelve bytes, as ranjupeli_label makes them of a text; one of more or fewer is refused (14).
 * A network is refused as by ranjupeli_solve, and before the label. */
ranjupeli_earth_return ranjupeli_earth(const uint8_t *network, size_t network_len,
                                       const uint8_t *label, size_t label_len);

/* The bytes that it shows: pass the same network and label again. */
static inline ranjupeli_bytes ranjupeli_earth_shown(ranjupeli_earth_return e, const uint8_t *network, const uint8_t *label) {
    return ranjupeli_part(e.owner == RANJUPELI_NETWORK ? network : label, e.start, e.len);
}

/* What a number says, for a reader. */
static inline const char *ranjupeli_sentence(unsigned number) {
    switch (number) {
    case RANJUPELI_ACCEPTED: return "accepted: the question is answered, or the file is written";
    case RANJUPELI_SHORT_NETWORK: return "the network has under 8 bytes";
    case RANJUPELI_HEAD_MARK: return "the head does not begin with HD";
    case RANJUPELI_HEAD_VALUES: return "the volts, the unit or the number of boards is out of its range";
    case RANJUPELI_NETWORK_LENGTH: return "the network does not have 8 + 44 N bytes";
    case RANJUPELI_BOARD_MARK: return "a record does not begin with BD";
    case RANJUPELI_LABEL_FORM: return "a record's own label has a wrong form";
    case RANJUPELI_LABEL_USED: return "a label is used by an earlier record";
    case RANJUPELI_FEEDER: return "the source has a feeder, or a record's feeder is no earlier label";
    case RANJUPELI_KIND_OR_CLOCK: return "a record's kind or clock is wrong, or the kind stands in the wrong record";
    case RANJUPELI_IMPEDANCE: return "an impedance is over 4,095 or against the rule of the record's kind";
    case RANJUPELI_FORGOTTEN: return "a transformer has no impedance: z1 is zero";
    case RANJUPELI_SUM: return "a part of an impedance summed over a board's chain is over 4,095";
    case RANJUPELI_FAULT_LENGTH: return "the fault does not have 20 bytes";
    case RANJUPELI_FAULT_MARK: return "the fault does not begin with FT";
    case RANJUPELI_UNKNOWN_BOARD: return "no board has the label";
    case RANJUPELI_FAULT_KIND: return "the fault's kind is over 3";
    case RANJUPELI_FAULT_PHASE: return "the fault's phase is over 2, or not 0 in a fault of all three phases";
    case RANJUPELI_FAULT_IMPEDANCE: return "a part of the fault's impedance is over 1,365";
    case RANJUPELI_SHORT_BUFFER: return "the buffer has under 13 + 24 N numbers";
    case RANJUPELI_SHORT_OUTPUT: return "the output is shorter than the file";
    }
    return "no answer has this number";
}

#ifdef __cplusplus
}
#endif
#endif
