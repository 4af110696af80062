/* Werdutxa, a proved rotation rewriter: Checking, Rewriting and Listing.
 *
 * Link target/staticlib/libwerdutxa.a, which `tools/staticlib` writes. Nothing is allocated and nothing is kept between calls.
 *
 * A slice is a pointer and a length, counted in numbers. No pointer is NULL, not even one with length 0. A slice that a call writes overlaps
 * no other. This is all that a caller must grant: every other input is answered, at worst by a refusal.
 *
 * Built by rattle-kit-5b-plain, a call took less than 20 KiB of stack, whatever the job; with a later kit run oracle/stack/run. Measured on
 * x86-64, from the caller's frame on, as the deepest of 5,453 jobs and 310 listings: Checking 8,824 bytes, Rewriting 10,696, Listing 18,440;
 * by the machine code no path of calls took more, and none recursed (oracle/README.md, "Stack").
 *
 * A call cannot be stopped: it ends by itself. On most jobs its time grows about as the rotations do, with a large window much faster: one
 * exchange among 3,072 rotations took 77 ms, among 1,536 14 ms (docs/SPEED.md, "How long a call may take"). */
#ifndef WERDUTXA_H
#define WERDUTXA_H

#include <stdbool.h>
#include <stddef.h>
#include <stdint.h>

#ifdef __cplusplus
extern "C" {
#endif

/* What a call answers. docs/REFUSALS.md has for each what to do, and the smallest job that meets it. */
enum werdutxa_answer {
    WERDUTXA_ACCEPTED = 0,            /* results are there */
    WERDUTXA_COUNT_OUTSIDE = 1,       /* more than 4,096 qubits or 65,535 operations; no node, or more than 65,535 */
    WERDUTXA_OPTION_OUTSIDE = 2,      /* rounds above 255; lookback, window, candidates or limit above 1,048,576 */
    WERDUTXA_SLICE_SHORT = 3,         /* a slice is shorter than its records, or than the memory that is asked for */
    WERDUTXA_BAD_NODE = 4,            /* node 0 is no identity; unknown kind, letter or phase; a child not below its product */
    WERDUTXA_BAD_QUBIT = 5,           /* a node's qubit is not below the count */
    WERDUTXA_BAD_REFERENCE = 6,       /* an operation's or row's node or phase is out of range, or a row is out of turn */
    WERDUTXA_BAD_OPERATION = 7,       /* unknown kind, angle above 7, or an outcome or target that is none */
    WERDUTXA_BAD_OUTCOME = 8,         /* an outcome measured twice, or a condition that is not measured earlier */
    WERDUTXA_NON_HERMITIAN_AXIS = 9,  /* the total phase of an operation, or of a row that is a root, is odd */
    WERDUTXA_EXPANSION_LIMIT = 10,    /* the run needs more words than the limit */
    WERDUTXA_BAD_TEXT = 11,           /* Listing only: the text is no listing */
    WERDUTXA_BAD_PLACE = 16           /* the named place is outside the program or holds a plain rotation */
};

/* Fields of a node record. Node 0 is the identity. */
enum {
    WERDUTXA_NODE_FIELDS = 5, /* identity: 0 0 0 0 0; letter: 1 qubit letter 0 0; product: 2 node phase node phase */
    WERDUTXA_IDENTITY = 0,
    WERDUTXA_LETTER = 1,
    WERDUTXA_PRODUCT = 2
};

/* Letters of a node record; a phase counts quarter turns, 0 to 3. */
enum { WERDUTXA_I = 0, WERDUTXA_X = 1, WERDUTXA_Y = 2, WERDUTXA_Z = 3 };

/* Fields of an operation record, handed in: kind, node, phase, angle, outcome, target.
 * As a result: kind, axis, sign (1, or WERDUTXA_MINUS_ONE of a measurement), angle, outcome, target. */
enum {
    WERDUTXA_OPERATION_FIELDS = 6,
    WERDUTXA_ROTATE = 1,            /* by angle eighths, 0 to 7 */
    WERDUTXA_MEASURE = 2,           /* into an outcome, and a target or WERDUTXA_NONE */
    WERDUTXA_CONDITIONAL_ROTATE = 3 /* where the outcome is 1 */
};

/* Fields of a row record, handed in: qubit, 0 x or 1 z, node, phase. Two rows for each qubit, rising, x before z.
 * As a result: qubit, 0 or 1, axis, sign; of a row that is kept as it was handed in: WERDUTXA_MINUS_ONE, 0. Kept are all rows where nothing
 * was absorbed, and else those that are no roots: a root names, anywhere in its products, a qubit that an operation names. */
enum { WERDUTXA_ROW_FIELDS = 4 };

/* No outcome or no target. The largest outcome and target are one below. */
#define WERDUTXA_NONE UINT32_C(65535)

/* -1 in a sign, or in the axis of a kept row. */
#define WERDUTXA_MINUS_ONE UINT32_C(4294967295)

/* The bytes that Listing's output must have room for: the largest listing. */
#define WERDUTXA_LISTING_BYTES ((size_t)215369)

/* The chains beside the stored axes, by which a word is looked up: the number store has a number for each, and one for each axis that the
 * limit has room for. */
#define WERDUTXA_CHAINS ((size_t)1024)

/* A program; it is only read. */
struct werdutxa_program {
    size_t qubits;              /* 0 to 4,096 */
    size_t node_count;          /* 1 to 65,535 */
    size_t operation_count;     /* 0 to 65,535 */
    const uint32_t *nodes;      /* node records */
    size_t nodes_length;        /* at least 5 for each node */
    const uint32_t *operations; /* operation records */
    size_t operations_length;   /* at least 6 for each operation */
    const uint32_t *rows;       /* row records */
    size_t rows_length;         /* at least 8 for each qubit */
};

struct werdutxa_options {
    size_t lookback;        /* how far apart rotations that merge may stand; at most 1,048,576 */
    size_t window;          /* the longest group that is exchanged, 0 for no exchanges; at most 1,048,576 */
    size_t candidates;      /* shorter groups to try for each exchange; at most 1,048,576 */
    size_t rounds;          /* the most rounds, 0 leaves the rotations as they are; at most 255 */
    bool clifford_to_frame; /* whether even rotations are absorbed into the frame */
    bool eager_swaps;       /* whether an exchange is taken also where only rotations are saved */
    bool second_exchange_first; /* where both exchanges of three groups improve: second with third, not first with second */
    bool lazy_cliffords;    /* whether even rotations wait until they must be absorbed */
    bool named;             /* whether they wait only behind a named operation; lazy_cliffords is not looked at then */
    size_t place;           /* if named: which measurement or conditional rotation, by its place among all operations, counted from 0 */
    bool litinski;          /* Litinski's layers, in place of merging */
    bool measure_depth;     /* whether T-depths are counted */
    size_t limit;           /* the most words that a run may need; at most 1,048,576 */
};

/* The defaults of the Rust; its limit is outside of the domain, so here it is the largest; it has no second_exchange_first
 * and names no place. */
#define WERDUTXA_DEFAULTS {1048576, 0, 16, 8, true, true, false, false, false, 0, false, false, 1048576}

/* What a call is lent. After 0 it holds results and then zeros, after 9 and 10 words and numbers are zero, after 1 to 8, 11 and 16 all is as
 * it was. */
struct werdutxa_memory {
    uint64_t *words;                 /* axes by id: x-words, then z-words, qubit q in bit q mod 64 of word q div 64 */
    size_t words_length;             /* at least werdutxa_words */
    uint32_t *numbers;               /* for work; zero after 0 */
    size_t numbers_length;           /* at least werdutxa_numbers */
    uint32_t *result_operations;     /* operation records */
    size_t result_operations_length; /* at least 6 for each operation */
    uint32_t *result_rows;           /* row records */
    size_t result_rows_length;       /* at least 8 for each qubit */
};

/* What a run counts; all is 0 after a refusal. */
struct werdutxa_counted {
    size_t t_before;           /* T-count: rotations of odd angle, plain and conditional */
    size_t t_after;
    size_t merges;             /* pairs of rotations merged into one */
    size_t swaps;              /* exchanges */
    size_t cliffords_to_frame; /* rotations absorbed into the frame */
    size_t operations;         /* operation records in the results */
    size_t axes;               /* axes in the words */
    size_t rotations_before;   /* plain rotations */
    size_t rotations_after;
    size_t t_depth_before;     /* 0 where measure_depth is off */
    size_t t_depth_after;
    size_t weight_before;      /* letters other than I of all rotations */
    size_t weight_after;
    size_t packed_words;       /* the largest word sum that was tested: the least limit that the run is accepted with */
};

/* How many words a plane of an axis has: an axis has twice as many. */
static inline size_t werdutxa_width(size_t qubits) {
    return qubits == 0 ? 1 : (qubits + 63) / 64;
}

/* How many words to lend, for counts and options within the domain: limit + 16 * l, with l words in a plane. */
static inline size_t werdutxa_words(size_t qubits, size_t limit) {
    return limit + 16 * werdutxa_width(qubits);
}

/* How many numbers to lend, for counts and options within the domain:
 * 24 * (nodes + operations + 2 * qubits + limit / (2 * l) + 1) + 1024 + limit / (2 * l). */
static inline size_t werdutxa_numbers(size_t qubits, size_t node_count, size_t operation_count, size_t limit) {
    size_t axes = limit / (2 * werdutxa_width(qubits));
    return 24 * (node_count + operation_count + 2 * qubits + axes + 1) + WERDUTXA_CHAINS + axes;
}

/* ---- the calls, as the library exports them */

/* Checking: 0, or the refusal 1 to 8 or 16 that Rewriting would answer. It writes nothing. */
uint32_t werdutxa_check(
    size_t qubits, size_t node_count, size_t operation_count,
    size_t lookback, size_t window, size_t candidates, size_t rounds,
    bool clifford_to_frame, bool eager_swaps, bool second_exchange_first, bool lazy_cliffords, bool named, size_t place,
    bool litinski, bool measure_depth, size_t limit,
    const uint32_t *nodes, size_t nodes_length,
    const uint32_t *operations, size_t operations_length,
    const uint32_t *rows, size_t rows_length,
    const uint64_t *words, size_t words_length,
    const uint32_t *numbers, size_t numbers_length,
    const uint32_t *result_operations, size_t result_operations_length,
    const uint32_t *result_rows, size_t result_rows_length);

/* Rewriting: 0, or a refusal 1 to 10 or 16. A program may be cut behind a measurement and rewritten in two calls: docs/CUTTING.md says
 * when these leave the whole's operations. */
uint32_t werdutxa_rewrite(
    size_t qubits, size_t node_count, size_t operation_count,
    size_t lookback, size_t window, size_t candidates, size_t rounds,
    bool clifford_to_frame, bool eager_swaps, bool second_exchange_first, bool lazy_cliffords, bool named, size_t place,
    bool litinski, bool measure_depth, size_t limit,
    const uint32_t *nodes, size_t nodes_length,
    const uint32_t *operations, size_t operations_length,
    const uint32_t *rows, size_t rows_length,
    uint64_t *words, size_t words_length,
    uint32_t *numbers, size_t numbers_length,
    uint32_t *result_operations, size_t result_operations_length,
    uint32_t *result_rows, size_t result_rows_length,
    struct werdutxa_counted *counted);

/* Listing: 0, or a refusal 1 or 3 to 11. The first *size bytes of output are the listing that is printed, after a refusal its number and
 * eight zeros; an output below WERDUTXA_LISTING_BYTES is refused by 3 before the text is looked at, and nothing is printed. */
uint32_t werdutxa_list(
    const uint8_t *text, size_t text_length,
    uint8_t *output, size_t output_length,
    uint64_t *words, size_t words_length,
    uint32_t *numbers, size_t numbers_length,
    uint32_t *result_operations, size_t result_operations_length,
    uint32_t *result_rows, size_t result_rows_length,
    size_t *size);

/* ---- the same, by the structs above */

static inline uint32_t werdutxa_check_program(
    const struct werdutxa_program *p, const struct werdutxa_options *o, const struct werdutxa_memory *m) {
    return werdutxa_check(
        p->qubits, p->node_count, p->operation_count, o->lookback, o->window, o->candidates, o->rounds,
        o->clifford_to_frame, o->eager_swaps, o->second_exchange_first, o->lazy_cliffords, o->named, o->place,
        o->litinski, o->measure_depth, o->limit,
        p->nodes, p->nodes_length, p->operations, p->operations_length, p->rows, p->rows_length,
        m->words, m->words_length, m->numbers, m->numbers_length,
        m->result_operations, m->result_operations_length, m->result_rows, m->result_rows_length);
}

static inline uint32_t werdutxa_rewrite_program(
    const struct werdutxa_program *p, const struct werdutxa_options *o, const struct werdutxa_memory *m,
    struct werdutxa_counted *counted) {
    return werdutxa_rewrite(
        p->qubits, p->node_count, p->operation_count, o->lookback, o->window, o->candidates, o->rounds,
        o->clifford_to_frame, o->eager_swaps, o->second_exchange_first, o->lazy_cliffords, o->named, o->place,
        o->litinski, o->measure_depth, o->limit,
        p->nodes, p->nodes_length, p->operations, p->operations_length, p->rows, p->rows_length,
        m->words, m->words_length, m->numbers, m->numbers_length,
        m->result_operations, m->result_operations_length, m->result_rows, m->result_rows_length, counted);
}

static inline uint32_t werdutxa_list_text(
    const uint8_t *text, size_t text_length, uint8_t *output, size_t output_length, const struct werdutxa_memory *m, size_t *size) {
    return werdutxa_list(
        text, text_length, output, output_length, m->words, m->words_length, m->numbers, m->numbers_length,
        m->result_operations, m->result_operations_length, m->result_rows, m->result_rows_length, size);
}

#ifdef __cplusplus
}
#endif

#endif
