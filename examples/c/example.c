/* 01's example twice: as records through Rewriting, and as a listing through Listing; then a program in both orders of ties, one whose even
 * rotations are absorbed at once, lazily, and lazily behind a named operation, and one that is cut at a measurement. */
#include <inttypes.h>
#include <stdio.h>
#include <string.h>

#include "werdutxa.h"

enum { QUBITS = 1, NODES = 3, OPERATIONS = 3, LIMIT = 12 };

/* the identity, Z and X of qubit 0 */
static const uint32_t nodes[NODES * WERDUTXA_NODE_FIELDS] = {
    WERDUTXA_IDENTITY, 0, 0, 0, 0,
    WERDUTXA_LETTER, 0, WERDUTXA_Z, 0, 0,
    WERDUTXA_LETTER, 0, WERDUTXA_X, 0, 0,
};

/* two T rotations about Z, then a measurement of X into outcome 0 */
static const uint32_t operations[OPERATIONS * WERDUTXA_OPERATION_FIELDS] = {
    WERDUTXA_ROTATE, 1, 0, 1, WERDUTXA_NONE, WERDUTXA_NONE,
    WERDUTXA_ROTATE, 1, 0, 1, WERDUTXA_NONE, WERDUTXA_NONE,
    WERDUTXA_MEASURE, 2, 0, 0, 0, WERDUTXA_NONE,
};

static const uint32_t rows[2 * QUBITS * WERDUTXA_ROW_FIELDS] = {
    0, 0, 2, 0,
    0, 1, 1, 0,
};

static const char listing[] =
    "       1       3       3      12\n"
    "       0       0       0       0       0\n"
    "       1       0       3       0       0\n"
    "       1       0       1       0       0\n"
    "       1       1       0       1      -1      -1\n"
    "       1       1       0       1      -1      -1\n"
    "       2       2       0       0       0      -1\n"
    "       0       0       2       0\n"
    "       0       1       1       0\n";

/* lent memory, as long as refusal 3 asks at this limit: limit + 16,
 * 24 * (nodes + operations + 2 * qubits + limit / 2 + 1) + WERDUTXA_CHAINS + limit / 2 */
static uint64_t words[LIMIT + 16];
static uint32_t numbers[24 * (NODES + OPERATIONS + 2 * QUBITS + LIMIT / 2 + 1) + WERDUTXA_CHAINS + LIMIT / 2];
static uint32_t result_operations[OPERATIONS * WERDUTXA_OPERATION_FIELDS];
static uint32_t result_rows[2 * QUBITS * WERDUTXA_ROW_FIELDS];
static uint8_t output[WERDUTXA_LISTING_BYTES];

#define LENGTH(a) (sizeof(a) / sizeof *(a))

static const struct werdutxa_program program = {
    QUBITS, NODES, OPERATIONS, nodes, LENGTH(nodes), operations, LENGTH(operations), rows, LENGTH(rows),
};

static const struct werdutxa_memory memory = {
    words, LENGTH(words), numbers, LENGTH(numbers),
    result_operations, LENGTH(result_operations), result_rows, LENGTH(result_rows),
};

static void print_records(const uint32_t *records, size_t count, size_t fields) {
    for (size_t i = 0; i < count; i++)
        for (size_t j = 0; j < fields; j++)
            printf("%" PRIu32 "%c", records[i * fields + j], j + 1 < fields ? ' ' : '\n');
}

/* the lengths as the header's functions tell them, and that one number less is short */
static void lengths(void) {
    struct werdutxa_options options = WERDUTXA_DEFAULTS;
    options.limit = LIMIT;
    size_t asked = werdutxa_numbers(QUBITS, NODES, OPERATIONS, LIMIT);
    struct werdutxa_memory shorter = memory;
    shorter.numbers_length = asked - 1;
    printf("to lend: %zu words, %zu numbers; with %zu numbers: checking %" PRIu32 "\n",
           werdutxa_words(QUBITS, LIMIT), asked, shorter.numbers_length, werdutxa_check_program(&program, &options, &shorter));
}

static void rewrite(size_t limit) {
    struct werdutxa_options options = WERDUTXA_DEFAULTS;
    options.limit = limit;
    struct werdutxa_counted counted;
    uint32_t checked = werdutxa_check_program(&program, &options, &memory);
    uint32_t answer = werdutxa_rewrite_program(&program, &options, &memory, &counted);
    printf("limit %zu: checking %" PRIu32 ", rewriting %" PRIu32 ", T-count %zu before, %zu after, %zu words\n",
           limit, checked, answer, counted.t_before, counted.t_after, counted.packed_words);
    if (answer != WERDUTXA_ACCEPTED)
        return;
    print_records(result_operations, counted.operations, WERDUTXA_OPERATION_FIELDS);
    print_records(result_rows, 2 * QUBITS, WERDUTXA_ROW_FIELDS);
    for (size_t id = 0; id < counted.axes; id++)
        printf("axis %zu: x %" PRIu64 ", z %" PRIu64 "\n", id, words[2 * id], words[2 * id + 1]);
}

/* memory for each of the programs below, with any limit up to this */
enum { SMALL_LIMIT = 64, SMALL_QUBITS = 2, SMALL_NODES = 5, SMALL_OPERATIONS = 7 };
static uint64_t small_words[SMALL_LIMIT + 16];
static uint32_t small_numbers[24 * (SMALL_NODES + SMALL_OPERATIONS + 2 * SMALL_QUBITS + SMALL_LIMIT / 2 + 1) + WERDUTXA_CHAINS
                              + SMALL_LIMIT / 2];
static uint32_t small_operations[SMALL_OPERATIONS * WERDUTXA_OPERATION_FIELDS], small_rows[2 * SMALL_QUBITS * WERDUTXA_ROW_FIELDS];
static const struct werdutxa_memory small_memory = {
    small_words, LENGTH(small_words), small_numbers, LENGTH(small_numbers),
    small_operations, LENGTH(small_operations), small_rows, LENGTH(small_rows),
};

/* the identity, X and Z of qubit 0, X and Z of qubit 1 */
static const uint32_t tie_nodes[] = {
    WERDUTXA_IDENTITY, 0, 0, 0, 0,
    WERDUTXA_LETTER, 0, WERDUTXA_X, 0, 0,
    WERDUTXA_LETTER, 0, WERDUTXA_Z, 0, 0,
    WERDUTXA_LETTER, 1, WERDUTXA_X, 0, 0,
    WERDUTXA_LETTER, 1, WERDUTXA_Z, 0, 0,
};

/* T rotations about X0, X1, X0, Z0, X1: the first three may be exchanged in two ways, and both improve */
static const uint32_t tie_operations[] = {
    WERDUTXA_ROTATE, 1, 0, 1, WERDUTXA_NONE, WERDUTXA_NONE,
    WERDUTXA_ROTATE, 3, 0, 1, WERDUTXA_NONE, WERDUTXA_NONE,
    WERDUTXA_ROTATE, 1, 0, 1, WERDUTXA_NONE, WERDUTXA_NONE,
    WERDUTXA_ROTATE, 2, 0, 1, WERDUTXA_NONE, WERDUTXA_NONE,
    WERDUTXA_ROTATE, 3, 0, 1, WERDUTXA_NONE, WERDUTXA_NONE,
};

static const uint32_t tie_rows[] = {0, 0, 1, 0, 0, 1, 2, 0, 1, 0, 3, 0, 1, 1, 4, 0};

static void rewrite_in_order(bool second_exchange_first) {
    const struct werdutxa_program ties = {
        2, 5, 5, tie_nodes, LENGTH(tie_nodes), tie_operations, LENGTH(tie_operations), tie_rows, LENGTH(tie_rows),
    };
    struct werdutxa_options options = WERDUTXA_DEFAULTS;
    options.lookback = 0;
    options.window = 1;
    options.clifford_to_frame = false;
    options.second_exchange_first = second_exchange_first;
    options.limit = SMALL_LIMIT;
    struct werdutxa_counted counted;
    uint32_t answer = werdutxa_rewrite_program(&ties, &options, &small_memory, &counted);
    printf("second exchange first %d: rewriting %" PRIu32 ", T-count %zu before, %zu after, %zu exchanges\n",
           second_exchange_first, answer, counted.t_before, counted.t_after, counted.swaps);
}

/* the identity, Z, X and Y of qubit 0; the rows are those of 01's example */
static const uint32_t lazy_nodes[] = {
    WERDUTXA_IDENTITY, 0, 0, 0, 0,
    WERDUTXA_LETTER, 0, WERDUTXA_Z, 0, 0,
    WERDUTXA_LETTER, 0, WERDUTXA_X, 0, 0,
    WERDUTXA_LETTER, 0, WERDUTXA_Y, 0, 0,
};

/* rotations about X, Z and Y by 1, 2 and 1 eighths, a measurement of Z, and the same rotations again */
static const uint32_t lazy_operations[] = {
    WERDUTXA_ROTATE, 2, 0, 1, WERDUTXA_NONE, WERDUTXA_NONE,
    WERDUTXA_ROTATE, 1, 0, 2, WERDUTXA_NONE, WERDUTXA_NONE,
    WERDUTXA_ROTATE, 3, 0, 1, WERDUTXA_NONE, WERDUTXA_NONE,
    WERDUTXA_MEASURE, 1, 0, 0, 0, WERDUTXA_NONE,
    WERDUTXA_ROTATE, 2, 0, 1, WERDUTXA_NONE, WERDUTXA_NONE,
    WERDUTXA_ROTATE, 1, 0, 2, WERDUTXA_NONE, WERDUTXA_NONE,
    WERDUTXA_ROTATE, 3, 0, 1, WERDUTXA_NONE, WERDUTXA_NONE,
};

static void rewrite_lazily(const char *name, bool lazy_cliffords, bool named, size_t place) {
    const struct werdutxa_program lazy = {
        1, 4, 7, lazy_nodes, LENGTH(lazy_nodes), lazy_operations, LENGTH(lazy_operations), rows, LENGTH(rows),
    };
    struct werdutxa_options options = WERDUTXA_DEFAULTS;
    options.lookback = 0;
    options.rounds = 1;
    options.lazy_cliffords = lazy_cliffords;
    options.named = named;
    options.place = place;
    options.limit = SMALL_LIMIT;
    struct werdutxa_counted counted;
    uint32_t checked = werdutxa_check_program(&lazy, &options, &small_memory);
    uint32_t answer = werdutxa_rewrite_program(&lazy, &options, &small_memory, &counted);
    printf("%s: checking %" PRIu32 ", rewriting %" PRIu32 ", T-count %zu before, %zu after\n",
           name, checked, answer, counted.t_before, counted.t_after);
}

/* T rotations about X0, X1, X0, a measurement of Z0, and T rotations about X1, Z1, Z1; nodes and rows are those of the ties */
static const uint32_t cut_operations[] = {
    WERDUTXA_ROTATE, 1, 0, 1, WERDUTXA_NONE, WERDUTXA_NONE,
    WERDUTXA_ROTATE, 3, 0, 1, WERDUTXA_NONE, WERDUTXA_NONE,
    WERDUTXA_ROTATE, 1, 0, 1, WERDUTXA_NONE, WERDUTXA_NONE,
    WERDUTXA_MEASURE, 2, 0, 0, 0, WERDUTXA_NONE,
    WERDUTXA_ROTATE, 3, 0, 1, WERDUTXA_NONE, WERDUTXA_NONE,
    WERDUTXA_ROTATE, 4, 0, 1, WERDUTXA_NONE, WERDUTXA_NONE,
    WERDUTXA_ROTATE, 4, 0, 1, WERDUTXA_NONE, WERDUTXA_NONE,
};

/* what a call left, kept while the next one writes */
struct result {
    struct werdutxa_counted counted;
    uint64_t words[LENGTH(small_words)];
    uint32_t operations[LENGTH(small_operations)];
};

/* so many operations from a place on, without absorption, in one round */
static struct result rewrite_part(const char *name, size_t place, size_t count) {
    const struct werdutxa_program part = {
        2, 5, count, tie_nodes, LENGTH(tie_nodes), cut_operations + WERDUTXA_OPERATION_FIELDS * place,
        WERDUTXA_OPERATION_FIELDS * count, tie_rows, LENGTH(tie_rows),
    };
    struct werdutxa_options options = WERDUTXA_DEFAULTS;
    options.lookback = 0;
    options.window = 1;
    options.rounds = 1;
    options.clifford_to_frame = false;
    options.limit = SMALL_LIMIT;
    struct result result;
    uint32_t answer = werdutxa_rewrite_program(&part, &options, &small_memory, &result.counted);
    memcpy(result.words, small_words, sizeof result.words);
    memcpy(result.operations, small_operations, sizeof result.operations);
    printf("%s: rewriting %" PRIu32 ", %zu merges, %zu exchanges, %zu words\n",
           name, answer, result.counted.merges, result.counted.swaps, result.counted.packed_words);
    if (answer == WERDUTXA_ACCEPTED)
        print_records(result.operations, result.counted.operations, WERDUTXA_OPERATION_FIELDS);
    return result;
}

/* whether a part's operations are the whole's from a place on, in every field, with words in place of ids */
static bool stands_at(const struct result *whole, size_t place, const struct result *part) {
    for (size_t behind = 0; behind < part->counted.operations; behind++) {
        const uint32_t *left = whole->operations + WERDUTXA_OPERATION_FIELDS * (place + behind);
        const uint32_t *right = part->operations + WERDUTXA_OPERATION_FIELDS * behind;
        /* on two qubits an axis has two words, x and z */
        bool same_axis = memcmp(whole->words + 2 * left[1], part->words + 2 * right[1], 2 * sizeof(uint64_t)) == 0;
        if (left[0] != right[0] || !same_axis || memcmp(left + 2, right + 2, 4 * sizeof(uint32_t)) != 0)
            return false;
    }
    return true;
}

/* docs/CUTTING.md: directly behind the measurement, which has place 3 */
static void cut(void) {
    const struct result whole = rewrite_part("whole", 0, 7);
    const struct result earlier = rewrite_part("earlier part", 0, 4);
    const struct result later = rewrite_part("later part", 4, 3);
    bool as_many = earlier.counted.operations + later.counted.operations == whole.counted.operations;
    bool same = as_many && stands_at(&whole, 0, &earlier) && stands_at(&whole, earlier.counted.operations, &later);
    printf("the parts' operations are the whole's: %s\n", same ? "yes" : "no");
}

int main(void) {
    lengths();
    rewrite(LIMIT);
    rewrite(LIMIT - 1);
    rewrite(LIMIT + 1);
    size_t size;
    uint32_t answer = werdutxa_list_text((const uint8_t *)listing, strlen(listing), output, sizeof output, &memory, &size);
    printf("listing %" PRIu32 "\n%.*s", answer, (int)size, (const char *)output);
    rewrite_in_order(false);
    rewrite_in_order(true);
    rewrite_lazily("at once", false, false, 0);
    rewrite_lazily("lazy", true, false, 0);
    rewrite_lazily("lazy behind the measurement", false, true, 3);
    rewrite_lazily("lazy behind a plain rotation", false, true, 2);
    cut();
    return 0;
}
