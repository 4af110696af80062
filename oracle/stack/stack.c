/* stack < JOBS: the most stack that Checking and Rewriting take on any of the jobs. stack --listings < LISTINGS: Listing, on the gate's
 * listings. Each call runs in a thread whose stack is painted before it; counted is from the caller's frame down to the deepest byte that
 * is changed. */
#include <pthread.h>
#include <stdio.h>
#include <stdlib.h>
#include <string.h>

#include "werdutxa.h"

enum { BYTES = 1 << 20, PAINT = 0xa5 };

static _Alignas(4096) unsigned char painted[BYTES];

struct call {
    void (*run)(void);
    unsigned char *from;
};

static void *start(void *p) {
    struct call *call = p;
    call->from = __builtin_frame_address(0);
    call->run();
    return NULL;
}

static size_t depth(void (*run)(void)) {
    memset(painted, PAINT, BYTES);
    struct call call = {run, NULL};
    pthread_attr_t attributes;
    pthread_t thread;
    if (pthread_attr_init(&attributes) || pthread_attr_setstack(&attributes, painted, BYTES)
        || pthread_create(&thread, &attributes, start, &call) || pthread_join(thread, NULL))
        abort();
    unsigned char *deepest = painted;
    while (*deepest == PAINT)
        deepest++;
    return call.from - deepest;
}

/* What a call is given, and answers. */
static struct werdutxa_program program;
static struct werdutxa_options options;
static struct werdutxa_memory memory;
static struct werdutxa_counted counted;
static uint8_t *text, *output;
static size_t text_length, output_length, size;
static size_t answers[12];

static void nothing(void) {
}

static void check(void) {
    werdutxa_check_program(&program, &options, &memory);
}

static void rewrite(void) {
    answers[werdutxa_rewrite_program(&program, &options, &memory, &counted)]++;
}

static void list(void) {
    answers[werdutxa_list_text(text, text_length, output, output_length, &memory, &size)]++;
}

/* The next number of the input, lines that begin with # passed over; -1 is WERDUTXA_NONE. */
static bool number(size_t *n) {
    char word[32];
    while (scanf("%31s", word) == 1) {
        if (word[0] != '#') {
            *n = word[0] == '-' ? WERDUTXA_NONE : strtoull(word, NULL, 10);
            return true;
        }
        scanf("%*[^\n]");
    }
    return false;
}

static size_t next(void) {
    size_t n;
    if (!number(&n))
        abort();
    return n;
}

static void *room(size_t count, size_t bytes) {
    void *p = calloc(count + 1, bytes);
    if (!p)
        abort();
    return p;
}

static const uint32_t *records(size_t count) {
    uint32_t *r = room(count, 4);
    for (size_t i = 0; i < count; i++)
        r[i] = next();
    return r;
}

static void lend(size_t words, size_t numbers, size_t operations, size_t rows) {
    memory = (struct werdutxa_memory){room(words, 8), words, room(numbers, 4), numbers, room(operations, 4), operations, room(rows, 4), rows};
}

static void give_back(void) {
    free(memory.words), free(memory.numbers), free(memory.result_operations), free(memory.result_rows);
}

static bool job(void) {
    size_t qubits, h[17];
    if (!number(&qubits))
        return false;
    for (int i = 0; i < 17; i++)
        h[i] = next();
    size_t nodes = 5 * h[0], operations = 6 * h[1], rows = 8 * qubits;
    bool named = h[10] > 1;
    options = (struct werdutxa_options){
        h[3], h[4], h[5], h[6], h[7], h[8], h[9], h[10] == 1, named, named ? h[10] - 2 : 0, h[11], h[12], h[2],
    };
    program = (struct werdutxa_program){qubits, h[0], h[1], records(nodes), nodes, NULL, operations, NULL, rows};
    program.operations = records(operations);
    program.rows = records(rows);
    lend(werdutxa_words(qubits, h[2]), werdutxa_numbers(qubits, h[0], h[1], h[2]), operations, rows);
    return true;
}

static bool listing(void) {
    size_t words, numbers, operations, rows;
    if (scanf("%zu %zu %zu %zu %zu %zu", &text_length, &output_length, &words, &numbers, &operations, &rows) != 6)
        return false;
    getchar();
    text = room(text_length, 1);
    output = room(output_length, 1);
    if (fread(text, 1, text_length, stdin) != text_length)
        abort();
    lend(words, numbers, operations, rows);
    return true;
}

static void deepen(size_t *most, void (*run)(void)) {
    size_t d = depth(run);
    *most = d > *most ? d : *most;
}

int main(int count, char **arguments) {
    bool listings = count > 1 && !strcmp(arguments[1], "--listings");
    size_t calls = 0, checks = 0, rest = 0;
    while (listings ? listing() : job()) {
        calls++;
        if (!listings) {
            deepen(&checks, check);
            deepen(&rest, rewrite);
            free((void *)program.nodes), free((void *)program.operations), free((void *)program.rows);
        } else {
            deepen(&rest, list);
            free(text), free(output);
        }
        give_back();
    }
    printf("%zu calls, no call %zu bytes", calls, depth(nothing));
    if (!listings)
        printf(", Checking %zu", checks);
    printf(", %s %zu; answers", listings ? "Listing" : "Rewriting", rest);
    for (int i = 0; i < 12; i++)
        printf(" %zu", answers[i]);
    printf("\n");
    return 0;
}
