/*
 * Says how much stack each call of the library needs, by what it overwrites of one that is filled
 * with a pattern, and fails where it is more than include/kv.h says. The matrix costs as much as any
 * may, and is the plan for the reliabilities; the polynomial that is proposed is its own.
 */
#include <pthread.h>
#include <stdio.h>
#include <stdlib.h>
#include <string.h>
#include "kv.h"

enum { N = KV_POSITIONS, STACK = 1 << 20, PAGE = 1 << 16, PATTERN = 0xa5 };
enum { LISTING = 64 << 10, ROOTS = 24 << 10, PROPOSAL = 10 << 10, OTHER = 4 << 10 };

static uint8_t matrix[KV_SYMBOLS * N], planned[KV_SYMBOLS * N];
static uint16_t reliabilities[KV_SYMBOLS * N];
static uint8_t coefficients[KV_COEFFICIENTS];
static uint8_t rows[KV_ROWS * N];
static uint16_t scores[KV_ROWS];
static uint16_t totals[KV_POSITIONS], other_totals[KV_POSITIONS];
static uint8_t entries[KV_ENTRIES], other_entries[KV_ENTRIES];
static uint8_t messages[2 * N], codeword[N];
static const uint16_t falling[] = {2, 1};
static struct kv_answer polynomial, answer;
static size_t k, cost;

static void sum(void) { answer = kv_sum(7, 9); }

static void product(void) { answer = kv_product(7, 9); }

static void inverse(void) { answer = kv_inverse(7); }

static void encode(void) {
    answer = kv_encode(N, k, messages, k, codeword, N);
}

static void multiplicities(void) {
    answer = kv_multiplicities(N, KV_LEVEL, reliabilities, KV_SYMBOLS * N, planned, sizeof planned);
}

static void plan(void) {
    answer = kv_plan(N, KV_STEPS, reliabilities, KV_SYMBOLS * N, planned, sizeof planned);
}

static void check_plan(void) {
    answer = kv_check_plan(N, KV_STEPS, reliabilities, KV_SYMBOLS * N, matrix, sizeof matrix);
}

static void cost_and_bound(void) {
    answer = kv_cost_and_bound(N, k, matrix, sizeof matrix);
}

static void interpolate(void) {
    answer = kv_interpolate(N, k, KV_LIMIT, matrix, sizeof matrix, coefficients, sizeof coefficients);
}

static void check_proposal(void) {
    answer = kv_check_proposal(N, k, polynomial.bound, matrix, sizeof matrix, coefficients,
                               polynomial.count);
}

static void roots(void) {
    answer = kv_roots(polynomial.bound, k, coefficients, polynomial.count, rows, sizeof rows);
}

static void list_of_multiplicities(void) {
    answer = kv_list_of_multiplicities(N, k, KV_LIMIT, matrix, sizeof matrix, rows, sizeof rows,
                                       scores, KV_ROWS);
}

static void list_of_reliabilities(void) {
    answer = kv_list_of_reliabilities(N, k, KV_LEVEL, KV_LIMIT, reliabilities, KV_SYMBOLS * N, rows,
                                      sizeof rows, scores, KV_ROWS);
}

static void list_of_plan(void) {
    answer = kv_list_of_plan(N, k, KV_LIMIT, KV_STEPS, reliabilities, KV_SYMBOLS * N,
                             matrix, sizeof matrix, rows, sizeof rows, scores, KV_ROWS);
}

static void list_of_proposal(void) {
    answer = kv_list_of_proposal(N, k, KV_LIMIT, polynomial.bound, matrix, sizeof matrix,
                                 coefficients, polynomial.count, rows, sizeof rows, scores,
                                 KV_ROWS);
}

static void matrix_fresh(void) {
    answer = kv_matrix_fresh(N, other_totals, KV_POSITIONS, other_entries, KV_ENTRIES);
}

static void matrix_of_bytes(void) {
    answer = kv_matrix_of_bytes(N, matrix, sizeof matrix, totals, KV_POSITIONS, entries, KV_ENTRIES);
}

static void matrix_set_entry(void) {
    answer = kv_matrix_set_entry(N, cost, totals, KV_POSITIONS, entries, KV_ENTRIES, 0, 1, KV_LEVEL);
}

static void matrix_clear_column(void) {
    answer = kv_matrix_clear_column(N, 0, other_totals, KV_POSITIONS, other_entries, KV_ENTRIES, 0);
}

static void matrix_add(void) {
    answer = kv_matrix_add(N, cost, totals, KV_POSITIONS, entries, KV_ENTRIES,
                           N, 0, other_totals, KV_POSITIONS, other_entries, KV_ENTRIES);
}

static void matrix_cost_and_bound(void) {
    answer = kv_matrix_cost_and_bound(N, cost, totals, KV_POSITIONS, entries, KV_ENTRIES, k);
}

static void matrix_interpolate(void) {
    answer = kv_matrix_interpolate(N, cost, totals, KV_POSITIONS, entries, KV_ENTRIES, k, KV_LIMIT,
                                   coefficients, sizeof coefficients);
}

static void matrix_list(void) {
    answer = kv_matrix_list(N, cost, totals, KV_POSITIONS, entries, KV_ENTRIES, k, KV_LIMIT, rows,
                            sizeof rows, scores, KV_ROWS);
}

static void matrix_check_plan(void) {
    answer = kv_matrix_check_plan(N, cost, totals, KV_POSITIONS, entries, KV_ENTRIES, KV_STEPS,
                                  reliabilities, KV_SYMBOLS * N);
}

static void matrix_list_of_plan(void) {
    answer = kv_matrix_list_of_plan(N, cost, totals, KV_POSITIONS, entries, KV_ENTRIES, k, KV_LIMIT,
                                    KV_STEPS, reliabilities, KV_SYMBOLS * N, rows, sizeof rows,
                                    scores, KV_ROWS);
}

static void matrix_check_proposal(void) {
    answer = kv_matrix_check_proposal(N, cost, totals, KV_POSITIONS, entries, KV_ENTRIES, k,
                                      polynomial.bound, coefficients, polynomial.count);
}

static void matrix_list_of_proposal(void) {
    answer = kv_matrix_list_of_proposal(N, cost, totals, KV_POSITIONS, entries, KV_ENTRIES, k,
                                        KV_LIMIT, polynomial.bound, coefficients, polynomial.count,
                                        rows, sizeof rows, scores, KV_ROWS);
}

static void judge(void) {
    answer.number = kv_judge(k, messages, 2 * k, falling, 2, 1).number;
}

static void open_row(void) {
    answer.number = kv_open(k, messages, 2 * k, falling, 2, 1).number;
}

static void judge_both(void) {
    answer.number = kv_judge_both(N, k, KV_LEVEL, messages, 2 * k, falling, 2,
                                  N, k, KV_LEVEL, messages, 2 * k, falling, 2, 1).number;
}

static void open_both(void) {
    answer.number = kv_open_both(N, k, KV_LEVEL, messages, 2 * k, falling, 2,
                                 N, k, KV_LEVEL, messages, 2 * k, falling, 2, 1).number;
}

static const struct entry {
    const char *name;
    void (*call)(void);
    size_t most;
} calls[] = {
    {"sum", sum, OTHER},
    {"product", product, OTHER},
    {"inverse", inverse, OTHER},
    {"encode", encode, OTHER},
    {"multiplicities", multiplicities, OTHER},
    {"plan", plan, OTHER},
    {"check plan", check_plan, OTHER},
    {"cost and bound", cost_and_bound, OTHER},
    {"interpolation", interpolate, LISTING},
    {"check proposal", check_proposal, PROPOSAL},
    {"roots", roots, ROOTS},
    {"list of multiplicities", list_of_multiplicities, LISTING},
    {"list of reliabilities", list_of_reliabilities, LISTING},
    {"list of plan", list_of_plan, LISTING},
    {"list of proposal", list_of_proposal, LISTING},
    {"matrix fresh", matrix_fresh, OTHER},
    {"matrix of bytes", matrix_of_bytes, OTHER},
    {"matrix set entry", matrix_set_entry, OTHER},
    {"matrix clear column", matrix_clear_column, OTHER},
    {"matrix add", matrix_add, OTHER},
    {"matrix cost and bound", matrix_cost_and_bound, OTHER},
    {"matrix interpolate", matrix_interpolate, LISTING},
    {"matrix list", matrix_list, LISTING},
    {"matrix check plan", matrix_check_plan, OTHER},
    {"matrix list of plan", matrix_list_of_plan, LISTING},
    {"matrix check proposal", matrix_check_proposal, PROPOSAL},
    {"matrix list of proposal", matrix_list_of_proposal, LISTING},
    {"judge", judge, OTHER},
    {"open", open_row, OTHER},
    {"judge both", judge_both, OTHER},
    {"open both", open_both, OTHER},
};

static void fail(const char *why) {
    fprintf(stderr, "stack: %s\n", why);
    exit(1);
}

/* A thread's work, on a stack that is filled with the pattern: a call, and what it overwrote. */
struct work {
    void (*call)(void);
    unsigned char *stack;
    size_t needed;
};

static void *measured(void *argument) {
    struct work *work = argument;
    unsigned char *here = __builtin_frame_address(0), *untouched = work->stack;
    work->call();
    while (untouched < here && *untouched == PATTERN) untouched++;
    work->needed = here - untouched;
    return NULL;
}

static size_t needed(void (*call)(void)) {
    struct work work = {call, aligned_alloc(PAGE, STACK), 0};
    pthread_attr_t attributes;
    pthread_t thread;
    if (work.stack == NULL) fail("no memory");
    memset(work.stack, PATTERN, STACK);
    if (pthread_attr_init(&attributes) != 0) fail("no attributes of a thread");
    if (pthread_attr_setstack(&attributes, work.stack, STACK) != 0) fail("no stack of a thread");
    if (pthread_create(&thread, &attributes, measured, &work) != 0) fail("no thread");
    pthread_join(thread, NULL);
    pthread_attr_destroy(&attributes);
    free(work.stack);
    return work.needed;
}

/* The most that a call needs, of all k. */
static void measure(const struct entry *entry) {
    size_t most = 0;
    for (k = 2; k <= N; k++) {
        interpolate();
        polynomial = answer;
        size_t now = needed(entry->call);
        if (answer.number != 0) fail("a call is refused");
        if (now > most) most = now;
    }
    printf("stack of %s: %zu bytes\n", entry->name, most);
    if (most > entry->most) fail("more than include/kv.h says");
}

int main(void) {
    for (size_t i = 0; i < N; i++) {
        matrix[KV_SYMBOLS * i + 1] = KV_LEVEL;
        reliabilities[KV_SYMBOLS * i + 1] = KV_WHOLE;
    }
    for (size_t i = 0; i < 2 * N; i++) messages[i] = i % KV_SYMBOLS;
    matrix_of_bytes();
    cost = answer.cost;
    for (size_t i = 0; i < sizeof calls / sizeof calls[0]; i++) measure(&calls[i]);
    return 0;
}
