/*
 * Calls each entry that takes pointers with NULL for some of them, in every choice, their lengths
 * being 0, and fails where it answers otherwise than for memory of length 0 that is there.
 */
#include <stdio.h>
#include <stdlib.h>
#include <string.h>
#include "kv.h"

enum { N = KV_POSITIONS, K = 7, MATRIX = KV_SYMBOLS * N, ROWS = KV_ROWS * K, LEAD = 1 };
enum { MOST = 5, ROOM = 256, TOLD = 6 };

static uint8_t bytes[MOST][ROOM];
static uint16_t numbers[MOST][ROOM];

/* What a call is lent, as bytes or as numbers. */
static struct {
    uint8_t *bytes;
    uint16_t *numbers;
    size_t length;
} lent[MOST];

#define BYTES(i) lent[i].bytes, lent[i].length
#define NUMBERS(i) lent[i].numbers, lent[i].length

/* The numbers that a call answers. */
static uint64_t told[TOLD];

static void answered(struct kv_answer a) {
    const uint64_t all[TOLD] = {a.number, a.place, a.count, a.value, a.cost, a.bound};
    memcpy(told, all, sizeof told);
}

static void judged(struct kv_verdict v) {
    const uint64_t all[TOLD] = {v.number, v.place, v.count, v.value, 0, 0};
    memcpy(told, all, sizeof told);
}

static void encode(void) { answered(kv_encode(N, K, BYTES(0), BYTES(1))); }

static void multiplicities(void) {
    answered(kv_multiplicities(N, KV_LEVEL, NUMBERS(0), BYTES(1)));
}

static void plan(void) { answered(kv_plan(N, KV_STEPS, NUMBERS(0), BYTES(1))); }

static void check_plan(void) { answered(kv_check_plan(N, KV_STEPS, NUMBERS(0), BYTES(1))); }

static void cost_and_bound(void) { answered(kv_cost_and_bound(N, K, BYTES(0))); }

static void interpolate(void) { answered(kv_interpolate(N, K, KV_LIMIT, BYTES(0), BYTES(1))); }

/* Of degree 0, with the one coefficient 1. */
static void check_proposal(void) {
    bytes[1][0] = 1;
    answered(kv_check_proposal(N, K, 0, BYTES(0), BYTES(1)));
}

/* Of degree 0, which asks for no room. */
static void roots(void) {
    bytes[0][0] = 1;
    answered(kv_roots(0, K, BYTES(0), BYTES(1)));
}

static void list_of_multiplicities(void) {
    answered(kv_list_of_multiplicities(N, K, KV_LIMIT, BYTES(0), BYTES(1), NUMBERS(2)));
}

static void list_of_reliabilities(void) {
    answered(kv_list_of_reliabilities(N, K, KV_LEVEL, KV_LIMIT, NUMBERS(0), BYTES(1), NUMBERS(2)));
}

static void list_of_plan(void) {
    answered(kv_list_of_plan(N, K, KV_LIMIT, KV_STEPS, NUMBERS(0), BYTES(1), BYTES(2), NUMBERS(3)));
}

static void list_of_proposal(void) {
    bytes[1][0] = 1;
    answered(kv_list_of_proposal(N, K, KV_LIMIT, 0, BYTES(0), BYTES(1), BYTES(2), NUMBERS(3)));
}

static void matrix_fresh(void) { answered(kv_matrix_fresh(N, NUMBERS(0), BYTES(1))); }

static void matrix_of_bytes(void) {
    answered(kv_matrix_of_bytes(N, BYTES(0), NUMBERS(1), BYTES(2)));
}

static void matrix_set_entry(void) {
    answered(kv_matrix_set_entry(N, 0, NUMBERS(0), BYTES(1), 0, 1, KV_LEVEL));
}

static void matrix_clear_column(void) {
    answered(kv_matrix_clear_column(N, 0, NUMBERS(0), BYTES(1), 0));
}

static void matrix_add(void) {
    answered(kv_matrix_add(N, 0, NUMBERS(0), BYTES(1), N, 0, NUMBERS(2), BYTES(3)));
}

static void matrix_cost_and_bound(void) {
    answered(kv_matrix_cost_and_bound(N, 0, NUMBERS(0), BYTES(1), K));
}

static void matrix_interpolate(void) {
    answered(kv_matrix_interpolate(N, 0, NUMBERS(0), BYTES(1), K, KV_LIMIT, BYTES(2)));
}

static void matrix_list(void) {
    answered(kv_matrix_list(N, 0, NUMBERS(0), BYTES(1), K, KV_LIMIT, BYTES(2), NUMBERS(3)));
}

static void matrix_check_plan(void) {
    answered(kv_matrix_check_plan(N, 0, NUMBERS(0), BYTES(1), KV_STEPS, NUMBERS(2)));
}

static void matrix_list_of_plan(void) {
    answered(kv_matrix_list_of_plan(N, 0, NUMBERS(0), BYTES(1), K, KV_LIMIT, KV_STEPS, NUMBERS(2),
                                    BYTES(3), NUMBERS(4)));
}

static void matrix_check_proposal(void) {
    bytes[2][0] = 1;
    answered(kv_matrix_check_proposal(N, 0, NUMBERS(0), BYTES(1), K, 0, BYTES(2)));
}

static void matrix_list_of_proposal(void) {
    bytes[2][0] = 1;
    answered(kv_matrix_list_of_proposal(N, 0, NUMBERS(0), BYTES(1), K, KV_LIMIT, 0, BYTES(2),
                                        BYTES(3), NUMBERS(4)));
}

static void judge(void) { judged(kv_judge(K, BYTES(0), NUMBERS(1), LEAD)); }

static void open_row(void) { judged(kv_open(K, BYTES(0), NUMBERS(1), LEAD)); }

static void judge_both(void) {
    judged(kv_judge_both(N, K, KV_LEVEL, BYTES(0), NUMBERS(1), N, K, KV_LEVEL, BYTES(2), NUMBERS(3),
                         LEAD));
}

static void open_both(void) {
    judged(kv_open_both(N, K, KV_LEVEL, BYTES(0), NUMBERS(1), N, K, KV_LEVEL, BYTES(2), NUMBERS(3),
                        LEAD));
}

/* The lengths are those with which the call is not refused, its memory being zeros. */
static const struct entry {
    const char *name;
    void (*call)(void);
    unsigned pointers;
    size_t lengths[MOST];
} entries[] = {
    {"encode", encode, 2, {K, N}},
    {"multiplicities", multiplicities, 2, {MATRIX, MATRIX}},
    {"plan", plan, 2, {MATRIX, MATRIX}},
    {"check plan", check_plan, 2, {MATRIX, MATRIX}},
    {"cost and bound", cost_and_bound, 1, {MATRIX}},
    {"interpolation", interpolate, 2, {MATRIX, KV_COEFFICIENTS}},
    {"check proposal", check_proposal, 2, {MATRIX, 1}},
    {"roots", roots, 2, {1, 0}},
    {"list of multiplicities", list_of_multiplicities, 3, {MATRIX, ROWS, KV_ROWS}},
    {"list of reliabilities", list_of_reliabilities, 3, {MATRIX, ROWS, KV_ROWS}},
    {"list of plan", list_of_plan, 4, {MATRIX, MATRIX, ROWS, KV_ROWS}},
    {"list of proposal", list_of_proposal, 4, {MATRIX, 1, ROWS, KV_ROWS}},
    {"matrix fresh", matrix_fresh, 2, {KV_POSITIONS, KV_ENTRIES}},
    {"matrix of bytes", matrix_of_bytes, 3, {MATRIX, KV_POSITIONS, KV_ENTRIES}},
    {"matrix set entry", matrix_set_entry, 2, {KV_POSITIONS, KV_ENTRIES}},
    {"matrix clear column", matrix_clear_column, 2, {KV_POSITIONS, KV_ENTRIES}},
    {"matrix add", matrix_add, 4, {KV_POSITIONS, KV_ENTRIES, KV_POSITIONS, KV_ENTRIES}},
    {"matrix cost and bound", matrix_cost_and_bound, 2, {KV_POSITIONS, KV_ENTRIES}},
    {"matrix interpolate", matrix_interpolate, 3, {KV_POSITIONS, KV_ENTRIES, KV_COEFFICIENTS}},
    {"matrix list", matrix_list, 4, {KV_POSITIONS, KV_ENTRIES, ROWS, KV_ROWS}},
    {"matrix check plan", matrix_check_plan, 3, {KV_POSITIONS, KV_ENTRIES, MATRIX}},
    {"matrix list of plan", matrix_list_of_plan, 5,
     {KV_POSITIONS, KV_ENTRIES, MATRIX, ROWS, KV_ROWS}},
    {"matrix check proposal", matrix_check_proposal, 3, {KV_POSITIONS, KV_ENTRIES, 1}},
    {"matrix list of proposal", matrix_list_of_proposal, 5,
     {KV_POSITIONS, KV_ENTRIES, 1, ROWS, KV_ROWS}},
    {"judge", judge, 2, {K, 1}},
    {"open", open_row, 2, {K, 1}},
    {"judge both", judge_both, 4, {K, 1, K, 1}},
    {"open both", open_both, 4, {K, 1, K, 1}},
};

/* Calls with zeros for all that is asked for; those left out have length 0, and are there or NULL. */
static void call(const struct entry *entry, unsigned left_out, int are_there) {
    memset(bytes, 0, sizeof bytes);
    memset(numbers, 0, sizeof numbers);
    for (unsigned i = 0; i < entry->pointers; i++) {
        int is_left_out = left_out >> i & 1;
        lent[i].bytes = is_left_out && !are_there ? NULL : bytes[i];
        lent[i].numbers = is_left_out && !are_there ? NULL : numbers[i];
        lent[i].length = is_left_out ? 0 : entry->lengths[i];
    }
    entry->call();
}

static void fail(const struct entry *entry, unsigned left_out, const char *why) {
    fprintf(stderr, "null: %s, without the pointers %#x, %s\n", entry->name, left_out, why);
    exit(1);
}

/* Answers how many of the calls with NULL are accepted. */
static int compare(const struct entry *entry) {
    int accepted = 0;
    call(entry, 0, 1);
    if (told[0] != KV_ACCEPTED) fail(entry, 0, "is refused");
    for (unsigned left_out = 1; left_out < 1u << entry->pointers; left_out++) {
        uint64_t there[TOLD];
        call(entry, left_out, 1);
        memcpy(there, told, sizeof there);
        call(entry, left_out, 0);
        if (memcmp(there, told, sizeof there) != 0) fail(entry, left_out, "answers otherwise");
        accepted += told[0] == KV_ACCEPTED;
    }
    return accepted;
}

int main(void) {
    size_t count = sizeof entries / sizeof entries[0];
    int accepted = 0;
    for (size_t i = 0; i < count; i++) accepted += compare(&entries[i]);
    printf("null: %zu entries answer NULL as memory of length 0, %d calls accepted\n", count, accepted);
    return 0;
}
