/* Corrects a mark of a tag by hand, and lists its tickets before and after. */
#include <stdio.h>
#include <stdlib.h>
#include "kv.h"

enum { N = 6, K = 2, LEVEL = 1, POSITION = 3, MARK = 1, ENTRY = 2 };

struct record {
    size_t cost;
    uint16_t totals[KV_POSITIONS];
    uint8_t entries[KV_ENTRIES];
};

static const uint8_t marks[N] = {1, 1, 1, 2, 5, 7};

static struct kv_answer accepted(struct kv_answer answer) {
    if (answer.number != 0) {
        printf("refused %d at %d\n", answer.number, answer.place);
        exit(1);
    }
    return answer;
}

/* What the camera gives, turned into a record. */
static struct record photographed(void) {
    uint16_t reliabilities[KV_SYMBOLS * N] = {0};
    uint8_t matrix[KV_SYMBOLS * N];
    struct record record;
    for (size_t i = 0; i < N; i++) {
        reliabilities[KV_SYMBOLS * i + marks[i]] = KV_WHOLE;
    }
    accepted(kv_multiplicities(N, LEVEL, reliabilities, KV_SYMBOLS * N, matrix, sizeof matrix));
    record.cost = accepted(kv_matrix_of_bytes(N, matrix, sizeof matrix, record.totals, KV_POSITIONS,
                                              record.entries, KV_ENTRIES)).cost;
    return record;
}

/* A person has read the mark: what the camera saw there goes, and the right symbol counts more. */
static void correct(struct record *record) {
    record->cost = accepted(kv_matrix_clear_column(
        N, record->cost, record->totals, KV_POSITIONS, record->entries, KV_ENTRIES, POSITION)).cost;
    record->cost = accepted(kv_matrix_set_entry(
        N, record->cost, record->totals, KV_POSITIONS, record->entries, KV_ENTRIES,
        POSITION, MARK, ENTRY)).cost;
}

static void print_list(const struct record *record) {
    uint8_t rows[KV_ROWS * K];
    uint16_t scores[KV_ROWS];
    size_t count = accepted(kv_matrix_list(
        N, record->cost, record->totals, KV_POSITIONS, record->entries, KV_ENTRIES, K, KV_LIMIT,
        rows, sizeof rows, scores, KV_ROWS)).count;
    printf("cost %zu, listed %zu\n", record->cost, count);
    for (size_t r = 0; r < count; r++) {
        printf("score %d message %x%x\n", scores[r], rows[K * r], rows[K * r + 1]);
    }
}

int main(void) {
    struct record record = photographed();
    print_list(&record);
    correct(&record);
    print_list(&record);
    return 0;
}
