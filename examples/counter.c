/* Judges two photographs of a tag together: the counter opens, asks a person, or has no ticket. */
#include <stdio.h>
#include <stdlib.h>
#include "kv.h"

enum { N = 6, K = 2, LEVEL = 4, LEAD = 4 };

/* What each mark looks like, and what lies faint beneath it. */
struct marks {
    uint8_t seen[N], beneath[N];
};

struct list {
    size_t count;
    uint8_t rows[KV_ROWS * K];
    uint16_t scores[KV_ROWS];
};

static const struct marks clear = {{1, 1, 1, 1, 1, 1}, {1, 2, 4, 8, 3, 6}};
static const struct marks worn = {{1, 1, 1, 1, 1, 6}, {1, 2, 4, 8, 3, 1}};
static const struct marks scuffed = {{1, 1, 1, 1, 3, 6}, {1, 2, 4, 8, 1, 1}};
static const struct marks other = {{1, 2, 4, 8, 3, 1}, {1, 1, 1, 1, 1, 6}};
static const struct marks blurred = {{2, 7, 1, 8, 2, 8}, {3, 1, 4, 1, 5, 9}};

static void stop_where_refused(int number, unsigned long long place) {
    if (number != 0) {
        printf("refused %d at %llu\n", number, place);
        exit(1);
    }
}

/* The list of a photograph, whose camera gives three quarters to what it sees. */
static struct list listed(const struct marks *marks) {
    uint16_t reliabilities[KV_SYMBOLS * N] = {0};
    for (size_t i = 0; i < N; i++) {
        reliabilities[KV_SYMBOLS * i + marks->seen[i]] += KV_WHOLE / 4 * 3;
        reliabilities[KV_SYMBOLS * i + marks->beneath[i]] += KV_WHOLE / 4;
    }
    struct list list;
    struct kv_answer answer = kv_list_of_reliabilities(
        N, K, LEVEL, KV_LIMIT, reliabilities, KV_SYMBOLS * N, list.rows, sizeof list.rows,
        list.scores, KV_ROWS);
    stop_where_refused(answer.number, answer.place);
    list.count = answer.count;
    return list;
}

static void print_opened(const struct list *a, const struct list *b) {
    struct kv_verdict opened = kv_open_both(
        N, K, LEVEL, a->rows, K * a->count, a->scores, a->count,
        N, K, LEVEL, b->rows, K * b->count, b->scores, b->count, LEAD);
    const uint8_t *row = opened.value == 1 ? a->rows : b->rows;
    printf("open ");
    for (size_t j = 0; j < opened.count; j++) printf("%x", row[j]);
    puts("");
}

static void judge(const char *what, const struct marks *marks, const struct marks *again) {
    struct list a = listed(marks), b = listed(again);
    struct kv_verdict verdict = kv_judge_both(
        N, K, LEVEL, a.rows, K * a.count, a.scores, a.count,
        N, K, LEVEL, b.rows, K * b.count, b.scores, b.count, LEAD);
    stop_where_refused(verdict.number, verdict.place);
    printf("%s: ", what);
    switch (verdict.value) {
    case KV_OPEN: print_opened(&a, &b); break;
    case KV_ASK: puts("ask"); break;
    default: puts("nothing");
    }
}

int main(void) {
    judge("worn and clear", &worn, &clear);
    judge("scuffed and clear", &scuffed, &clear);
    judge("worn and another", &worn, &other);
    judge("blurred and clear", &blurred, &clear);
    judge("blurred twice", &blurred, &blurred);
    return 0;
}
