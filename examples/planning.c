/* Plans the multiplicities of a tag, checks the plan and lists it; another plan is refused. */
#include <stdio.h>
#include <stdlib.h>
#include "kv.h"

enum { N = 6, K = 2, STEPS = 12, SEEN = 2, POSITION = 3, SYMBOL = 1 };

struct seen {
    uint8_t symbol;
    uint16_t reliability;
};

/* What the camera gives: of each mark the symbol that it looks like, and one that lies beneath. */
static const struct seen marks[N][SEEN] = {
    {{1, 3600}, {4, 400}}, {{1, 3000}, {2, 1000}}, {{1, 2500}, {4, 1500}},
    {{5, 2100}, {1, 1900}}, {{7, 2100}, {1, 1900}}, {{1, 2400}, {6, 1200}},
};

static uint16_t reliabilities[KV_SYMBOLS * N];

static struct kv_answer accepted(struct kv_answer answer) {
    if (answer.number != 0) {
        printf("refused %d at %d\n", answer.number, answer.place);
        exit(1);
    }
    return answer;
}

static void photograph(void) {
    for (size_t i = 0; i < N; i++) {
        for (size_t j = 0; j < SEEN; j++) {
            reliabilities[KV_SYMBOLS * i + marks[i][j].symbol] = marks[i][j].reliability;
        }
    }
}

/* Of each mark the symbols that the plan has, and how often each was raised. */
static void print_plan(const uint8_t *plan, size_t steps) {
    size_t cost = accepted(kv_cost_and_bound(N, K, plan, KV_SYMBOLS * N)).cost;
    printf("steps %zu, cost %zu\n", steps, cost);
    for (size_t i = 0; i < N; i++) {
        printf("mark %zu:", i);
        for (size_t b = 0; b < KV_SYMBOLS; b++) {
            if (plan[KV_SYMBOLS * i + b] > 0) printf(" %zx %d", b, plan[KV_SYMBOLS * i + b]);
        }
        printf("\n");
    }
}

static void print_list(const uint8_t *plan) {
    uint8_t rows[KV_ROWS * K];
    uint16_t scores[KV_ROWS];
    struct kv_answer answer = kv_list_of_plan(
        N, K, KV_LIMIT, STEPS, reliabilities, KV_SYMBOLS * N, plan, KV_SYMBOLS * N,
        rows, sizeof rows, scores, KV_ROWS);
    if (answer.number != 0) {
        printf("refused %d at %d\n", answer.number, answer.place);
        return;
    }
    printf("listed %d\n", answer.count);
    for (size_t r = 0; r < answer.count; r++) {
        printf("score %d message %x%x\n", scores[r], rows[K * r], rows[K * r + 1]);
    }
}

int main(void) {
    uint8_t plan[KV_SYMBOLS * N];
    photograph();
    accepted(kv_plan(N, STEPS, reliabilities, KV_SYMBOLS * N, plan, sizeof plan));
    size_t steps = accepted(kv_check_plan(N, STEPS, reliabilities, KV_SYMBOLS * N,
                                          plan, sizeof plan)).value;
    print_plan(plan, steps);
    print_list(plan);
    plan[KV_SYMBOLS * POSITION + SYMBOL]++;
    print_list(plan);
    return 0;
}
