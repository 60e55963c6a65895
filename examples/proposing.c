/* Checks polynomials that are proposed for a tag, and lists its tickets by each. */
#include <stdio.h>
#include <stdlib.h>
#include "kv.h"

enum { N = 6, K = 2, LEVEL = 1, DEGREE = 2, COUNT = 6 };

/* Each mark is clear, and the fifth is wrong. */
static const uint8_t marks[N] = {1, 1, 1, 1, 5, 1};

/*
 * Of 1, x, y, x^2, xy and y^2: the box has multiplied y + 1, which passes through the marks that
 * look like 1, by x + 3, which passes through the fifth, where x is 3.
 */
static const uint8_t boxed[COUNT] = {3, 1, 3, 0, 1, 0};

static struct kv_answer accepted(struct kv_answer answer) {
    if (answer.number != 0) {
        printf("refused %d at %d\n", answer.number, answer.place);
        exit(1);
    }
    return answer;
}

static void photograph(uint8_t *matrix) {
    uint16_t reliabilities[KV_SYMBOLS * N] = {0};
    for (size_t i = 0; i < N; i++) {
        reliabilities[KV_SYMBOLS * i + marks[i]] = KV_WHOLE;
    }
    accepted(kv_multiplicities(N, LEVEL, reliabilities, KV_SYMBOLS * N, matrix, KV_SYMBOLS * N));
}

static void print_list(const uint8_t *matrix, size_t degree, const uint8_t *coefficients,
                       size_t count) {
    uint8_t rows[KV_ROWS * K];
    uint16_t scores[KV_ROWS];
    struct kv_answer answer = kv_list_of_proposal(
        N, K, KV_LIMIT, degree, matrix, KV_SYMBOLS * N, coefficients, count,
        rows, sizeof rows, scores, KV_ROWS);
    if (answer.number != 0) {
        printf("refused %d at %d\n", answer.number, answer.place);
        return;
    }
    printf("listed %d\n", answer.count);
    for (size_t r = 0; r < answer.count; r++) {
        printf("score %d message %x%x\n", scores[r], rows[K * r], rows[K * r + 1]);
    }
}

static void propose(const char *whose, const uint8_t *matrix, size_t degree,
                    const uint8_t *coefficients, size_t count) {
    int is_yes = accepted(kv_check_proposal(N, K, degree, matrix, KV_SYMBOLS * N,
                                            coefficients, count)).value;
    printf("%s: %s\n", whose, is_yes ? "yes" : "no");
    print_list(matrix, degree, coefficients, count);
}

int main(void) {
    uint8_t matrix[KV_SYMBOLS * N], own[KV_COEFFICIENTS], off[COUNT];
    photograph(matrix);
    struct kv_answer answer = accepted(
        kv_interpolate(N, K, KV_LIMIT, matrix, sizeof matrix, own, sizeof own));
    propose("the library's polynomial", matrix, answer.bound, own, answer.count);
    propose("the box's polynomial", matrix, DEGREE, boxed, COUNT);
    for (size_t j = 0; j < COUNT; j++) off[j] = boxed[j];
    off[0] = 2;
    propose("one coefficient off", matrix, DEGREE, off, COUNT);
    return 0;
}
