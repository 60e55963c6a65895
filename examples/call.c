/* Lists the tickets of a tag of four marks, the last of them wrong. */
#include <stdio.h>
#include "kv.h"

enum { N = 4, K = 2, LEVEL = 1 };

int main(void) {
    const uint8_t marks[N] = {1, 1, 1, 2};
    uint16_t reliabilities[KV_SYMBOLS * N] = {0};
    for (size_t i = 0; i < N; i++) {
        reliabilities[KV_SYMBOLS * i + marks[i]] = KV_WHOLE;
    }
    uint8_t rows[KV_ROWS * K];
    uint16_t scores[KV_ROWS];
    struct kv_answer answer = kv_list_of_reliabilities(
        N, K, LEVEL, KV_LIMIT, reliabilities, KV_SYMBOLS * N, rows, sizeof rows, scores, KV_ROWS);
    if (answer.number != 0) {
        printf("refused %d at %d\n", answer.number, answer.place);
        return 1;
    }
    printf("listed %d\n", answer.count);
    for (size_t r = 0; r < answer.count; r++) {
        printf("score %d message %x%x\n", scores[r], rows[K * r], rows[K * r + 1]);
    }
    return 0;
}
