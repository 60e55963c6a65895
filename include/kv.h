/*
 * The proved Reed-Solomon library, archive libkv.a.
 *
 * Symbols are 0 to 15, polynomials over bits modulo x^4 + x + 1; alpha is 2. n is the number of
 * positions, k the number of message symbols. Any number may come in: every call ends.
 *
 * What the caller owes: a pointer and its length are memory that is there, aligned for its type and
 * not changed by others during the call; lent output overlaps no input and no other output. Where a
 * length is 0 nothing is read or written, and its pointer may be NULL.
 *
 * Inputs are never changed, but for a record that is edited. A refused call changes no lent memory:
 * it answers its number, its place, and 0 in every other field. The place is 0 unless an entry below
 * says otherwise. Refusals are tried in the order in which they are listed, and the first that holds
 * is given.
 *
 * Calls may run side by side in several threads, each with output of its own. A call's working
 * memory is its own, on the stack: 64 KiB are enough for an interpolation and for a list, 24 KiB for
 * kv_roots, 10 KiB for the check of a proposal and 4 KiB for every other call, on x86-64.
 */
#ifndef KV_H
#define KV_H

#include <stddef.h>
#include <stdint.h>

#ifdef __cplusplus
extern "C" {
#endif

/* The version, as kv.pc has it. KV_VERSION is one number to compare: that of 0.2.0 is 200. */
#define KV_VERSION_MAJOR 0
#define KV_VERSION_MINOR 2
#define KV_VERSION_PATCH 0
#define KV_VERSION (10000 * KV_VERSION_MAJOR + 100 * KV_VERSION_MINOR + KV_VERSION_PATCH)

/*
 * What the number of an answer says; each entry tells which it gives, and when. Other numbers may
 * come with later versions, and are refusals too.
 */
enum {
    KV_ACCEPTED = 0,         /* the call is not refused */
    KV_REFUSED_SIZES = 1,    /* n, k, a position or a symbol out of range, records of unequal n */
    KV_REFUSED_SETTING = 2,  /* level, limit, steps, degree, lead out of range, unequal settings */
    KV_REFUSED_LENGTH = 3,   /* a wrong length, rows that are no list, a record held wrong */
    KV_REFUSED_ROOM = 4,     /* lent output is too short */
    KV_REFUSED_SYMBOL = 5,   /* a symbol or coefficient above 15, a multiplicity above KV_LEVEL */
    KV_REFUSED_COLUMN = 6,   /* the reliabilities of a position sum to more than KV_WHOLE */
    KV_REFUSED_COST = 7,     /* the matrix costs more than the limit */
    KV_REFUSED_ZERO = 8,     /* 0 has no inverse, or all coefficients are 0 */
    KV_REFUSED_PLAN = 9,     /* the plan is another than kv_plan writes */
    KV_REFUSED_PROPOSAL = 10 /* the polynomial is 0, or does not pass as the matrix says */
};

/* The limits. */
enum {
    KV_SYMBOLS = 16,       /* so many symbols there are */
    KV_POSITIONS = 15,     /* the most positions */
    KV_ENTRIES = 240,      /* those of a record: KV_SYMBOLS for each of KV_POSITIONS */
    KV_WHOLE = 4096,       /* the most that a position's reliabilities sum to */
    KV_LEVEL = 5,          /* the greatest level, and the greatest entry of a matrix */
    KV_LIMIT = 225,        /* the greatest limit on a matrix's cost */
    KV_STEPS = 75,         /* the most steps that a plan is asked for */
    KV_COEFFICIENTS = 246, /* the room that kv_interpolate asks for */
    KV_MONOMIALS = 256,    /* the most monomials, each with its coefficient, that come in */
    KV_ROWS = 20           /* the most rows of a list, and the room that it asks for */
};

/* What the counter does. */
enum {
    KV_OPEN = 1,   /* opens the pouch: one ticket stands out */
    KV_ASK = 2,    /* asks a person */
    KV_NOTHING = 3 /* has no ticket */
};

/* A field that an entry does not mention is 0. */
struct kv_answer {
    uint16_t number; /* the refusal's number, 0 where the call is not refused */
    uint16_t place;  /* of the refusal */
    uint16_t count;  /* of the entries written */
    uint16_t value;
    uint16_t cost;
    uint16_t bound;
};

/* What the counter's entries answer: a place in a long list does not fit sixteen bits. */
struct kv_verdict {
    uint64_t place;  /* of the refusal */
    uint16_t number; /* the refusal's number, 0 where the call is not refused */
    uint16_t value;
    uint16_t count;
};

/*
 * value: a + b, a symbol.
 * Refusals: 5 where an operand is above 15, place 0 for a, 1 for b, a first.
 */
struct kv_answer kv_sum(uint8_t a, uint8_t b);

/*
 * value: a times b, a symbol.
 * Refusals: 5 where an operand is above 15, place 0 for a, 1 for b, a first.
 */
struct kv_answer kv_product(uint8_t a, uint8_t b);

/*
 * value: the symbol whose product with a is 1.
 * Refusals: 5 where a is above 15; 8 where a is 0.
 */
struct kv_answer kv_inverse(uint8_t a);

/*
 * count: n.
 * Memory: out[i], for i from 0 to n-1, is the message's polynomial at alpha^i, message[j] being the
 * coefficient of x^j; out from n on stays.
 * Refusals: 1 unless 2 <= k <= n <= 15; 3 where message_len is not k; 4 where out_len is below n;
 * 5 where a message symbol is above 15, place its index, the first one's.
 */
struct kv_answer kv_encode(size_t n, size_t k,
                           const uint8_t *message, size_t message_len,
                           uint8_t *out, size_t out_len);

/*
 * count: 16n.
 * Memory: position i, symbol b lies at 16i + b in both lists. out[j], for j from 0 to 16n-1, is the
 * whole part of level * reliabilities[j] / 4096, whatever its position's numbers sum to; out from
 * 16n on stays. An erased mark is sixteen zeros, and its multiplicities are zeros.
 * Refusals: 1 unless 2 <= n <= 15; 2 unless 1 <= level <= KV_LEVEL; 3 where reliabilities_len, in
 * numbers, is not 16n; 4 where out_len is below 16n; 6 where a position's sixteen reliabilities sum
 * to more than KV_WHOLE, place that position, the first one's.
 */
struct kv_answer kv_multiplicities(size_t n, size_t level,
                                   const uint16_t *reliabilities, size_t reliabilities_len,
                                   uint8_t *out, size_t out_len);

/*
 * A plan starts from all zeros and takes so many steps. Each raises by one the entry whose
 * reliability / (entry + 1) is the largest, compared exactly, of equal ones that of the lowest
 * index. At a step whose best entry has reliability 0, or already stands at KV_LEVEL, it stops.
 * count: 16n.
 * value: the steps done, which are the sum of all entries.
 * Memory: position i, symbol b lies at 16i + b in both lists. out[j], for j from 0 to 16n-1, is the
 * plan's entry for reliabilities[j]; out from 16n on stays.
 * Refusals: 1 unless 2 <= n <= 15; 2 where steps is above KV_STEPS; 3 where reliabilities_len, in
 * numbers, is not 16n; 4 where out_len is below 16n; 6 where a position's sixteen reliabilities sum
 * to more than KV_WHOLE, place that position, the first one's.
 */
struct kv_answer kv_plan(size_t n, size_t steps,
                         const uint16_t *reliabilities, size_t reliabilities_len,
                         uint8_t *out, size_t out_len);

/*
 * Takes a plan from outside exactly where it is what kv_plan writes for these reliabilities and
 * steps. One that stopped early is so for every greater number of steps too.
 * value: the steps done.
 * Refusals: 1 unless 2 <= n <= 15; 2 where steps is above KV_STEPS; 3 where reliabilities_len, in
 * numbers, or plan_len is not 16n; 5 where an entry of the plan is above KV_LEVEL, place its index,
 * the first one's; 6 where a position's sixteen reliabilities sum to more than KV_WHOLE, place that
 * position, the first one's; 9 where the plan is another than kv_plan writes.
 */
struct kv_answer kv_check_plan(size_t n, size_t steps,
                               const uint16_t *reliabilities, size_t reliabilities_len,
                               const uint8_t *plan, size_t plan_len);

/*
 * The matrix has the multiplicity of position i, symbol b at 16i + b.
 * cost: the sum of m(m+1)/2 over its entries m.
 * bound: the smallest D such that more than cost pairs (a, b) of numbers from 0 on have
 * a + (k-1)b <= D.
 * Refusals: 1 unless 2 <= k <= n <= 15; 3 where matrix_len is not 16n; 5 where an entry is above
 * KV_LEVEL, place its index, the first one's.
 */
struct kv_answer kv_cost_and_bound(size_t n, size_t k,
                                   const uint8_t *matrix, size_t matrix_len);

/*
 * The matrix has the multiplicity of position i, symbol b at 16i + b. The weighted degree of
 * x^a y^b is a + (k-1)b; monomials are ordered by weighted degree, then by the power of y, lower
 * first. A polynomial passes through (alpha^i, b) m times when each of its Hasse derivatives of
 * order below m is zero there.
 * bound: as kv_cost_and_bound answers it.
 * count: of the monomials of weighted degree at most bound, KV_COEFFICIENTS or fewer.
 * Memory: out[j], for j from 0 to count-1, is the coefficient of the monomial j in their order, of
 * the one polynomial that is not zero, passes through each (alpha^i, b) as often as the matrix
 * says, has the smallest leading monomial of all that do, and leading coefficient 1; out from count
 * on stays.
 * Refusals: 1 unless 2 <= k <= n <= 15; 2 where limit is above KV_LIMIT; 3 where matrix_len is not
 * 16n; 4 where out_len is below KV_COEFFICIENTS; 5 where an entry is above KV_LEVEL, place its
 * index, the first one's; 7 where the matrix's cost is above limit.
 */
struct kv_answer kv_interpolate(size_t n, size_t k, size_t limit,
                                const uint8_t *matrix, size_t matrix_len,
                                uint8_t *out, size_t out_len);

/*
 * Checks a polynomial from outside. coefficients[j] is that of the monomial j, in kv_interpolate's
 * order, and N is the number of monomials of weighted degree at most degree. The matrix has the
 * multiplicity of position i, symbol b at 16i + b, and may cost more than KV_LIMIT.
 * value: 1, a yes, where not all coefficients are 0 and the polynomial passes through each
 * (alpha^i, b) as often as the matrix says; else 0, a no.
 * Refusals: 1 unless 2 <= k <= n <= 15; 2 where N is above KV_MONOMIALS; 3 where matrix_len is not
 * 16n or coefficients_len is not N; 5 where an entry of the matrix is above KV_LEVEL, place its
 * index, or a coefficient is above 15, place 16n + its index, the first one's, the matrix before
 * the coefficients.
 */
struct kv_answer kv_check_proposal(size_t n, size_t k, size_t degree,
                                   const uint8_t *matrix, size_t matrix_len,
                                   const uint8_t *coefficients, size_t coefficients_len);

/*
 * coefficients[j] is that of the monomial j, in kv_interpolate's order, of a polynomial Q. N is the
 * number of monomials of weighted degree at most degree.
 * count: of the messages of k symbols, f being a message's polynomial, for which Q(x, f(x)) is zero
 * identically; at most the whole part of degree / (k-1).
 * Memory: out[kr + j], for r from 0 to count-1 and j from 0 to k-1, is symbol j of message r; each
 * message is there once, ordered by symbol 0, then symbol 1 and so on, smaller first; out from
 * k * count on stays.
 * Refusals: 1 unless 2 <= k <= 15; 2 where N is above KV_MONOMIALS; 3 where coefficients_len is not
 * N; 4 where out_len is below k times the whole part of degree / (k-1); 5 where a coefficient is
 * above 15, place its index, the first one's; 8 where all coefficients are 0.
 */
struct kv_answer kv_roots(size_t degree, size_t k,
                          const uint8_t *coefficients, size_t coefficients_len,
                          uint8_t *out, size_t out_len);

/*
 * The matrix has the multiplicity of position i, symbol b at 16i + b. The score of a message is the
 * sum, over positions, of the entry at its codeword's symbol.
 * count: of the messages of k symbols whose score is above the bound that kv_cost_and_bound
 * answers, KV_ROWS or fewer.
 * Memory: rows[kr + j], for r from 0 to count-1 and j from 0 to k-1, is symbol j of the message of
 * row r, and scores[r] its score; each message is there once, highest score first, equal scores
 * ordered by symbol 0, then symbol 1 and so on, smaller first; rows from k * count on and scores
 * from count on stay.
 * Refusals: 1 unless 2 <= k <= n <= 15; 2 where limit is above KV_LIMIT; 3 where matrix_len is not
 * 16n; 4 where rows_len is below KV_ROWS * k or scores_len, in numbers, below KV_ROWS; 5 where an
 * entry is above KV_LEVEL, place its index, the first one's; 7 where the matrix's cost is above
 * limit.
 */
struct kv_answer kv_list_of_multiplicities(size_t n, size_t k, size_t limit,
                                           const uint8_t *matrix, size_t matrix_len,
                                           uint8_t *rows, size_t rows_len,
                                           uint16_t *scores, size_t scores_len);

/*
 * The matrix is what kv_multiplicities writes for these reliabilities at this level.
 * count, memory: as kv_list_of_multiplicities answers and leaves them for the matrix.
 * Refusals: 1 unless 2 <= k <= n <= 15; 2 unless 1 <= level <= KV_LEVEL and limit <= KV_LIMIT; 3
 * where reliabilities_len, in numbers, is not 16n; 4 where rows_len is below KV_ROWS * k or
 * scores_len, in numbers, below KV_ROWS; 6 where a position's sixteen reliabilities sum to more than
 * KV_WHOLE, place that position, the first one's; 7 where the matrix's cost is above limit.
 */
struct kv_answer kv_list_of_reliabilities(size_t n, size_t k, size_t level, size_t limit,
                                          const uint16_t *reliabilities, size_t reliabilities_len,
                                          uint8_t *rows, size_t rows_len,
                                          uint16_t *scores, size_t scores_len);

/*
 * The matrix is a plan from outside, as kv_check_plan takes it. A plan costs at most 3 * steps, so
 * that none which is right costs more than KV_LIMIT.
 * count, memory: as kv_list_of_multiplicities answers and leaves them for the plan.
 * Refusals: 1 unless 2 <= k <= n <= 15; 2 where limit is above KV_LIMIT or steps above KV_STEPS; 3
 * where reliabilities_len, in numbers, or plan_len is not 16n; 4 where rows_len is below KV_ROWS * k
 * or scores_len, in numbers, below KV_ROWS; 5 where an entry of the plan is above KV_LEVEL, place
 * its index, the first one's; 6 where a position's sixteen reliabilities sum to more than KV_WHOLE,
 * place that position, the first one's; 7 where the plan's cost is above limit; 9 where the plan is
 * another than kv_plan writes for these reliabilities and steps.
 */
struct kv_answer kv_list_of_plan(size_t n, size_t k, size_t limit, size_t steps,
                                 const uint16_t *reliabilities, size_t reliabilities_len,
                                 const uint8_t *plan, size_t plan_len,
                                 uint8_t *rows, size_t rows_len,
                                 uint16_t *scores, size_t scores_len);

/*
 * Makes the list of a matrix from a polynomial from outside, which kv_check_proposal answers with a
 * yes and whose degree is at most the bound that kv_cost_and_bound answers for the matrix: of its
 * roots those whose score is above this bound. Whoever proposed the polynomial, they are the same.
 * count, memory: as kv_list_of_multiplicities answers and leaves them for the matrix.
 * Refusals: 1 unless 2 <= k <= n <= 15; 2 where limit is above KV_LIMIT or N, the number of
 * monomials of weighted degree at most degree, above KV_MONOMIALS; 3 where matrix_len is not 16n or
 * coefficients_len is not N; 4 where rows_len is below KV_ROWS * k or scores_len, in numbers, below
 * KV_ROWS; 5 where an entry of the matrix is above KV_LEVEL, place its index, or a coefficient is
 * above 15, place 16n + its index, the first one's, the matrix before the coefficients; 7 where the
 * matrix's cost is above limit; then 2 where degree is above the bound; 10 where kv_check_proposal
 * answers with a no.
 */
struct kv_answer kv_list_of_proposal(size_t n, size_t k, size_t limit, size_t degree,
                                     const uint8_t *matrix, size_t matrix_len,
                                     const uint8_t *coefficients, size_t coefficients_len,
                                     uint8_t *rows, size_t rows_len,
                                     uint16_t *scores, size_t scores_len);

/*
 * A matrix that is edited is kept as a record of four parts: n; cost, the sum of m(m+1)/2 over its
 * entries m; totals, of which totals[i] is the sum of the sixteen entries of position i; and
 * entries, with the multiplicity of position i, symbol b at 16i + b, and 0 from 16n on. Totals are
 * KV_POSITIONS numbers and entries KV_ENTRIES, whatever n is.
 *
 * The caller keeps all four and hands them back. Any numbers may be handed in: a record is rightly
 * held where totals_len, in numbers, is KV_POSITIONS, entries_len is KV_ENTRIES, and cost, totals
 * and the entries from 16n on are as said above. Only such a record is taken, and only such a one
 * comes out of a call that is not refused.
 *
 * The five entries from kv_matrix_fresh to kv_matrix_add write totals and entries in place, and
 * answer as cost what the caller is to keep for the record's cost from then on. An edit goes over
 * the entries to check the record, and then changes no more than it must.
 */

/*
 * cost: 0.
 * Memory: totals and entries are all 0; they may hold anything before.
 * Refusals: 1 unless 2 <= n <= 15; 3 where totals_len, in numbers, is not KV_POSITIONS or
 * entries_len is not KV_ENTRIES.
 */
struct kv_answer kv_matrix_fresh(size_t n,
                                 uint16_t *totals, size_t totals_len,
                                 uint8_t *entries, size_t entries_len);

/*
 * The matrix has the multiplicity of position i, symbol b at 16i + b.
 * cost: of the matrix.
 * Memory: entries are those of the matrix and 0 from 16n on, totals theirs; both may hold anything
 * before.
 * Refusals: 1 unless 2 <= n <= 15; 3 where matrix_len is not 16n, totals_len, in numbers, is not
 * KV_POSITIONS or entries_len is not KV_ENTRIES; 5 where an entry of the matrix is above KV_LEVEL,
 * place its index, the first one's.
 */
struct kv_answer kv_matrix_of_bytes(size_t n,
                                    const uint8_t *matrix, size_t matrix_len,
                                    uint16_t *totals, size_t totals_len,
                                    uint8_t *entries, size_t entries_len);

/*
 * cost: of the record afterwards.
 * Memory: entries[16 * position + symbol] is entry, and totals[position] follows.
 * Refusals: 1 unless 2 <= n <= 15, position < n and symbol <= 15; 3 where the record is not rightly
 * held; 5 where an entry of the record as it is, or as it would be, is above KV_LEVEL, place the
 * lowest index of one; an entry that would be overwritten counts.
 */
struct kv_answer kv_matrix_set_entry(size_t n, size_t cost,
                                     uint16_t *totals, size_t totals_len,
                                     uint8_t *entries, size_t entries_len,
                                     size_t position, size_t symbol, uint8_t entry);

/*
 * cost: of the record afterwards.
 * Memory: the sixteen entries of the position and its total are 0.
 * Refusals: 1 unless 2 <= n <= 15 and position < n; 3 where the record is not rightly held; 5 where
 * an entry is above KV_LEVEL, place its index, the first one's; one that would be cleared counts.
 */
struct kv_answer kv_matrix_clear_column(size_t n, size_t cost,
                                        uint16_t *totals, size_t totals_len,
                                        uint8_t *entries, size_t entries_len,
                                        size_t position);

/*
 * Adds the other record to the first, entry by entry. They do not overlap: to double a matrix, copy
 * it.
 * cost: of the first record afterwards.
 * Memory: each of entries is what it was and the other's at the same index, and totals follow. The
 * other record stays.
 * Refusals: 1 unless 2 <= n <= 15 and other_n is n; 3 where either record is not rightly held; 5
 * where an entry of either record, or of their sum, is above KV_LEVEL, place the lowest index of
 * one.
 */
struct kv_answer kv_matrix_add(size_t n, size_t cost,
                               uint16_t *totals, size_t totals_len,
                               uint8_t *entries, size_t entries_len,
                               size_t other_n, size_t other_cost,
                               const uint16_t *other_totals, size_t other_totals_len,
                               const uint8_t *other_entries, size_t other_entries_len);

/*
 * cost, bound: as kv_cost_and_bound answers them for the first 16n entries.
 * Refusals: 1 unless 2 <= k <= n <= 15; 3 where the record is not rightly held; 5 where an entry is
 * above KV_LEVEL, place its index, the first one's.
 */
struct kv_answer kv_matrix_cost_and_bound(size_t n, size_t cost,
                                          const uint16_t *totals, size_t totals_len,
                                          const uint8_t *entries, size_t entries_len,
                                          size_t k);

/*
 * bound, count, memory: as kv_interpolate answers and leaves them for the first 16n entries.
 * Refusals: 1 unless 2 <= k <= n <= 15; 2 where limit is above KV_LIMIT; 3 where the record is not
 * rightly held; 4 where out_len is below KV_COEFFICIENTS; 5 where an entry is above KV_LEVEL, place
 * its index, the first one's; 7 where cost is above limit.
 */
struct kv_answer kv_matrix_interpolate(size_t n, size_t cost,
                                       const uint16_t *totals, size_t totals_len,
                                       const uint8_t *entries, size_t entries_len,
                                       size_t k, size_t limit,
                                       uint8_t *out, size_t out_len);

/*
 * count, memory: as kv_list_of_multiplicities answers and leaves them for the first 16n entries.
 * Refusals: 1 unless 2 <= k <= n <= 15; 2 where limit is above KV_LIMIT; 3 where the record is not
 * rightly held; 4 where rows_len is below KV_ROWS * k or scores_len, in numbers, below KV_ROWS; 5
 * where an entry is above KV_LEVEL, place its index, the first one's; 7 where cost is above limit.
 */
struct kv_answer kv_matrix_list(size_t n, size_t cost,
                                const uint16_t *totals, size_t totals_len,
                                const uint8_t *entries, size_t entries_len,
                                size_t k, size_t limit,
                                uint8_t *rows, size_t rows_len,
                                uint16_t *scores, size_t scores_len);

/*
 * value: the steps done, as kv_check_plan answers them for the first 16n entries as the plan.
 * Refusals: 1 unless 2 <= n <= 15; 2 where steps is above KV_STEPS; 3 where reliabilities_len, in
 * numbers, is not 16n or the record is not rightly held; 5 where an entry is above KV_LEVEL, place
 * its index, the first one's; 6 where a position's sixteen reliabilities sum to more than KV_WHOLE,
 * place that position, the first one's; 9 where the first 16n entries are another plan than kv_plan
 * writes for these reliabilities and steps.
 */
struct kv_answer kv_matrix_check_plan(size_t n, size_t cost,
                                      const uint16_t *totals, size_t totals_len,
                                      const uint8_t *entries, size_t entries_len,
                                      size_t steps,
                                      const uint16_t *reliabilities, size_t reliabilities_len);

/*
 * count, memory: as kv_list_of_plan answers and leaves them for the first 16n entries as the plan.
 * Refusals: 1 unless 2 <= k <= n <= 15; 2 where limit is above KV_LIMIT or steps above KV_STEPS; 3
 * where reliabilities_len, in numbers, is not 16n or the record is not rightly held; 4 where
 * rows_len is below KV_ROWS * k or scores_len, in numbers, below KV_ROWS; 5 where an entry is above
 * KV_LEVEL, place its index, the first one's; 6 where a position's sixteen reliabilities sum to more
 * than KV_WHOLE, place that position, the first one's; 7 where cost is above limit; 9 where the
 * first 16n entries are another plan than kv_plan writes for these reliabilities and steps.
 */
struct kv_answer kv_matrix_list_of_plan(size_t n, size_t cost,
                                        const uint16_t *totals, size_t totals_len,
                                        const uint8_t *entries, size_t entries_len,
                                        size_t k, size_t limit, size_t steps,
                                        const uint16_t *reliabilities, size_t reliabilities_len,
                                        uint8_t *rows, size_t rows_len,
                                        uint16_t *scores, size_t scores_len);

/*
 * value: as kv_check_proposal answers it for the first 16n entries as the matrix.
 * Refusals: 1 unless 2 <= k <= n <= 15; 2 where N, the number of monomials of weighted degree at
 * most degree, is above KV_MONOMIALS; 3 where the record is not rightly held or coefficients_len is
 * not N; 5 where an entry is above KV_LEVEL, place its index, or a coefficient is above 15, place
 * 16n + its index, the first one's, the entries before the coefficients.
 */
struct kv_answer kv_matrix_check_proposal(size_t n, size_t cost,
                                          const uint16_t *totals, size_t totals_len,
                                          const uint8_t *entries, size_t entries_len,
                                          size_t k, size_t degree,
                                          const uint8_t *coefficients, size_t coefficients_len);

/*
 * count, memory: as kv_list_of_proposal answers and leaves them for the first 16n entries as the
 * matrix.
 * Refusals: 1 unless 2 <= k <= n <= 15; 2 where limit is above KV_LIMIT or N, the number of
 * monomials of weighted degree at most degree, above KV_MONOMIALS; 3 where the record is not
 * rightly held or coefficients_len is not N; 4 where rows_len is below KV_ROWS * k or scores_len,
 * in numbers, below KV_ROWS; 5 where an entry is above KV_LEVEL, place its index, or a coefficient
 * is above 15, place 16n + its index, the first one's, the entries before the coefficients; 7 where
 * cost is above limit; then 2 where degree is above the bound that kv_matrix_cost_and_bound
 * answers; 10 where kv_matrix_check_proposal answers with a no.
 */
struct kv_answer kv_matrix_list_of_proposal(size_t n, size_t cost,
                                            const uint16_t *totals, size_t totals_len,
                                            const uint8_t *entries, size_t entries_len,
                                            size_t k, size_t limit, size_t degree,
                                            const uint8_t *coefficients, size_t coefficients_len,
                                            uint8_t *rows, size_t rows_len,
                                            uint16_t *scores, size_t scores_len);

/*
 * The list has rows[kr + j] as symbol j of the message of row r, and scores[r] as its score. It may
 * have any number of rows; that of its scores, scores_len, says how many. It is in list order when
 * scores fall, and equal ones are ordered by the message's symbol 0, then symbol 1 and so on,
 * smaller first.
 * value: KV_NOTHING where there are no rows; KV_OPEN where there is one, or where scores[0] is at
 * least scores[1] + lead; else KV_ASK.
 * Refusals: 1 unless 2 <= k <= 15; 2 where lead is 0; 3 where rows_len is not k * scores_len, the
 * rows are not in list order, or two rows, wherever they stand, have the same message; 5 where a
 * symbol is above 15, place its index in rows, the first one's.
 */
struct kv_verdict kv_judge(size_t k,
                           const uint8_t *rows, size_t rows_len,
                           const uint16_t *scores, size_t scores_len,
                           size_t lead);

/*
 * Asked after kv_judge, with the same inputs.
 * value, count: where kv_judge answers KV_OPEN, 1 and k: the row that is opened is the first count
 * symbols of rows. Else both are 0.
 * Refusals: those of kv_judge.
 */
struct kv_verdict kv_open(size_t k,
                          const uint8_t *rows, size_t rows_len,
                          const uint16_t *scores, size_t scores_len,
                          size_t lead);

/*
 * Two lists, each as kv_judge takes it, with the n, k and level that its photograph was read with.
 * value: KV_ASK where both have rows and their first messages differ; else what kv_judge answers
 * for the first list, or for the second where the first has no rows.
 * Refusals: 1 unless 2 <= k <= n <= 15, for each list; 2 unless 1 <= level <= KV_LEVEL, for each
 * list, where lead is 0, or where n, k or level of the lists differ; 3 where either list has a
 * length, an order or a message twice that kv_judge refuses; 5 where a symbol is above 15, place its
 * index in rows, or rows_len + its index in others, the first one's, rows before others.
 */
struct kv_verdict kv_judge_both(size_t n, size_t k, size_t level,
                                const uint8_t *rows, size_t rows_len,
                                const uint16_t *scores, size_t scores_len,
                                size_t other_n, size_t other_k, size_t other_level,
                                const uint8_t *others, size_t others_len,
                                const uint16_t *other_scores, size_t other_scores_len,
                                size_t lead);

/*
 * Asked after kv_judge_both, with the same inputs.
 * value, count: where kv_judge_both answers KV_OPEN, the list that holds the row which is opened, 1
 * for the first and 2 for the second, and k: the row is the first count symbols of rows, or of
 * others. Else both are 0.
 * Refusals: those of kv_judge_both.
 */
struct kv_verdict kv_open_both(size_t n, size_t k, size_t level,
                               const uint8_t *rows, size_t rows_len,
                               const uint16_t *scores, size_t scores_len,
                               size_t other_n, size_t other_k, size_t other_level,
                               const uint8_t *others, size_t others_len,
                               const uint16_t *other_scores, size_t other_scores_len,
                               size_t lead);

#ifdef __cplusplus
}
#endif

#endif
