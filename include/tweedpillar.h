/* A weight bound for a SAT solver: weighted literals go in, clauses come out, and for a bound u the literals to assume.
 *
 * Every word is lent by the caller; the library keeps nothing between calls, allocates nothing and calls nothing. A slice
 * is a pointer and a length in elements. All that is asked of a caller: each pointer is aligned, not null, and good for its
 * length; slices that a call writes overlap no other slice of that call. Lengths may be 0, words may hold anything: what
 * is wrong with them is answered by a refusal number.
 *
 * Each function is proved to do what document 01 (docs/01-scope.md) says of the call of its name, and what each word holds
 * afterwards. docs/LAYOUT.md has the words of the store; docs/GUIDE.md says how to choose lengths and what to do at each
 * refusal.
 */
#ifndef TWEEDPILLAR_H
#define TWEEDPILLAR_H

#include <stddef.h>
#include <stdint.h>

#ifdef __cplusplus
extern "C" {
#endif

/* The refusal numbers; 0 is none. */
enum {
    TWEEDPILLAR_LISTS_DIFFER = 1,      /* literals and weights differ in length, or are over 256 lines as sent */
    TWEEDPILLAR_LITERAL = 2,           /* a literal is 0, or its variable is above 1000000000 */
    TWEEDPILLAR_LITERAL_TWICE = 3,     /* no longer given: lines of one literal are combined; the number stays reserved */
    TWEEDPILLAR_WEIGHT = 4,            /* a weight is 0 or above 1048575, or the weights of one literal add to more */
    TWEEDPILLAR_FIRST_FRESH = 5,       /* the first fresh number is 0, above 1000000000, or not above every variable */
    TWEEDPILLAR_WORK_SHORT = 6,        /* the work slice is shorter than 16384 words */
    TWEEDPILLAR_NO_ROOM = 7,           /* store, clause buffer, numbers or scratch do not suffice */
    TWEEDPILLAR_DIVISOR = 8,           /* the divisor is neither 0 nor a power of two */
    TWEEDPILLAR_DIVISOR_COARSER = 9,   /* built already, and the divisor is above the one that was set */
    TWEEDPILLAR_DIVISOR_ABOVE = 10,    /* first build with a divisor above every weight; only after a divisor was set */
    TWEEDPILLAR_NOT_ENCODED = 11,      /* the answer to this bound is not encoded */
    TWEEDPILLAR_NOT_WELL_FORMED = 12   /* state and store are not well formed: not what the calls left */
};

enum {
    TWEEDPILLAR_WORK_WORDS = 16384,    /* the least length of a work slice */
    TWEEDPILLAR_ANSWER_WORDS = 20,     /* a scratch of this length holds every answer of enforce */
    TWEEDPILLAR_RECORD_WORDS = 8       /* words of the store that one record takes */
};

/* A build, as the caller holds it between calls. It is a value: keep it, copy it, hand it to the next call as it came. */
typedef struct {
    uint32_t inputs;        /* how many inputs there are */
    uint64_t sum;           /* the weights added up */
    uint64_t set;           /* the set divisor */
    uint64_t built;         /* the built divisor, 0 until the first build */
    size_t records;         /* used records of the store */
    size_t words;           /* used words of the clause buffer */
    size_t clauses;         /* clauses written in all */
    uint32_t variables;     /* fresh variables taken in all */
    uint32_t fresh;         /* the next fresh number */
    uint32_t tares[19];     /* tare variables; tares[k] weighs 2^k in units of the built divisor */
    uint32_t tares_used;
    uint32_t buckets[20];   /* bucket nodes, the root first */
    uint32_t buckets_used;
} tweedpillar_state;

/* A refusal number, else 0, and the state. */
typedef struct {
    uint32_t refusal;
    tweedpillar_state state;
} tweedpillar_answered;

/* The same with the totals of that state. */
typedef struct {
    uint32_t refusal;
    uint32_t variables;
    size_t clauses;
    tweedpillar_state state;
} tweedpillar_encoded;

/* A refusal number, else 0, and a value, which is 0 where the call refuses. */
typedef struct {
    uint32_t refusal;
    uint64_t value;
} tweedpillar_value;

/* A new build over these lines, a literal and its weight each; fresh variables are numbered from `first` on. Its divisor is
 * the top power of two of the largest weight, 1 where there are no inputs: for bounds in single units set 1 before the first
 * encode or enforce.
 * Lines that name one literal are combined: it is one input, at the place of its first line, with their weights added up;
 * x and -x are two. Refuses 1, 2, 4, 5, then 7 where the store has fewer than 16 words an input.
 * Accepted: the store holds a record of each input and one that it waits, zeros after them; the clause buffer is all 0.
 * Refused: the state is all 0, which every later call refuses by 12; nothing is written. */
tweedpillar_answered tweedpillar_start(
    const int32_t *lits, size_t lits_len, const uint64_t *weights, size_t weights_len, uint32_t first,
    uint32_t *store, size_t store_len, int32_t *clauses, size_t clauses_len);

/* Sets the divisor of the next build or refinement; 0 is taken as 1. Refuses 12, 8, 9. Writes no lent word; refused, the
 * state is as it came. */
tweedpillar_answered tweedpillar_set_precision(
    tweedpillar_state s, const uint32_t *store, size_t store_len, const int32_t *clauses, size_t clauses_len,
    uint64_t divisor);

/* The next divisor worth setting: the top power of two of the largest weight that waits, 1 where nothing waits.
 * Refuses 12. Writes nothing. */
tweedpillar_value tweedpillar_next_precision(
    tweedpillar_state s, const uint32_t *store, size_t store_len, const int32_t *clauses, size_t clauses_len);

/* 1 where nothing waits, else 0. Refuses 12. Writes nothing. */
tweedpillar_value tweedpillar_is_max_precision(
    tweedpillar_state s, const uint32_t *store, size_t store_len, const int32_t *clauses, size_t clauses_len);

/* Encodes what enforce needs for the bounds lo to end - 1: the first build or a refinement where one is due, then the
 * outputs. The range counts in units of the built divisor, as it is then, and is never divided: while the set divisor is
 * below the built one, a bound u of enforce needs u times set over built, rounded down. Refuses 12, 6, then (unless the range is empty or there are under two inputs, which
 * is accepted with nothing done) 10, 7.
 * Where it builds, refines or defines: the used words of the store are the new records, the clause buffer keeps its used
 * words and has the new clauses after them, each clause its literals, then 0; every word past the new marks of both, and
 * the whole work slice, is 0. Where there is nothing to do it writes nothing.
 * Refused by 7: used words of store and clause buffer are as they were, all words past the old marks and the work slice
 * are 0. Refused otherwise: nothing is written. Refused, the state is as it came. */
tweedpillar_encoded tweedpillar_encode_ub_change(
    tweedpillar_state s, uint32_t *store, size_t store_len, int32_t *clauses, size_t clauses_len,
    uint32_t *work, size_t work_len, uint64_t lo, uint64_t end);

/* The literals to assume so that the clauses hold the weights of the true literals, each divided by the set divisor and
 * rounded down, to a sum of at most u: u counts in units of the set divisor. They are the first words of the scratch, as
 * many as the call returns; every other word of the scratch is as it was. *refusal is the refusal number, else 0: 12, 11,
 * 7 (scratch too short). Refused, it returns 0 and the scratch is as it was. */
size_t tweedpillar_enforce_ub(
    tweedpillar_state s, const uint32_t *store, size_t store_len, const int32_t *clauses, size_t clauses_len,
    int32_t *scratch, size_t scratch_len, uint64_t u, uint32_t *refusal);

/* The largest bound up to u whose answer needs no tare, both in units of the built divisor: u itself before the first
 * build, else one less than a multiple of the output weight, or u where that is below one. Refuses 12. Writes nothing. */
tweedpillar_value tweedpillar_coarse_ub(
    tweedpillar_state s, const uint32_t *store, size_t store_len, const int32_t *clauses, size_t clauses_len, uint64_t u);

#ifdef __cplusplus
}
#endif

#endif
