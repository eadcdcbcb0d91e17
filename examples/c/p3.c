/* Document 01's worked case P3: literals 1, 2, 3 with weights 1, 2, 3, bounds 2 and 3 encoded.
 *
 *   ./build-library && cc -Iinclude examples/c/p3.c target/library/libtweedpillar.a -o target/p3 && target/p3
 */
#include <stdio.h>
#include <tweedpillar.h>

static uint32_t store[8 * 14], work[TWEEDPILLAR_WORK_WORDS];
static int32_t clauses[34];

int main(void) {
    const int32_t lits[] = {1, 2, 3};
    const uint64_t weights[] = {1, 2, 3};
    tweedpillar_answered started = tweedpillar_start(lits, 3, weights, 3, 4, store, 8 * 14, clauses, 34);
    if (started.refusal) {
        printf("start: refusal %u\n", started.refusal);
        return 1;
    }
    tweedpillar_answered set = tweedpillar_set_precision(started.state, store, 8 * 14, clauses, 34, 1);
    if (set.refusal) {
        printf("set: refusal %u\n", set.refusal);
        return 1;
    }
    tweedpillar_encoded e = tweedpillar_encode_ub_change(
        set.state, store, 8 * 14, clauses, 34, work, TWEEDPILLAR_WORK_WORDS, 2, 4);
    if (e.refusal) {
        printf("encode: refusal %u\n", e.refusal);
        return 1;
    }
    printf("%zu clauses, %u fresh variables\n", e.clauses, e.variables);
    for (size_t i = 0; i < e.state.words; i++) printf(clauses[i] ? "%d " : "%d\n", clauses[i]);
    for (uint64_t u = 1; u <= 6; u++) {
        int32_t scratch[TWEEDPILLAR_ANSWER_WORDS];
        uint32_t refusal;
        size_t n = tweedpillar_enforce_ub(
            e.state, store, 8 * 14, clauses, 34, scratch, TWEEDPILLAR_ANSWER_WORDS, u, &refusal);
        printf("at most %llu:", (unsigned long long)u);
        if (refusal) printf(" refusal %u", refusal);
        else if (n == 0) printf(" nothing to assume");
        for (size_t i = 0; i < n; i++) printf(" %d", scratch[i]);
        printf("\n");
    }
    return 0;
}
