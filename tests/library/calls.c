/* Each call of both headers, in each state and with each misuse. */
#include <limits.h>

#include "common.h"

static const int32_t no_literals[] = {INT32_MIN, INT32_MAX, 65537, -65537, 1 << 30, -(1 << 30)};
#define NO_LITERALS ((int)(sizeof no_literals / sizeof *no_literals))

static void clause(mal *solver, int a, int b) {
    if (a) mal_add(solver, a);
    if (b) mal_add(solver, b);
    mal_add(solver, 0);
}

/* The answer to the question that was put; a search this small needs few slices. */
static int32_t answer(mal *solver) {
    WANT(mal_begin(solver));
    WANT(mal_run(solver, 0) == 0 || mal_run(solver, 0) == 20);
    return mal_run(solver, 1000);
}

/* What every state without a model or a core answers. */
static void has_no_answer(mal *solver) {
    int64_t out[4] = {7, 7, 7, 7};
    for (int i = 0; i < NO_LITERALS; i++) WANT(mal_val(solver, no_literals[i]) == 0 && !mal_failed(solver, no_literals[i]));
    WANT(mal_val(solver, 0) == 0 && mal_val(solver, 1) == 0 && mal_val(solver, -1) == 0);
    WANT(!mal_failed(solver, 0) && !mal_failed(solver, 1) && !mal_failed(solver, -1));
    WANT(mal_lines(solver) == 0 && mal_line(solver, 0, out, 4) == 0 && out[0] == 7);
}

static void is_refused(mal *solver, uint32_t cause) {
    for (int i = 0; i < 3; i++) {
        WANT(mal_refusal(solver) == cause && !mal_begin(solver) && mal_run(solver, 10) == -1 && mal_run(solver, 0) == -1);
        has_no_answer(solver);
        WANT(!mal_proof_on(solver));
        clause(solver, 1, 0);
        mal_assume(solver, 0); /* the first cause stays */
    }
}

/* None: nothing is done, and nothing is known. */
static void try_none(void) {
    mal none = {NULL};
    mal_add(&none, 1);
    mal_add(&none, 0);
    mal_assume(&none, 1);
    WANT(!mal_begin(&none) && mal_run(&none, 10) == -1 && mal_refusal(&none) == MAL_TAKEN && !mal_proof_on(&none));
    has_no_answer(&none);
    mal_release(&none);
    WANT(none.at == NULL);
}

static void try_states(void) {
    mal solver = {NULL};
    mal_init(&solver);
    WANT(solver.at != NULL && mal_run(&solver, 10) == 0 && mal_refusal(&solver) == MAL_TAKEN);
    has_no_answer(&solver);
    WANT(answer(&solver) == 10 && mal_val(&solver, 1) == 0); /* no clause, no variable */

    clause(&solver, 1, 2);
    WANT(mal_run(&solver, 10) == 0);
    has_no_answer(&solver);
    WANT(answer(&solver) == 10 && mal_run(&solver, 10) == 10 && mal_run(&solver, 0) == 10);
    WANT(mal_val(&solver, 1) == 1 || mal_val(&solver, 2) == 2);
    WANT(mal_val(&solver, -1) == 1 || mal_val(&solver, -1) == -1);
    WANT((mal_val(&solver, 1) == 1) == (mal_val(&solver, -1) == 1));
    WANT(mal_val(&solver, 3) == 0 && mal_val(&solver, 0) == 0 && mal_val(&solver, INT32_MIN) == 0);
    WANT(!mal_failed(&solver, 1) && mal_lines(&solver) == 0 && mal_refusal(&solver) == MAL_TAKEN);
    mal_release(&solver);
}

static void try_assumptions(void) {
    mal solver = {NULL};
    mal_init(&solver);
    clause(&solver, 1, 2);
    WANT(answer(&solver) == 10);
    mal_assume(&solver, -1);
    has_no_answer(&solver);
    mal_assume(&solver, -2), mal_assume(&solver, -2), mal_assume(&solver, 3);
    WANT(answer(&solver) == 20 && mal_run(&solver, 10) == 20);
    WANT(mal_failed(&solver, -1) && mal_failed(&solver, -2) && !mal_failed(&solver, 1) && !mal_failed(&solver, 3));
    WANT(!mal_failed(&solver, 0) && !mal_failed(&solver, INT32_MIN) && mal_val(&solver, 1) == 0 && mal_lines(&solver) == 0);

    mal_assume(&solver, -1); /* alone: those before are gone */
    WANT(!mal_failed(&solver, -2) && answer(&solver) == 10 && mal_val(&solver, 1) == -1 && mal_val(&solver, -2) == 2);
    WANT(answer(&solver) == 10); /* and so is this one */
    clause(&solver, -2, 0);
    WANT(answer(&solver) == 10 && mal_val(&solver, 1) == 1 && mal_val(&solver, 2) == -2);

    mal_assume(&solver, 3), mal_assume(&solver, -3), mal_assume(&solver, 1);
    WANT(answer(&solver) == 20 && mal_failed(&solver, 3) && mal_failed(&solver, -3) && !mal_failed(&solver, 1));
    WANT(mal_lines(&solver) == 0 && answer(&solver) == 10);

    clause(&solver, 0, 0); /* the empty clause is for good */
    WANT(answer(&solver) == 20 && !mal_failed(&solver, 1));
    clause(&solver, 1, 0);
    WANT(answer(&solver) == 20);
    mal_init(&solver); /* a new one in its place */
    WANT(solver.at != NULL && answer(&solver) == 10);
    mal_release(&solver);
    WANT(solver.at == NULL && mal_run(&solver, 1) == -1);
    mal_release(&solver);
}

static void try_clauses(void) {
    mal solver = {NULL};
    mal_init(&solver);
    clause(&solver, 1, -1);
    WANT(answer(&solver) == 10 && abs(mal_val(&solver, 1)) == 1);
    clause(&solver, 2, 2);
    WANT(answer(&solver) == 10 && mal_val(&solver, 2) == 2);
    clause(&solver, 65536, -65535);
    mal_assume(&solver, 65535);
    WANT(answer(&solver) == 10 && mal_val(&solver, 65536) == 65536 && mal_val(&solver, -65535) == 65535);
    WANT(mal_val(&solver, 65537) == 0 && mal_val(&solver, INT32_MAX) == 0);
    mal_release(&solver);
}

static void try_refused(void) {
    mal solver = {NULL};
    for (int i = 0; i < 2 * NO_LITERALS; i++) {
        mal_init(&solver);
        clause(&solver, 1, 0);
        if (i % 2) mal_add(&solver, no_literals[i / 2]);
        else mal_assume(&solver, no_literals[i / 2]);
        is_refused(&solver, MAL_NO_LITERAL);
    }
    mal_init(&solver);
    WANT(answer(&solver) == 10);
    mal_assume(&solver, 0);
    is_refused(&solver, MAL_NO_LITERAL);
    mal_init(&solver);
    mal_add(&solver, 1);
    WANT(!mal_begin(&solver));
    is_refused(&solver, MAL_CLAUSE_OPEN);
    mal_release(&solver);
}

static void try_proofs(void) {
    mal solver = {NULL};
    int64_t out[16];
    mal_init(&solver);
    WANT(mal_proof_on(&solver) && mal_proof_on(&solver));
    clause(&solver, 1, 2), clause(&solver, -1, 0);
    WANT(!mal_proof_on(&solver)); /* too late to turn on, and still on */
    mal_assume(&solver, -2);
    WANT(answer(&solver) == 20 && mal_failed(&solver, -2) && mal_lines(&solver) >= 1);
    size_t lines = mal_lines(&solver), count = mal_line(&solver, lines - 1, out, 16);
    WANT(count >= 6 && out[0] == 2 + (int64_t)lines && out[1] == 2 && out[2] == 0 && out[count - 1] == 0);
    int64_t cut[2] = {7, 7};
    WANT(mal_line(&solver, lines - 1, cut, 0) == count && cut[0] == 7);
    WANT(mal_line(&solver, lines - 1, cut, 1) == count && cut[0] == out[0] && cut[1] == 7);
    WANT(mal_line(&solver, lines, out, 16) == 0 && mal_line(&solver, SIZE_MAX, out, 16) == 0);
    mal_assume(&solver, 2), mal_assume(&solver, -2);
    WANT(answer(&solver) == 20 && mal_lines(&solver) == 0);
    mal_init(&solver);
    mal_assume(&solver, 1);
    WANT(!mal_proof_on(&solver)); /* an assumption was given */
    mal_release(&solver);
}

static int never(void *data) {
    (void)data;
    return 0;
}

static void never_told(void *data, int32_t *literals) {
    (void)data, (void)literals;
    WANT(0);
}

static void try_ipasir(void) {
    WANT(strcmp(ipasir_signature(), "mal") == 0);
    void *solver = ipasir_init();
    WANT(solver && ipasir_solve(solver) == 10 && ipasir_val(solver, 1) == 0 && ipasir_failed(solver, 1) == 0);
    ipasir_set_learn(solver, NULL, 10, never_told);
    ipasir_set_terminate(solver, NULL, never);
    CLAUSE(solver, 1, 2);
    ipasir_assume(solver, -1);
    WANT(ipasir_solve(solver) == 10 && ipasir_val(solver, 2) == 2 && ipasir_val(solver, -2) == 2 && ipasir_val(solver, 1) == -1);
    ipasir_assume(solver, -1), ipasir_assume(solver, -2);
    WANT(ipasir_solve(solver) == 20 && ipasir_failed(solver, -1) == 1 && ipasir_failed(solver, 1) == 0);
    ipasir_set_terminate(solver, NULL, NULL);
    WANT(ipasir_solve(solver) == 10 && mal_refusal(mal_of_ipasir(solver)) == MAL_TAKEN);
    ipasir_add(solver, 3);
    WANT(ipasir_solve(solver) == 0 && ipasir_solve(solver) == 0);
    WANT(mal_refusal(mal_of_ipasir(solver)) == MAL_CLAUSE_OPEN && ipasir_val(solver, 1) == 0);
    ipasir_release(solver);
    for (int i = 0; i < NO_LITERALS; i++) {
        solver = ipasir_init();
        ipasir_add(solver, no_literals[i]), ipasir_add(solver, 0);
        WANT(ipasir_solve(solver) == 0 && ipasir_val(solver, no_literals[i]) == 0 && ipasir_failed(solver, no_literals[i]) == 0);
        ipasir_release(solver);
    }
    ipasir_add(NULL, 1), ipasir_assume(NULL, 1), ipasir_release(NULL);
    ipasir_set_terminate(NULL, NULL, never), ipasir_set_learn(NULL, NULL, 1, never_told);
    WANT(ipasir_solve(NULL) == 0 && ipasir_val(NULL, 1) == 0 && ipasir_failed(NULL, 1) == 0 && mal_of_ipasir(NULL) == NULL);
}

int main(void) {
    try_none();
    try_states();
    try_assumptions();
    try_clauses();
    try_refused();
    try_proofs();
    try_ipasir();
    return 0;
}
