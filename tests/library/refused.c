/* A dialogue with its Nth request for memory refused, for N from 1 until none is: that one alone, and all from it on. What is answered
 * is right, and after a refusal nothing is. How many requests there are goes to standard output. Linked with
 * -Wl,--wrap=malloc,--wrap=calloc,--wrap=realloc. */
#include "common.h"

void *__real_malloc(size_t size);
void *__real_calloc(size_t count, size_t size);
void *__real_realloc(void *block, size_t size);

static long asked, refused;
static int from_it_on;

static int is_refused(void) {
    asked++;
    return asked == refused || (from_it_on && refused > 0 && asked > refused);
}

void *__wrap_malloc(size_t size) {
    return is_refused() ? NULL : __real_malloc(size);
}

void *__wrap_calloc(size_t count, size_t size) {
    return is_refused() ? NULL : __real_calloc(count, size);
}

void *__wrap_realloc(void *block, size_t size) {
    return is_refused() ? NULL : __real_realloc(block, size);
}

/* The answer to the question that was put: the right one, or none from a refusal on. */
static void ask(void *solver, int right) {
    mal *handle = mal_of_ipasir(solver);
    int was_refused = handle && mal_refusal(handle) != MAL_TAKEN, answer = ipasir_solve(solver);
    WANT(answer == right || answer == 0);
    if (!handle) return;
    WANT(!was_refused || answer == 0);
    WANT((answer == 0) == (mal_refusal(handle) == MAL_OUT_OF_MEMORY));
    WANT(mal_run(handle, 1) == (answer == 0 ? -1 : answer));
    if (answer == 0) WANT(ipasir_val(solver, 1) == 0 && ipasir_failed(solver, 1) == 0 && mal_lines(handle) == 0);
    if (answer == 10) WANT(ipasir_val(solver, 1) == 1 && ipasir_val(solver, 20) == 20);
}

static void talk(int proving) {
    void *solver = ipasir_init();
    if (solver && proving) mal_proof_on(mal_of_ipasir(solver));
    for (int i = 1; i < 20; i++) CLAUSE(solver, -i, i + 1);
    ipasir_assume(solver, 1);
    ask(solver, 10);
    ipasir_assume(solver, 1), ipasir_assume(solver, -20);
    ask(solver, 20);
    ipasir_assume(solver, 5), ipasir_assume(solver, -5);
    ask(solver, 20);
    add_pigeons(solver, 4);
    ask(solver, 20);
    CLAUSE(solver, 1);
    ask(solver, 20);
    ipasir_release(solver);
}

int main(void) {
    for (int way = 0; way < 4; way++) {
        from_it_on = way % 2;
        for (refused = 1;; refused++) {
            asked = 0;
            talk(way / 2);
            if (asked < refused) break;
        }
        WANT(refused > 20); /* requests are seen */
        printf("%s, %s: %ld requests\n", way / 2 ? "with proofs" : "without proofs", way % 2 ? "all from it on" : "it alone", refused - 1);
        fflush(stdout);
    }
    return 0;
}
