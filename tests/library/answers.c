/* A solver that is asked again and again, with the same clauses and without proofs, takes no more memory for its last answers than for
 * its first ones: it has nothing new to keep. The time of the last answers is not looked at but for the limit of the script. Linked with
 * -Wl,--wrap=malloc,--wrap=calloc,--wrap=realloc,--wrap=free.
 *
 * usage: answers COUNT */
#include <malloc.h>

#include "common.h"

void *__real_malloc(size_t size);
void *__real_calloc(size_t count, size_t size);
void *__real_realloc(void *block, size_t size);
void __real_free(void *block);

static size_t held; /* bytes */

static void *counted(void *block) {
    held += malloc_usable_size(block);
    return block;
}

void *__wrap_malloc(size_t size) {
    return counted(__real_malloc(size));
}

void *__wrap_calloc(size_t count, size_t size) {
    return counted(__real_calloc(count, size));
}

void *__wrap_realloc(void *block, size_t size) {
    size_t before = malloc_usable_size(block);
    void *moved = __real_realloc(block, size);
    if (!moved && size > 0) return NULL;
    held -= before;
    return counted(moved);
}

void __wrap_free(void *block) {
    held -= malloc_usable_size(block);
    __real_free(block);
}

/* What is asked: a model, failed assumptions, or clauses that were refuted without assumptions, by propagation alone or by a search. */
enum kind { SATISFIABLE, FAILED, PROPAGATED, SEARCHED };

static const char *const names[] = {"10", "20", "20 by propagation", "20 by search"};

/* So many questions, of ten different ones. */
static void ask(void *solver, long count, enum kind kind) {
    for (long i = 0; i < count; i++) {
        int first = 1 + (int)(i % 10);
        ipasir_assume(solver, first);
        if (kind == FAILED) ipasir_assume(solver, -20);
        WANT(ipasir_solve(solver) == (kind == SATISFIABLE ? 10 : 20));
        WANT(kind == SATISFIABLE || ipasir_failed(solver, first) == (kind == FAILED));
    }
}

static void try_answers(long count, enum kind kind) {
    void *solver = ipasir_init();
    if (kind == SEARCHED) add_pigeons(solver, 5);
    for (int i = 1; i < 20 && kind != SEARCHED; i++) CLAUSE(solver, -i, i + 1);
    if (kind == PROPAGATED) CLAUSE(solver, 1), CLAUSE(solver, -20);
    if (kind >= PROPAGATED) WANT(ipasir_solve(solver) == 20);
    ask(solver, 1000, kind);
    size_t before = held;
    ask(solver, count, kind);
    printf("%ld answers %s: %zu bytes at first, %zu at last\n", count, names[kind], before, held);
    fflush(stdout);
    WANT(held <= before + before / 2);
    ipasir_release(solver);
    WANT(held == 0);
}

int main(int words, char **word) {
    WANT(words == 2);
    setvbuf(stdout, NULL, _IONBF, 0);
    for (enum kind kind = SATISFIABLE; kind <= SEARCHED; kind++) try_answers(atol(word[1]), kind);
    return 0;
}
