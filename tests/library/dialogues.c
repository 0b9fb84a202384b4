/* Random dialogues through IPASIR: clauses, assumptions and questions in turn. Models are tried on all clauses and assumptions, failed
 * assumptions by asking a fresh solver under these alone, and where there are few variables each answer is what the table of all
 * assignments says. The answers go to standard output, one digit each, so that other solvers can be asked the same.
 *
 * usage: dialogues SEED ROUNDS VARIABLES */
#include "common.h"

static int given[1 << 16];
static int count;
static int assumed[8];
static int assumptions;

static int is_true(void *solver, int literal) {
    int value = ipasir_val(solver, abs(literal));
    return value != 0 && (value > 0) == (literal > 0);
}

static void give_clauses(void *solver, int variables, table *left) {
    int clauses = (int)draw((unsigned)(2 * variables + 2));
    for (int i = 0; i < clauses; i++) {
        int begun = count, length = draw(20) == 0 ? 1 + (int)draw(2) : 1 + (int)draw(4);
        if (draw(200) == 0) length = 0;
        while (count - begun < length) {
            given[count] = draw_literal(variables);
            ipasir_add(solver, given[count++]);
        }
        if (left) leave(left, length, given + begun);
        given[count++] = 0;
        ipasir_add(solver, 0);
    }
}

static void try_model(void *solver) {
    for (int i = 0; i < count; i++) {
        int some = 0;
        for (; given[i] != 0; i++) some |= is_true(solver, given[i]);
        WANT(some);
    }
    for (int i = 0; i < assumptions; i++) WANT(is_true(solver, assumed[i]));
}

static void try_core(void *solver) {
    void *fresh = ipasir_init();
    for (int i = 0; i < count; i++) ipasir_add(fresh, given[i]);
    for (int i = 0; i < assumptions; i++)
        if (ipasir_failed(solver, assumed[i])) ipasir_assume(fresh, assumed[i]);
    WANT(ipasir_solve(fresh) == 20);
    ipasir_release(fresh);
}

static void ask(void *solver, int variables, const table *left) {
    table satisfying = all_assignments();
    if (left) satisfying = *left;
    assumptions = (int)draw(6);
    for (int i = 0; i < assumptions; i++) {
        assumed[i] = draw_literal(variables);
        ipasir_assume(solver, assumed[i]);
        if (left) leave(&satisfying, 1, assumed + i);
    }
    int answer = ipasir_solve(solver);
    WANT(answer == 10 || answer == 20);
    WANT(!left || (answer == 20) == is_empty(&satisfying));
    putchar(answer == 10 ? '1' : '2');
    if (answer == 10) try_model(solver);
    else try_core(solver);
}

int main(int words, char **word) {
    WANT(words == 4);
    seed = strtoull(word[1], NULL, 10);
    int rounds = atoi(word[2]), most = atoi(word[3]);
    for (int round = 0; round < rounds; round++) {
        void *solver = ipasir_init();
        int variables = 1 + (int)draw((unsigned)most), questions = 1 + (int)draw(12);
        table left = all_assignments();
        table *known = most <= MOST_TABLED ? &left : NULL;
        count = 0;
        while (questions-- > 0) {
            give_clauses(solver, variables, known);
            ask(solver, variables, known);
        }
        putchar('\n');
        ipasir_release(solver);
    }
    return 0;
}
