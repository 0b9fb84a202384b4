/* The literals that are true in all models of a random formula, by one question for each literal of a model, and by the table of all
 * assignments. */
#include "common.h"

#define VARIABLES MOST_TABLED

static int is_essential(const table *models, int literal) {
    table others = *models;
    int negated = -literal;
    leave(&others, 1, &negated);
    return is_empty(&others);
}

static void try_formula(int clauses) {
    table models = all_assignments();
    int model[VARIABLES];
    void *solver = ipasir_init();
    for (int i = 0; i < clauses; i++) {
        int clause[3] = {draw_literal(VARIABLES), draw_literal(VARIABLES), draw_literal(VARIABLES)};
        add_clause(solver, 3, clause);
        leave(&models, 3, clause);
    }
    WANT((ipasir_solve(solver) == 20) == is_empty(&models));
    for (int var = 1; var <= VARIABLES && !is_empty(&models); var++) model[var - 1] = ipasir_val(solver, var);
    for (int var = 1; var <= VARIABLES && !is_empty(&models); var++) {
        int literal = model[var - 1] ? model[var - 1] : var; /* a variable of no clause may have no value */
        ipasir_assume(solver, -literal);
        int answer = ipasir_solve(solver);
        WANT((answer == 20) == is_essential(&models, literal) && (answer == 10 || ipasir_failed(solver, -literal)));
        if (answer == 20) CLAUSE(solver, literal);
    }
    ipasir_release(solver);
}

int main(void) {
    for (int round = 0; round < 200; round++) try_formula(20 + (int)draw(25));
    return 0;
}
