/* What a client keeps of a solver to check its answers: the clauses that it gave. A model has to satisfy them, and a refutation is
 * written with them as an input of `mal check`. */
#ifndef CLAIMS_H
#define CLAIMS_H

#include "common.h"

static int given[1 << 18];
static int count, clauses;

/* Gives a literal or 0 to a solver. */
static inline void give(mal *solver, int literal) {
    WANT(count < (int)(sizeof given / sizeof *given));
    given[count++] = literal;
    clauses += literal == 0;
    mal_add(solver, literal);
}

/* Whether the solver's model satisfies all clauses. */
static inline int has_model(mal *solver) {
    int satisfied = 0;
    for (int i = 0; i < count; i++) {
        if (given[i] != 0) {
            satisfied |= mal_val(solver, given[i]) == given[i];
        } else {
            if (!satisfied) return 0;
            satisfied = 0;
        }
    }
    return 1;
}

static inline void write_proof_line(FILE *out, mal *solver, size_t n) {
    int64_t few[1];
    size_t numbers = mal_line(solver, n, few, 1);
    int64_t *line = calloc(numbers, sizeof *line);
    WANT(line && mal_line(solver, n, line, numbers) == numbers && line[0] == few[0] && line[0] == clauses + 1 + (int64_t)n);
    for (size_t i = 0; i < numbers; i++) fprintf(out, "%lld%c", (long long)line[i], i + 1 < numbers ? ' ' : '\n');
    free(line);
}

/* Writes the refutation of the clauses under those of the assumptions that failed, as the file of this number in a folder. */
static inline void write_claim(const char *folder, int number, mal *solver, int variables, int assumptions, const int *assumed) {
    char path[4096];
    snprintf(path, sizeof path, "%s/%d", folder, number);
    FILE *out = fopen(path, "w");
    WANT(out != NULL);
    fprintf(out, "p cnf %d %d\n", variables, clauses);
    for (int i = 0; i < count; i++) fprintf(out, "%d%c", given[i], given[i] ? ' ' : '\n');
    fprintf(out, "a ");
    for (int i = 0; i < assumptions; i++) {
        int again = 0;
        for (int j = 0; j < i; j++) again |= assumed[j] == assumed[i];
        if (!again && mal_failed(solver, assumed[i])) fprintf(out, "%d ", assumed[i]);
    }
    fprintf(out, "0\nproof\n");
    for (size_t n = 0; n < mal_lines(solver); n++) write_proof_line(out, solver, n);
    WANT(fclose(out) == 0);
}

#endif
