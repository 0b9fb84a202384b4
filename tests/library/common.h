/* What the clients of this folder share. Each of them ends with status 0, or says on standard error what is wrong and ends with 1. */
#ifndef COMMON_H
#define COMMON_H

#include <stdint.h>
#include <stdio.h>
#include <stdlib.h>
#include <string.h>

#include "ipasir.h"
#include "mal.h"

/* Ends the client where something is wrong. */
#define WANT(right) want((right), #right, __FILE__, __LINE__)

static inline void want(int right, const char *what, const char *file, int line) {
    if (right) return;
    fprintf(stderr, "%s:%d: not so: %s\n", file, line, what);
    exit(1);
}

/* Numbers below most, decided by the seed. */
static uint64_t seed = 1;

static inline unsigned draw(unsigned most) {
    seed = seed * 6364136223846793005ULL + 1442695040888963407ULL;
    return (unsigned)(seed >> 33) % most;
}

static inline int draw_literal(int variables) {
    int var = 1 + (int)draw((unsigned)variables);
    return draw(2) ? var : -var;
}

/* Puts a clause of so many literals. */
static inline void add_clause(void *solver, int count, const int *literals) {
    for (int i = 0; i < count; i++) ipasir_add(solver, literals[i]);
    ipasir_add(solver, 0);
}

#define CLAUSE(solver, ...) \
    add_clause(solver, (int)(sizeof((int[]){__VA_ARGS__}) / sizeof(int)), (const int[]){__VA_ARGS__})

/* One pigeon more than there are holes: nothing satisfies it, and it is hard from some eight holes on. */
static inline void add_pigeons(void *solver, int holes) {
    for (int pigeon = 0; pigeon <= holes; pigeon++) {
        for (int hole = 1; hole <= holes; hole++) ipasir_add(solver, pigeon * holes + hole);
        ipasir_add(solver, 0);
    }
    for (int hole = 1; hole <= holes; hole++)
        for (int pigeon = 0; pigeon <= holes; pigeon++)
            for (int other = 0; other < pigeon; other++) CLAUSE(solver, -(pigeon * holes + hole), -(other * holes + hole));
}

/* All assignments of at most MOST_TABLED variables as one set, a bit for each. */
#define MOST_TABLED 10
#define WORDS ((1 << MOST_TABLED) / 64)

typedef struct {
    uint64_t bits[WORDS];
} table;

static inline table all_assignments(void) {
    table all;
    memset(&all, 255, sizeof all);
    return all;
}

/* Leaves those assignments that make one of the literals true. */
static inline void leave(table *assignments, int count, const int *literals) {
    for (int word = 0; word < WORDS; word++) {
        uint64_t some = 0;
        for (int i = 0; i < count; i++) {
            static const uint64_t low[] = {0xaaaaaaaaaaaaaaaaULL, 0xccccccccccccccccULL, 0xf0f0f0f0f0f0f0f0ULL,
                                           0xff00ff00ff00ff00ULL, 0xffff0000ffff0000ULL, 0xffffffff00000000ULL};
            int var = abs(literals[i]) - 1;
            uint64_t true_in = var < 6 ? low[var] : word >> (var - 6) & 1 ? ~0ULL : 0;
            some |= literals[i] > 0 ? true_in : ~true_in;
        }
        assignments->bits[word] &= some;
    }
}

static inline int is_empty(const table *assignments) {
    uint64_t any = 0;
    for (int word = 0; word < WORDS; word++) any |= assignments->bits[word];
    return any == 0;
}

#endif
