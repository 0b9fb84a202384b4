/* IPASIR, the interface of incremental SAT solvers, as libmal has it (mal.h says what it promises, and what it wants of its caller).
 *
 * Where an input was refused (a literal of no variable from 1 to 65,536, a question within a clause, out of memory), ipasir_solve
 * gives 0 from then on, and mal_refusal of mal.h tells why. Every call on a null solver does nothing, and gives 0. */
#ifndef MAL_IPASIR_H
#define MAL_IPASIR_H

#ifdef MAL_NO_HEADERS
typedef __INT32_TYPE__ int32_t;
#else
#include <stdint.h>
#endif

#ifdef __cplusplus
extern "C" {
#endif

/* The solver's name: "mal". */
const char *ipasir_signature(void);

/* A solver that was given nothing; null when out of memory. */
void *ipasir_init(void);

/* Gives back all memory of a solver. */
void ipasir_release(void *solver);

/* Puts a literal into the open clause; 0 ends the clause. */
void ipasir_add(void *solver, int32_t lit_or_zero);

/* Assumes a literal for the next ipasir_solve alone. */
void ipasir_assume(void *solver, int32_t lit);

/* 10 where all clauses and assumptions are satisfied, 20 where nothing satisfies them, 0 where `terminate` said so or an input was
 * refused. */
int ipasir_solve(void *solver);

/* After a 10, until the next input: lit where it is true, -lit where it is false, and 0 where its variable is above all that were
 * named. */
int32_t ipasir_val(void *solver, int32_t lit);

/* After a 20, until the next input: 1 where the assumption is one of those that failed, else 0. */
int ipasir_failed(void *solver, int32_t lit);

/* Sets what is asked before each slice of 1,000 steps; where it gives a number that is not 0, ipasir_solve gives 0. Null asks
 * nothing. */
void ipasir_set_terminate(void *solver, void *data, int (*terminate)(void *data));

/* Takes the callback and never calls it: derived clauses are told by mal_line of mal.h alone, those of a refutation. */
void ipasir_set_learn(void *solver, void *data, int max_length, void (*learn)(void *data, int32_t *clause));

#ifdef __cplusplus
}
#endif

#endif
