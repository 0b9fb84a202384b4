/* libmal: an incremental SAT solver, proved to do what is said here.
 *
 *     mal solver = {NULL};
 *     mal_init(&solver);
 *     mal_add(&solver, 1), mal_add(&solver, 2), mal_add(&solver, 0);
 *     mal_assume(&solver, -1);
 *     if (mal_begin(&solver) && mal_run(&solver, UINT32_MAX) == 10) ... mal_val(&solver, 2) ...
 *     mal_release(&solver);
 *
 * A literal is a number of DIMACS: v for variable v, -v for its negation, with v from 1 to 65,536. Every call is defined on every
 * number and in every state; what has no meaning there gives 0 or false, or refuses the solver.
 *
 * A solver goes through these states:
 *
 *     open      nothing was asked since the last input: mal_add, mal_assume
 *     unknown   it was asked (mal_begin), and no answer is known yet
 *     model     the answer is 10: some values satisfy all clauses and all assumptions
 *     core      the answer is 20: nothing satisfies them
 *     refused   an input was lost, for good
 *
 * The next input after an answer leads back to open, and so does mal_begin on its way to unknown. The assumptions are those since
 * the last answer: with the first input after it, or with mal_begin, they are gone. Clauses stay, and what was derived of them.
 *
 * What is proved of every answer, of the contracts of the calls over the handle's value:
 *   10  mal_val gives values that satisfy every clause that was ended and every assumption.
 *   20  the literals of which mal_failed is true were assumed, and nothing satisfies the clauses under these alone: mal_line has
 *       an LRAT proof of it, where proofs are kept. Or they are both signs of a variable, and there are no lines.
 *   A refused solver never answers 10 or 20 again.
 * That an answer comes is not promised, nor how soon.
 *
 * Limits: 65,536 variables, 2^32 - 2 clauses, and of the search 2^31 restarts. All else is bounded by memory.
 *
 * Threads: solvers share nothing. Several threads may use several solvers at once, and a solver may go from thread to thread
 * (which is tested, and not proved), but
 * two calls on one solver must not run at once: a lock, or a thread's start or end, stands between them. No call starts a thread or
 * waits for one, and none may be made in a signal handler or in a forked child of a process with threads.
 *
 * Memory comes from malloc, calloc, realloc and free of the program. Without proofs it is what the clauses take, and the derived
 * ones that the search keeps; with proofs each derived clause stays until mal_release. When out of memory a solver is refused.
 *
 * What the caller has to keep, which nothing checks: each call is handed a pointer to a `mal` that was set to {NULL} before
 * the first of them; its `at` is neither changed nor used in a second `mal` too; `out` points to room for `room` numbers; and the
 * stack has some room left. */
#ifndef MAL_H
#define MAL_H

#ifdef MAL_NO_HEADERS
typedef __SIZE_TYPE__ size_t;
typedef __INT32_TYPE__ int32_t;
typedef __UINT32_TYPE__ uint32_t;
typedef __INT64_TYPE__ int64_t;
#ifndef __cplusplus
typedef _Bool bool;
#endif
#else
#include <stdbool.h>
#include <stddef.h>
#include <stdint.h>
#endif

#ifdef __cplusplus
extern "C" {
#endif

/* A solver: null `at` is none. Every call on none does nothing, and gives 0 or false; mal_run gives -1. */
typedef struct {
    void *at;
} mal;

/* Why an input was refused. */
enum {
    MAL_TAKEN = 0,         /* none was */
    MAL_NO_LITERAL = 1,    /* a number is no literal, or 0 was assumed */
    MAL_CLAUSE_OPEN = 2,   /* mal_begin came before a clause's 0 */
    MAL_LIMIT = 3,         /* there are more clauses, literals or restarts than are counted */
    MAL_OUT_OF_MEMORY = 4, /* a request for memory was refused */
};

/* Makes a solver that was given nothing, in place of the one that was there, which is released. Its `at` is null when out of
 * memory. */
void mal_init(mal *solver);

/* Gives back all memory; the solver is none then. A second time does nothing. */
void mal_release(mal *solver);

/* Has proofs kept from here on. True where nothing was given yet; else false, and all is as it was. */
bool mal_proof_on(mal *solver);

/* Puts a literal into the open clause; 0 ends the clause, which stands from then on. A clause may have a literal twice, or both
 * signs of a variable, and is counted all the same. Refuses what is no literal. */
void mal_add(mal *solver, int32_t lit_or_zero);

/* Assumes a literal for the next answer alone. Refuses 0 and what is no literal. */
void mal_assume(mal *solver, int32_t lit);

/* Asks for an answer under the assumptions since the last one. True where it may be run; false where the solver is refused, as it
 * is by this call while a clause is open. */
bool mal_begin(mal *solver);

/* Runs at most so many slices of 1,000 steps, until an answer is known: 10 (model), 20 (core), 0 where none is known yet or none
 * was asked for, -1 where the solver is refused. With 0 slices it tells the state. */
int32_t mal_run(mal *solver, uint32_t slices);

/* In the state model: lit where it is true, -lit where it is false. 0 in any other state, and where its variable is above all that
 * were named. */
int32_t mal_val(mal *solver, int32_t lit);

/* In the state core: whether lit is an assumption that failed. Else false. */
bool mal_failed(mal *solver, int32_t lit);

/* Why an input was refused, one of the numbers above: the first cause. */
uint32_t mal_refusal(mal *solver);

/* How many lines the refutation has: 0 in any state but core, without proofs, and where both signs of a variable failed. */
size_t mal_lines(mal *solver);

/* Writes the n-th line of the refutation, from 0, to out: its number, its literals, 0, the numbers of its hints, 0. That many
 * numbers are the result, of which the first `room` are written; 0 where there is no such line. Clauses have the numbers from 1
 * on, in the order of their 0, and lines the next ones. */
size_t mal_line(mal *solver, size_t n, int64_t *out, size_t room);

/* The solver that one of ipasir.h stands on, for mal_proof_on, mal_refusal and the lines. Null of null. It is let go by
 * ipasir_release alone. */
mal *mal_of_ipasir(void *solver);

#ifdef __cplusplus
}
#endif

#endif
