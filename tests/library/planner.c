/* A planner: the towers of Hanoi with DISCS discs, for ever longer plans, the goal under an assumption. The shortest has 2^DISCS - 1
 * moves.
 *
 * usage: planner DISCS */
#include "common.h"

#define PEGS 3

static void *solver;
static int discs;

/* Whether a disc is on a peg after so many moves, and whether it is moved by the next one. */
static int on(int moves, int disc, int peg) {
    return 1 + moves * discs * (PEGS + 1) + disc * (PEGS + 1) + peg;
}

static int moved(int moves, int disc) {
    return on(moves, disc, PEGS);
}

/* Each disc is on one peg. */
static void place(int moves) {
    for (int disc = 0; disc < discs; disc++) {
        CLAUSE(solver, on(moves, disc, 0), on(moves, disc, 1), on(moves, disc, 2));
        for (int peg = 0; peg < PEGS; peg++)
            for (int other = 0; other < peg; other++) CLAUSE(solver, -on(moves, disc, peg), -on(moves, disc, other));
    }
}

/* One disc at most is moved, the others stay, and no smaller one is where it comes from or goes to. */
static void move(int moves) {
    for (int disc = 0; disc < discs; disc++) {
        for (int other = 0; other < disc; other++) CLAUSE(solver, -moved(moves, disc), -moved(moves, other));
        for (int peg = 0; peg < PEGS; peg++) {
            CLAUSE(solver, moved(moves, disc), -on(moves, disc, peg), on(moves + 1, disc, peg));
            for (int smaller = 0; smaller < disc; smaller++) {
                CLAUSE(solver, -moved(moves, disc), -on(moves, disc, peg), -on(moves, smaller, peg));
                CLAUSE(solver, -moved(moves, disc), -on(moves + 1, disc, peg), -on(moves, smaller, peg));
            }
        }
    }
}

int main(int words, char **word) {
    WANT(words == 2);
    discs = atoi(word[1]);
    solver = ipasir_init();
    place(0);
    for (int disc = 0; disc < discs; disc++) CLAUSE(solver, on(0, disc, 0));
    for (int moves = 0; moves < 1 << discs; moves++) {
        for (int disc = 0; disc < discs; disc++) ipasir_assume(solver, on(moves, disc, 2));
        int answer = ipasir_solve(solver);
        WANT(answer == (moves < (1 << discs) - 1 ? 20 : 10));
        move(moves);
        place(moves + 1);
    }
    ipasir_release(solver);
    return 0;
}
