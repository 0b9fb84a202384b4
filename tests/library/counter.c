/* Bounded model checking: a counter of BITS bits that may count or stay at each step comes to TARGET first after TARGET steps.
 *
 * usage: counter BITS TARGET */
#include "common.h"

static void *solver;
static int variables;

static int fresh(void) {
    return ++variables;
}

static void is_xor(int result, int a, int b) {
    CLAUSE(solver, -result, a, b);
    CLAUSE(solver, -result, -a, -b);
    CLAUSE(solver, result, -a, b);
    CLAUSE(solver, result, a, -b);
}

static void is_and(int result, int a, int b) {
    CLAUSE(solver, -result, a);
    CLAUSE(solver, -result, b);
    CLAUSE(solver, result, -a, -b);
}

/* The bits after a step, in which an input says whether it counts. */
static void step(int bits, int *bit) {
    int carry = fresh();
    for (int i = 0; i < bits; i++) {
        int next = fresh(), over = fresh();
        is_xor(next, bit[i], carry);
        is_and(over, bit[i], carry);
        bit[i] = next;
        carry = over;
    }
}

int main(int words, char **word) {
    WANT(words == 3);
    int bits = atoi(word[1]), target = atoi(word[2]), bit[32];
    solver = ipasir_init();
    for (int i = 0; i < bits; i++) {
        bit[i] = fresh();
        CLAUSE(solver, -bit[i]);
    }
    for (int steps = 0; steps <= target; steps++) {
        int reached = fresh();
        for (int i = 0; i < bits; i++) CLAUSE(solver, -reached, target >> i & 1 ? bit[i] : -bit[i]);
        ipasir_assume(solver, reached);
        WANT(ipasir_solve(solver) == (steps < target ? 20 : 10));
        WANT(steps == target || ipasir_failed(solver, reached));
        if (steps < target) CLAUSE(solver, -reached);
        step(bits, bit);
    }
    ipasir_release(solver);
    return 0;
}
