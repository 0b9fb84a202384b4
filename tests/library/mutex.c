/* Bounded model checking of Peterson's algorithm, in which two processes are never both in their critical section, and of the same
 * with its first two writes in the wrong order. After each number of steps the answer has to be that of a search through all states.
 * The steps of a model have to lead to such a state, and each refutation is written as an input of `mal check`, FOLDER/1, FOLDER/2
 * and so on; how many there are goes to standard output.
 *
 * usage: mutex STEPS FOLDER */
#include "claims.h"

enum { FIRST_WRITE, SECOND_WRITE, WAIT, CRITICAL, STATES = 1 << 7, MOST_STEPS = 100 };

static mal solver;
static int variables;

/* A state of the two processes: where each of them is, whether it wants to enter, and whose turn it is where both do. */
typedef struct {
    int at[2], wants[2], turn;
} state;

static state state_of(int code) {
    return (state){{code & 3, code >> 2 & 3}, {code >> 4 & 1, code >> 5 & 1}, code >> 6};
}

static int code_of(state s) {
    return s.at[0] | s.at[1] << 2 | s.wants[0] << 4 | s.wants[1] << 5 | s.turn << 6;
}

static int is_bad(state s) {
    return s.at[0] == CRITICAL && s.at[1] == CRITICAL;
}

/* The state after a step of one process. */
static state step_of(state s, int process, int swapped) {
    int at = s.at[process];
    if (at == WAIT && s.wants[!process] && s.turn != process) return s;
    if (at == (swapped ? SECOND_WRITE : FIRST_WRITE)) s.wants[process] = 1;
    if (at == (swapped ? FIRST_WRITE : SECOND_WRITE)) s.turn = !process;
    if (at == CRITICAL) s.wants[process] = 0;
    s.at[process] = (at + 1) % 4;
    return s;
}

/* From the states that are reached after so many steps to those after one more. */
static void step_all(char reached[STATES], int swapped) {
    char next[STATES] = {0};
    for (int code = 0; code < STATES; code++)
        for (int process = 0; reached[code] && process < 2; process++) next[code_of(step_of(state_of(code), process, swapped))] = 1;
    memcpy(reached, next, sizeof next);
}

static int reaches_bad(const char reached[STATES]) {
    for (int code = 0; code < STATES; code++)
        if (reached[code] && is_bad(state_of(code))) return 1;
    return 0;
}

/* The same in clauses. Each value is a literal; a place is two, the low one first. */
typedef struct {
    int at[2][2], wants[2], turn;
} literals;

static int fresh(void) {
    return ++variables;
}

static void put(int a, int b, int c) {
    if (a) give(&solver, a);
    if (b) give(&solver, b);
    if (c) give(&solver, c);
    give(&solver, 0);
}

static int and(int a, int b) {
    int both = fresh();
    put(-both, a, 0), put(-both, b, 0), put(both, -a, -b);
    return both;
}

static int or(int a, int b) {
    return -and(-a, -b);
}

static int xor(int a, int b) {
    return or(and(a, -b), and(-a, b));
}

static int is_at(const literals *s, int process, int place) {
    const int *at = s->at[process];
    return and(place & 1 ? at[0] : -at[0], place & 2 ? at[1] : -at[1]);
}

/* The literals after a step of one process, the second where `second` is true. */
static literals next_of(const literals *s, int second, int swapped) {
    literals next;
    int turned[2];
    for (int process = 0; process < 2; process++) {
        int runs = process ? second : -second;
        int other_first = and(s->wants[!process], process ? -s->turn : s->turn);
        int waits = and(is_at(s, process, WAIT), other_first);
        int moves = and(runs, -waits);
        int wanted = and(runs, is_at(s, process, swapped ? SECOND_WRITE : FIRST_WRITE));
        int left = and(runs, is_at(s, process, CRITICAL));
        turned[process] = and(runs, is_at(s, process, swapped ? FIRST_WRITE : SECOND_WRITE));
        next.wants[process] = or(wanted, and(s->wants[process], -left));
        next.at[process][0] = xor(s->at[process][0], moves);
        next.at[process][1] = xor(s->at[process][1], and(moves, s->at[process][0]));
    }
    next.turn = or(turned[0], and(s->turn, -turned[1]));
    return next;
}

static int is_true(int literal) {
    return mal_val(&solver, literal) == literal;
}

/* Whether the steps of the model, from its first state on, lead to a bad state. */
static int leads_to_bad(int turn, const int *second, int steps, int swapped) {
    state s = {{0, 0}, {0, 0}, is_true(turn)};
    for (int i = 0; i < steps; i++) s = step_of(s, is_true(second[i]), swapped);
    return is_bad(s);
}

/* Tries all numbers of steps up to one, and tells how many claims stand in the folder then. */
static int try_steps(int most, int swapped, const char *folder, int written) {
    char reached[STATES] = {0};
    int second[MOST_STEPS], found = 0;
    mal_init(&solver);
    WANT(mal_proof_on(&solver));
    count = clauses = 0;
    literals now = {{{1, 2}, {3, 4}}, {5, 6}, 7};
    int turn = variables = now.turn;
    for (int var = 1; var < turn; var++) put(-var, 0, 0);
    reached[code_of((state){{0, 0}, {0, 0}, 0})] = reached[code_of((state){{0, 0}, {0, 0}, 1})] = 1;
    for (int steps = 0; steps <= most; steps++) {
        int bad = and(is_at(&now, 0, CRITICAL), is_at(&now, 1, CRITICAL));
        mal_assume(&solver, bad);
        WANT(mal_begin(&solver));
        int answer = mal_run(&solver, UINT32_MAX);
        WANT(answer == (reaches_bad(reached) ? 10 : 20));
        if (answer == 10) {
            found++;
            WANT(is_true(bad) && has_model(&solver) && leads_to_bad(turn, second, steps, swapped));
        } else {
            write_claim(folder, ++written, &solver, variables, 1, &bad);
            put(-bad, 0, 0);
        }
        second[steps] = fresh();
        now = next_of(&now, second[steps], swapped);
        step_all(reached, swapped);
    }
    WANT((found > 0) == swapped);
    mal_release(&solver);
    return written;
}

int main(int words, char **word) {
    WANT(words == 3);
    int steps = atoi(word[1]);
    WANT(steps >= 0 && steps < MOST_STEPS);
    int written = try_steps(steps, 0, word[2], 0);
    printf("%d\n", try_steps(steps, 1, word[2], written));
    return 0;
}
