/* Calls of mal.h drawn at random, sense and nonsense, each of which has to give what the state of the solver says: it is followed here,
 * with the set of all assignments that satisfy the clauses so far.
 *
 * usage: states SEED ROUNDS */
#include "common.h"

#define VARIABLES MOST_TABLED

static enum { OPEN, UNKNOWN, MODEL, CORE, REFUSED } state;
static uint32_t cause;
static int proving, is_given; /* whether anything was given */
static int clause[64], literals, assumed[64], assumptions;
static table left;

static void start(mal *solver) {
    mal_init(solver);
    WANT(solver->at != NULL);
    state = OPEN, cause = MAL_TAKEN;
    proving = is_given = literals = assumptions = 0;
    left = all_assignments();
    if (draw(2)) WANT(proving = mal_proof_on(solver));
}

static void refuse(uint32_t why) {
    if (state != REFUSED) cause = why;
    state = REFUSED;
}

/* An input came: the answer is over. */
static void reopen(void) {
    is_given = 1;
    if (state == OPEN || state == REFUSED) return;
    state = OPEN;
    assumptions = 0;
}

static int draw_number(void) {
    static const int32_t wrong[] = {INT32_MIN, INT32_MAX, 65537, -65537, 1 << 30};
    return draw(400) == 0 ? wrong[draw(5)] : draw_literal(VARIABLES);
}

static int is_literal(int number) {
    return number != 0 && number >= -65536 && number <= 65536;
}

static void add(mal *solver) {
    int number = draw(3) == 0 || literals == 64 ? 0 : draw_number();
    mal_add(solver, number);
    reopen();
    if (number == 0) {
        if (state != REFUSED) leave(&left, literals, clause);
        literals = 0;
    } else if (is_literal(number)) {
        clause[literals++] = number;
    } else {
        refuse(MAL_NO_LITERAL);
    }
}

static void assume(mal *solver) {
    if (assumptions == 64) return;
    int number = draw(400) == 0 ? 0 : draw_number();
    mal_assume(solver, number);
    reopen();
    if (is_literal(number)) assumed[assumptions++] = number;
    else refuse(MAL_NO_LITERAL);
}

/* Ends an open clause first, most of the time. */
static void begin(mal *solver) {
    while (literals > 0 && draw(20)) add(solver);
    int begun = mal_begin(solver);
    reopen();
    if (literals > 0) refuse(MAL_CLAUSE_OPEN);
    WANT(begun == (state != REFUSED));
    if (state == REFUSED) return;
    state = UNKNOWN;
    for (int i = 0; i < assumptions; i++)
        for (int j = 0; j < i; j++)
            if (assumed[i] == -assumed[j]) state = CORE;
}

static void run(mal *solver) {
    uint32_t slices = draw(4) == 0 ? 0 : 1 + draw(5);
    int32_t answer = mal_run(solver, slices);
    WANT((answer == -1) == (state == REFUSED) && (answer == 0 || state != OPEN));
    WANT(state != MODEL || answer == 10);
    WANT(state != CORE || answer == 20);
    if (state != UNKNOWN || answer == 0) return;
    table satisfying = left;
    for (int i = 0; i < assumptions; i++) leave(&satisfying, 1, assumed + i);
    WANT(slices > 0 && answer == (is_empty(&satisfying) ? 20 : 10));
    state = answer == 10 ? MODEL : CORE;
}

static void look(mal *solver) {
    int number = draw_number(), value = mal_val(solver, number), was_assumed = 0;
    int64_t line[2] = {7, 7};
    for (int i = 0; i < assumptions; i++) was_assumed |= assumed[i] == number;
    WANT(value == 0 || (state == MODEL && (value == number || value == -number)));
    WANT(state != MODEL || !was_assumed || value == number);
    WANT(!mal_failed(solver, number) || (state == CORE && was_assumed));
    WANT(mal_refusal(solver) == cause);
    size_t lines = mal_lines(solver);
    WANT(lines == 0 || (state == CORE && proving));
    WANT((mal_line(solver, lines == 0 ? 0 : draw((unsigned)lines), line, 1) >= 3) == (lines > 0) && line[1] == 7);
    WANT(mal_line(solver, lines, line, 2) == 0);
}

int main(int words, char **word) {
    WANT(words == 3);
    seed = strtoull(word[1], NULL, 10);
    for (int rounds = atoi(word[2]); rounds > 0; rounds--) {
        mal solver = {NULL};
        start(&solver);
        for (int calls = 1 + (int)draw(400); calls > 0; calls--) {
            unsigned kind = draw(100);
            if (kind < 55) add(&solver);
            else if (kind < 65) assume(&solver);
            else if (kind < 75) begin(&solver);
            else if (kind < 85) run(&solver);
            else if (kind < 98) look(&solver);
            else if (kind < 99) {
                int on = mal_proof_on(&solver);
                WANT(on == !is_given);
                proving |= on;
            } else if (draw(10) == 0) start(&solver);
        }
        mal_release(&solver);
        WANT(solver.at == NULL);
    }
    return 0;
}
