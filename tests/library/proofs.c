/* Random dialogues with proofs kept. Each refutation is written as an input of `mal check`, FOLDER/1, FOLDER/2 and so on; how many
 * there are goes to standard output.
 *
 * usage: proofs SEED ROUNDS VARIABLES FOLDER */
#include "claims.h"

static int assumed[4];

static void give_clauses(mal *solver, int variables) {
    for (int more = 1 + (int)draw((unsigned)(2 * variables)); more > 0; more--) {
        for (int length = draw(30) == 0 ? 1 : 3; length > 0; length--) {
            give(solver, draw_literal(variables));
        }
        give(solver, 0);
    }
}

int main(int words, char **word) {
    WANT(words == 5);
    seed = strtoull(word[1], NULL, 10);
    int rounds = atoi(word[2]), most = atoi(word[3]), written = 0;
    for (int round = 0; round < rounds; round++) {
        mal solver = {NULL};
        mal_init(&solver);
        WANT(mal_proof_on(&solver));
        int variables = 5 + (int)draw((unsigned)most - 4);
        count = clauses = 0;
        for (int question = 0; question < 6; question++) {
            give_clauses(&solver, variables);
            for (int i = 0; i < 4; i++) mal_assume(&solver, assumed[i] = draw_literal(variables));
            WANT(mal_begin(&solver));
            if (mal_run(&solver, UINT32_MAX) != 20) continue;
            int opposite = 0;
            for (int i = 0; i < 4; i++) opposite |= mal_failed(&solver, assumed[i]) && mal_failed(&solver, -assumed[i]);
            WANT((mal_lines(&solver) == 0) == opposite);
            if (!opposite) write_claim(word[4], ++written, &solver, variables, 4, assumed);
        }
        mal_release(&solver);
    }
    printf("%d\n", written);
    return 0;
}
