/* Eight threads with five solvers each, and one solver that is made in one thread, asked in another and released in the first. */
#include <pthread.h>

#include "common.h"

static void *refute(void *number) {
    for (int i = 0; i < 5; i++) {
        void *solver = ipasir_init();
        add_pigeons(solver, 3 + (*(int *)number + i) % 3);
        WANT(ipasir_solve(solver) == 20);
        ipasir_release(solver);
    }
    return NULL;
}

static void *ask(void *solver) {
    WANT(ipasir_solve(solver) == 20);
    return NULL;
}

int main(void) {
    pthread_t threads[8];
    int numbers[8];
    for (int i = 0; i < 8; i++) {
        numbers[i] = i;
        WANT(pthread_create(threads + i, NULL, refute, numbers + i) == 0);
    }
    for (int i = 0; i < 8; i++) WANT(pthread_join(threads[i], NULL) == 0);
    void *solver = ipasir_init();
    add_pigeons(solver, 4);
    WANT(pthread_create(threads, NULL, ask, solver) == 0 && pthread_join(threads[0], NULL) == 0);
    WANT(ipasir_failed(solver, 1) == 0);
    ipasir_release(solver);
    return 0;
}
