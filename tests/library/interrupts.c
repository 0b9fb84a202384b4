/* A search that is too long is ended by `terminate`, at each of its first slices and within a time, and goes on when asked again. */
#include <time.h>

#include "common.h"

static long asked, most;
static double end;

static int stop_counted(void *data) {
    WANT(data == &asked);
    return ++asked >= most;
}

static double now(void) {
    struct timespec time;
    clock_gettime(CLOCK_MONOTONIC, &time);
    return (double)time.tv_sec + (double)time.tv_nsec * 1e-9;
}

static int stop_timed(void *data) {
    (void)data;
    return now() >= end;
}

int main(void) {
    void *solver = ipasir_init();
    add_pigeons(solver, 12); /* 156 variables, and days of work */
    ipasir_set_terminate(solver, &asked, stop_counted);
    for (most = 1; most <= 20; most++) {
        asked = 0;
        ipasir_assume(solver, 1);
        WANT(ipasir_solve(solver) == 0 && asked == most);
        WANT(ipasir_val(solver, 1) == 0 && ipasir_failed(solver, 1) == 0);
    }
    ipasir_set_terminate(solver, NULL, stop_timed);
    end = now() + 0.3;
    WANT(ipasir_solve(solver) == 0 && now() < end + 5);
    WANT(mal_refusal(mal_of_ipasir(solver)) == MAL_TAKEN);
    ipasir_release(solver);

    solver = ipasir_init(); /* interrupted again and again, and answered at last */
    add_pigeons(solver, 5);
    ipasir_set_terminate(solver, &asked, stop_counted);
    int answer = 0;
    for (most = 2; answer == 0; most++) {
        asked = 0;
        answer = ipasir_solve(solver);
    }
    WANT(answer == 20);
    most = 1, asked = 0;
    ipasir_assume(solver, 1);
    WANT(ipasir_solve(solver) == 0);
    ipasir_set_terminate(solver, NULL, NULL);
    WANT(ipasir_solve(solver) == 20 && ipasir_failed(solver, 1) == 0);
    ipasir_release(solver);
    return 0;
}
