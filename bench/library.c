/* Measures a solver through IPASIR, row by row: the name of each, nanoseconds or microseconds of one call, and the answers 10 and 20.
 * bench/library.py compiles it over each solver that is here, and prints what comes of it as a table.
 *
 * usage: library ROW SEED */
#include <stdint.h>
#include <stdio.h>
#include <stdlib.h>
#include <string.h>
#include <time.h>
#include <unistd.h>

#include "ipasir.h"

static uint64_t seed;
static long answers[3]; /* 10, 20 and others */

static unsigned draw(unsigned most) {
    seed = seed * 6364136223846793005ULL + 1442695040888963407ULL;
    return (unsigned)(seed >> 33) % most;
}

static int draw_literal(int variables) {
    int var = 1 + (int)draw((unsigned)variables);
    return draw(2) ? var : -var;
}

static double now(void) {
    struct timespec time;
    clock_gettime(CLOCK_MONOTONIC, &time);
    return (double)time.tv_sec + (double)time.tv_nsec * 1e-9;
}

/* The resident memory in KB. */
static long memory(void) {
    long pages = 0;
    FILE *in = fopen("/proc/self/statm", "r");
    if (in && fscanf(in, "%*d %ld", &pages) != 1) pages = 0;
    if (in) fclose(in);
    return pages * (sysconf(_SC_PAGESIZE) / 1024);
}

static void add_drawn(void *solver, int variables) {
    for (int i = 0; i < 3; i++) ipasir_add(solver, draw_literal(variables));
    ipasir_add(solver, 0);
}

static int ask(void *solver) {
    int answer = ipasir_solve(solver);
    answers[answer == 10 ? 0 : answer == 20 ? 1 : 2]++;
    return answer;
}

static void tell(const char *unit, double seconds, double count) {
    double scale = strcmp(unit, "ns") == 0 ? 1e9 : 1e6;
    printf("%.6g %s %ld %ld %ld %ld\n", seconds / count * scale, unit, answers[0], answers[1], answers[2], memory());
}

/* Random clauses, then questions under random assumptions, a clause more each time. */
static void growing(int variables, int clauses, int questions, int assumptions) {
    void *solver = ipasir_init();
    for (int i = 0; i < clauses; i++) add_drawn(solver, variables);
    double begun = now();
    for (int i = 0; i < questions; i++) {
        add_drawn(solver, variables);
        for (int j = 0; j < assumptions; j++) ipasir_assume(solver, draw_literal(variables));
        ask(solver);
    }
    tell("us", now() - begun, questions);
    ipasir_release(solver);
}

/* Each call by itself: a literal that is added, one that is assumed, a value. */
static void adding(void) {
    void *solver = ipasir_init();
    double begun = now();
    for (int i = 0; i < 250000; i++) add_drawn(solver, 60000);
    tell("ns", now() - begun, 1000000);
    ipasir_release(solver);
}

static void assuming(void) {
    void *solver = ipasir_init();
    ipasir_add(solver, 1), ipasir_add(solver, 0);
    double begun = now();
    for (int i = 0; i < 1000000; i++) ipasir_assume(solver, 1 + i % 1000);
    tell("ns", now() - begun, 1000000);
    ipasir_release(solver);
}

static void reading(void) {
    void *solver = ipasir_init();
    for (int var = 1; var <= 1000; var++) ipasir_add(solver, var), ipasir_add(solver, 0);
    long sum = 0;
    if (ask(solver) != 10) return;
    double begun = now();
    for (int i = 0; i < 1000000; i++) sum += ipasir_val(solver, 1 + i % 1000);
    if (sum > 0) tell("ns", now() - begun, 1000000);
    ipasir_release(solver);
}

static void making(void) {
    double begun = now();
    for (int i = 0; i < 100000; i++) ipasir_release(ipasir_init());
    tell("ns", now() - begun, 100000);
}

/* So many easy answers of one solver, all of them 10 or all 20. The memory is that of its end. */
static void many(int count, int refuted) {
    void *solver = ipasir_init();
    for (int i = 1; i < 20; i++) ipasir_add(solver, -i), ipasir_add(solver, i + 1), ipasir_add(solver, 0);
    double begun = now();
    for (int i = 0; i < count; i++) {
        ipasir_assume(solver, 1 + i % 10);
        if (refuted) ipasir_assume(solver, -20);
        ask(solver);
    }
    tell("us", now() - begun, count);
    ipasir_release(solver);
}

/* A chain of implications: everything follows from one assumption. */
static void chain(void) {
    void *solver = ipasir_init();
    for (int i = 1; i < 12500; i++) ipasir_add(solver, -i), ipasir_add(solver, i + 1), ipasir_add(solver, 0);
    double begun = now();
    for (int i = 0; i < 1000; i++) {
        ipasir_assume(solver, 1);
        if (i % 2) ipasir_assume(solver, -12500);
        ask(solver);
    }
    tell("us", now() - begun, 1000);
    ipasir_release(solver);
}

int main(int words, char **word) {
    if (words != 3) return 2;
    const char *row = word[1];
    seed = strtoull(word[2], NULL, 10);
    if (strcmp(row, "add") == 0) adding();
    else if (strcmp(row, "assume") == 0) assuming();
    else if (strcmp(row, "val") == 0) reading();
    else if (strcmp(row, "init") == 0) making();
    else if (strcmp(row, "easy") == 0) growing(50, 150, 1000, 4);
    else if (strcmp(row, "hard") == 0) growing(200, 800, 1000, 10);
    else if (strcmp(row, "models") == 0) growing(2000, 6000, 200, 20);
    else if (strcmp(row, "large") == 0) growing(10000, 25000, 1000, 20);
    else if (strcmp(row, "chain") == 0) chain();
    else if (strcmp(row, "million") == 0) many(1000000, 0);
    else if (strcmp(row, "refuted") == 0) many(1000000, 1);
    else if (strcmp(row, "some") == 0) many(10000, 1);
    else return 2;
    return 0;
}
