/* IPASIR over the calls of mal.h: the part of the library that is not proved, since it returns pointers and calls back. It hands each
 * handle to one call at a time, and includes no system header, so that the kit's compiler suffices to build it. */
#define MAL_NO_HEADERS
#include "ipasir.h"
#include "mal.h"

void *calloc(size_t count, size_t size);
void free(void *block);

struct solver {
    mal handle; /* stays first: mal_of_ipasir gives its place */
    int (*terminate)(void *data);
    void *terminate_data;
};

static mal *handle_of(void *solver) {
    return solver ? &((struct solver *)solver)->handle : 0;
}

const char *ipasir_signature(void) {
    return "mal";
}

void *ipasir_init(void) {
    struct solver *solver = calloc(1, sizeof *solver);
    if (!solver) return 0;
    mal_init(&solver->handle);
    if (solver->handle.at) return solver;
    free(solver);
    return 0;
}

void ipasir_release(void *solver) {
    if (!solver) return;
    mal_release(handle_of(solver));
    free(solver);
}

void ipasir_add(void *solver, int32_t lit_or_zero) {
    if (solver) mal_add(handle_of(solver), lit_or_zero);
}

void ipasir_assume(void *solver, int32_t lit) {
    if (solver) mal_assume(handle_of(solver), lit);
}

/* One slice at a time, so that a call to end is heard within a slice. */
int ipasir_solve(void *solver) {
    struct solver *own = solver;
    int32_t answer = 0;
    if (!own || !mal_begin(&own->handle)) return 0;
    while (answer == 0) {
        if (own->terminate && own->terminate(own->terminate_data)) return 0;
        answer = mal_run(&own->handle, 1);
    }
    return answer < 0 ? 0 : answer;
}

int32_t ipasir_val(void *solver, int32_t lit) {
    return solver ? mal_val(handle_of(solver), lit) : 0;
}

int ipasir_failed(void *solver, int32_t lit) {
    return solver ? mal_failed(handle_of(solver), lit) : 0;
}

void ipasir_set_terminate(void *solver, void *data, int (*terminate)(void *data)) {
    struct solver *own = solver;
    if (!own) return;
    own->terminate = terminate;
    own->terminate_data = data;
}

void ipasir_set_learn(void *solver, void *data, int max_length, void (*learn)(void *data, int32_t *clause)) {
    (void)solver, (void)data, (void)max_length, (void)learn;
}

mal *mal_of_ipasir(void *solver) {
    return handle_of(solver);
}
