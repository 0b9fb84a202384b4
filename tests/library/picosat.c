/* IPASIR over PicoSAT, whose library has other names: as much of it as dialogues.c calls. */
#include <picosat/picosat.h>

#include "ipasir.h"

void *ipasir_init(void) {
    return picosat_init();
}

void ipasir_release(void *solver) {
    picosat_reset(solver);
}

void ipasir_add(void *solver, int32_t lit_or_zero) {
    picosat_add(solver, lit_or_zero);
}

void ipasir_assume(void *solver, int32_t lit) {
    picosat_assume(solver, lit);
}

int ipasir_solve(void *solver) {
    return picosat_sat(solver, -1);
}

int32_t ipasir_val(void *solver, int32_t lit) {
    return picosat_deref(solver, lit) > 0 ? lit : -lit;
}

int ipasir_failed(void *solver, int32_t lit) {
    return picosat_failed_assumption(solver, lit);
}
