"""Writes a counter that is unrolled step by step: a script of one job with a revision for each step, or of the formula of
the first steps alone.

python3 examples/counter.py           a job of 64 revisions, each of which adds a step to those before
python3 examples/counter.py STEPS     a job of one revision with the clauses of the first STEPS revisions

The counter has 19 bits, at first all 0, and each step adds the step's input to it. Each revision asks whether the last bit
can be 1 after its step, which it cannot.
"""

import sys

BITS = 19
STEPS = 64
PER_STEP = 2 * BITS + 1


def bit(step, i):
    """The variable of a bit of the counter after so many steps."""
    return 1 + i if step == 0 else BITS + (step - 1) * PER_STEP + 1 + i


def carry(step, i):
    """The variable of the carry into a bit in a step; the carry into the first bit is the step's input."""
    return BITS + (step - 1) * PER_STEP + BITS + 1 + i


def step_clauses(step):
    """The clauses of a step, and in the first one those of the start."""
    found = [[-bit(0, i)] for i in range(BITS)] if step == 1 else []
    for i in range(BITS):
        old, new, into, out = bit(step - 1, i), bit(step, i), carry(step, i), carry(step, i + 1)
        found += [[-new, old, into], [-new, -old, -into], [new, -old, into], [new, old, -into]]
        if i + 1 < BITS:
            found += [[-out, old], [-out, into], [out, -old, -into]]
    return found


def block(step, clauses):
    """A revision of these clauses that asks for the last bit after this step."""
    print(f"p cnf {BITS + step * PER_STEP} {len(clauses)}")
    for clause in clauses:
        print(" ".join(map(str, clause)) + " 0")
    print(f"a {bit(step, BITS - 1)} 0")


def main():
    print("t c\nj p 1 1 4096")
    if len(sys.argv) > 1:
        steps = int(sys.argv[1])
        block(steps, [clause for step in range(1, steps + 1) for clause in step_clauses(step)])
    else:
        for step in range(1, STEPS + 1):
            block(step, step_clauses(step))
    print("e")


main()
