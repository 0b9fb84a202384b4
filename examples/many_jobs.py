"""Writes a script of many jobs: random formulas of three literals a clause, four jobs a tenant, each with two revisions.

python3 examples/many_jobs.py [JOBS]; 256 jobs where no number is given, and at most 256. The same script each time.
"""

import random
import sys

VARIABLES = 20
CLAUSES = 60
MORE = 20


def clauses(draw, count):
    """So many clauses of three different variables."""
    for _ in range(count):
        chosen = sorted(draw.sample(range(1, VARIABLES + 1), 3))
        yield " ".join(str(v if draw.random() < 0.5 else -v) for v in chosen) + " 0"


def block(draw, count, assumptions):
    """A revision: its header, its clauses and its assumptions."""
    print(f"p cnf {VARIABLES} {count}")
    for clause in clauses(draw, count):
        print(clause)
    print("a " + "".join(f"{lit} " for lit in assumptions) + "0")


def main():
    jobs = int(sys.argv[1]) if len(sys.argv) > 1 else 256
    draw = random.Random(7)
    for job in range(jobs):
        print(f"t t{job // 4}")
        print(f"j j{job} {1 + job % 9} {1 + job % 4} 64")
        block(draw, CLAUSES, [1, -2])
        block(draw, MORE, [])
        print("e")


main()
