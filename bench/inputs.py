#!/usr/bin/env python3
"""Inputs of the bench, each decided by its arguments alone.

Usage: python3 bench/inputs.py NAME [ARGUMENT..] writes an input to standard output; without a name it lists them.
"""

import random
import sys
from itertools import chain, islice
from typing import Callable, Iterable, Iterator, TextIO

Clause = list[int]

MOST_CLAUSES = 1 << 20
MOST_VARIABLES = 65536
MOST_TENANTS = 64
MOST_JOBS = 64
SLICES = 4096


def literals(clause: Clause) -> str:
    """A clause as a line of DIMACS CNF has it."""
    return " ".join(map(str, [*clause, 0]))


def block(out: TextIO, variables: int, count: int, clauses: Iterable[Clause]) -> None:
    """A formula of so many clauses in DIMACS CNF."""
    print(f"p cnf {variables} {count}", file=out)
    out.writelines(literals(clause) + "\n" for clause in clauses)


def script(
    out: TextIO, variables: int, count: int, revisions: Iterable[Iterable[Clause]], assumptions: Iterable[int] = ()
) -> None:
    """A script of one job of demand 1, each revision of which has so many clauses and these assumptions."""
    print(f"t t\nj p 1 1 {SLICES}", file=out)
    for clauses in revisions:
        block(out, variables, count, clauses)
        print("a " + literals(list(assumptions)), file=out)
    print("e", file=out)


def hard(variables: int, count: int, seed: int) -> Iterator[Clause]:
    """So many clauses of three different variables, each literal with either sign."""
    draw = random.Random(seed)
    for _ in range(count):
        chosen = sorted(draw.sample(range(1, variables + 1), 3))
        yield [v if draw.random() < 0.5 else -v for v in chosen]


def easy(draw: random.Random, variables: int, count: int) -> Iterator[Clause]:
    """So many clauses of three different variables, of which the first is negative: all variables may be false."""
    made = 0
    while made < count:
        a, b, c = (1 + int(draw.random() * variables) for _ in range(3))
        if a != b and a != c and b != c:
            made += 1
            yield [-a, b, c]


def big(seed: int) -> Iterator[Clause]:
    """2^20 clauses over 65,536 variables, which are satisfiable."""
    return easy(random.Random(seed), MOST_VARIABLES, MOST_CLAUSES)


def opposed(seed: int) -> Iterator[Clause]:
    """2^20 clauses over 65,536 variables, of which the last two are 1 and -1."""
    return chain(islice(big(seed), MOST_CLAUSES - 2), [[1], [-1]])


def implications() -> Iterator[Clause]:
    """65,536 variables, each of which implies the next one."""
    return ([-i, i + 1] for i in range(1, MOST_VARIABLES))


def planted(draw: random.Random, variables: int, count: int) -> Iterator[Clause]:
    """So many clauses of three different variables, each with a literal that is true in one assignment for all of them."""
    true = {draw.choice((v, -v)) for v in range(1, variables + 1)}
    made = 0
    while made < count:
        clause = [draw.choice((v, -v)) for v in sorted(draw.sample(range(1, variables + 1), 3))]
        if true.intersection(clause):
            made += 1
            yield clause


def counter(variables: int, soft: Clause) -> Iterator[Clause]:
    """The counter of soft literals: variable s(i, j) follows where j of the first i are false."""
    count = len(soft)
    for i, lit in enumerate(soft):
        before, here = variables + (i - 1) * count, variables + i * count
        yield [lit, here + 1]
        if i > 0:
            yield from ([-before - j, here + j] for j in range(1, count + 1))
            yield from ([lit, -before - j, here + j + 1] for j in range(1, count))


def asked(source: str) -> tuple[int, list[Clause], Clause]:
    """The variables and the clauses of an input of `max` or `core` that was written here, and the literals behind them."""
    with open(source, encoding="ascii") as lines:
        variables = int(next(lines).split()[2])
        *clauses, last = (line.split() for line in lines)
    return variables, [[int(word) for word in clause[:-1]] for clause in clauses], [int(word) for word in last[1:-1]]


def questions(out: TextIO, variables: int, clauses: list[Clause], slices: int, assumptions: Iterable[Clause]) -> None:
    """A job whose first revision has all clauses, and which is asked under one list of assumptions after the other."""
    print(f"t t\nj p 1 1 {slices}", file=out)
    for assumed in assumptions:
        block(out, variables, len(clauses), clauses)
        print("a " + literals(assumed), file=out)
        clauses = []
    print("e", file=out)


def write_hard(out: TextIO, variables: str = "150", seed: str = "1") -> None:
    """A job of a random formula with 4.26 times as many clauses as variables, about half of which are satisfiable."""
    count = round(4.26 * int(variables))
    script(out, int(variables), count, [hard(int(variables), count, int(seed))])


def write_read(out: TextIO, seed: str = "1") -> None:
    """A job of 2^20 clauses that the last two refute."""
    script(out, MOST_VARIABLES, MOST_CLAUSES, [opposed(int(seed))])


def write_read_check(out: TextIO, seed: str = "1") -> None:
    """The same formula with its proof of one line."""
    block(out, MOST_VARIABLES, MOST_CLAUSES, opposed(int(seed)))
    print(f"proof\nl {MOST_CLAUSES + 1} 0 {MOST_CLAUSES - 1} {MOST_CLAUSES} 0", file=out)


def write_solve(out: TextIO, seed: str = "1") -> None:
    """A job of 2^20 clauses that are satisfiable."""
    script(out, MOST_VARIABLES, MOST_CLAUSES, [big(int(seed))])


def write_variables(out: TextIO) -> None:
    """A job of a chain of 65,536 variables, all of which are decided."""
    script(out, MOST_VARIABLES, MOST_VARIABLES - 1, [implications()])


def write_assumptions(out: TextIO) -> None:
    """A job of 65,536 assumptions and no clause."""
    script(out, MOST_VARIABLES, 0, [[]], range(1, MOST_VARIABLES + 1))


def write_revisions(out: TextIO, seed: str = "1", revisions: str = "256", clauses: str = "2000") -> None:
    """A job of so many revisions, each of so many easy clauses over 2,000 variables."""
    draw = random.Random(int(seed))
    script(out, 2000, int(clauses), (easy(draw, 2000, int(clauses)) for _ in range(int(revisions))))


def write_many(out: TextIO) -> None:
    """64 tenants with 64 jobs each, each of one revision with one clause."""
    for tenant in range(MOST_TENANTS):
        print(f"t t{tenant}", file=out)
        for job in range(MOST_JOBS):
            print(f"j j{job} {1 + job % 9} 1 64\np cnf 2 1\n1 2 0\na 0\ne", file=out)


def write_moved(out: TextIO, seed: str = "1", jobs: str = "64", revisions: str = "16") -> None:
    """So many jobs of 213 clauses of three literals over 50 variables, which are satisfiable, each asked so often under another
    assumption."""
    draw = random.Random(int(seed))
    print("t t", file=out)
    for job in range(int(jobs)):
        print(f"j j{job} 1 1 {SLICES}", file=out)
        clauses = list(planted(draw, 50, 213))
        for _ in range(int(revisions)):
            block(out, 50, len(clauses), clauses)
            print("a " + literals([draw.choice((v, -v)) for v in draw.sample(range(1, 51), 1)]), file=out)
            clauses = []
        print("e", file=out)


def write_heavy(out: TextIO, seed: str = "1", revisions: str = "8") -> None:
    """A job of 2^18 easy clauses over 65,536 variables, asked so often under another assumption."""
    draw = random.Random(int(seed))
    clauses = list(easy(draw, MOST_VARIABLES, 1 << 18))
    questions(out, MOST_VARIABLES, clauses, SLICES, ([-v] for v in range(1, int(revisions) + 1)))


def write_compared(out: TextIO, seed: str = "1") -> None:
    """A job of 2^17 easy clauses over 65,536 variables, which takes many slices: what it has loaded is compared at the end of each."""
    draw = random.Random(int(seed))
    script(out, MOST_VARIABLES, 1 << 17, [easy(draw, MOST_VARIABLES, 1 << 17)])


def write_six(out: TextIO, seed: str = "1", revisions: str = "200") -> None:
    """A job of 426 clauses of three literals over 100 variables, which are satisfiable, asked so often under six assumptions."""
    draw = random.Random(int(seed))
    clauses = list(planted(draw, 100, 426))
    asked = ([draw.choice((v, -v)) for v in draw.sample(range(1, 101), 6)] for _ in range(int(revisions)))
    questions(out, 100, clauses, SLICES, asked)


def write_hard_jobs(out: TextIO, seed: str = "1", jobs: str = "64", variables: str = "125") -> None:
    """So many jobs of a tenant, each of one random formula at 4.26 over so many variables."""
    print("t t", file=out)
    for job in range(int(jobs)):
        count = round(4.26 * int(variables))
        print(f"j j{job} 1 1 {SLICES}", file=out)
        block(out, int(variables), count, hard(int(variables), count, 1000 * int(seed) + job))
        print("a 0\ne", file=out)


def write_optimum(out: TextIO, seed: str = "1") -> None:
    """800 clauses of three literals over 200 variables, which are satisfiable, and 128 soft literals."""
    draw = random.Random(int(seed))
    block(out, 200, 800, planted(draw, 200, 800))
    print("w " + literals([draw.choice((v, -v)) for v in draw.sample(range(1, 201), 128)]), file=out)


def write_cheaper(out: TextIO, source: str, slices: str, *costs: str) -> None:
    """A job that asks for a model of formula and counter, and then for one below each of these costs."""
    variables, clauses, soft = asked(source)
    last = variables + (len(soft) - 1) * len(soft)
    every = [*clauses, *counter(variables, soft)]
    questions(out, variables + len(soft) ** 2, every, int(slices), [[], *([-last - int(cost)] for cost in costs)])


def write_options(out: TextIO, seed: str = "1") -> None:
    """900 clauses of three literals over 45 variables, each of which holds under one of 255 assumptions."""
    draw = random.Random(int(seed))
    chosen = (sorted(draw.sample(range(1, 46), 3)) for _ in range(900))
    block(out, 300, 900, ([draw.choice((v, -v)) for v in three] + [-46 - at % 255] for at, three in enumerate(chosen)))
    print("a " + literals(list(range(46, 301))), file=out)


def write_needed(out: TextIO, seed: str = "1") -> None:
    """255 assumptions that are all needed: each of 45 variables follows from 5 or 6 of them, and one has to be false. Beside these
    854 clauses of three literals, two of which are assumed, so that they hold without any one assumption."""
    draw = random.Random(int(seed))
    parts = [list(range(part, 256, 45)) for part in range(1, 46)]
    clauses = [[-lit for lit in part] + [255 + at] for at, part in enumerate(parts, 1)] + [[-255 - at for at in range(1, 46)]]
    for _ in range(900 - len(clauses)):
        pair = draw.sample(range(1, 256), 2)
        third = draw.choice([v for v in range(1, 301) if v not in pair])
        clauses.append([*pair, draw.choice((third, -third))])
    block(out, 300, 900, clauses)
    print("a " + literals(list(range(1, 256))), file=out)


def write_without(out: TextIO, source: str) -> None:
    """A job that asks a formula under all assumptions, and then without each of them."""
    variables, clauses, assumed = asked(source)
    questions(out, variables, clauses, SLICES, [assumed, *([other for other in assumed if other != lit] for lit in assumed)])


def write_formulas(out: TextIO, source: str, folder: str) -> None:
    """Each revision of a script as a file of its own in DIMACS CNF: the clauses of its job so far, and its assumptions
    as unit clauses. Writes the files' names, in the order of the script."""
    variables, clauses, count = 0, [], 0
    with open(source, encoding="ascii") as lines:
        for line in lines:
            words = line.split()
            if words[0] == "j":
                variables, clauses = 0, []
            elif words[0] == "p":
                variables = max(variables, int(words[2]))
            elif words[0] == "a":
                count += 1
                units = [f"{word} 0\n" for word in words[1:-1]]
                name = f"{folder}/{count}.cnf"
                with open(name, "w", encoding="ascii") as file:
                    file.write(f"p cnf {variables} {len(clauses) + len(units)}\n")
                    file.writelines(clauses)
                    file.writelines(units)
                print(name, file=out)
            elif words[0] not in ("t", "q", "e"):
                clauses.append(line)


WRITERS: dict[str, tuple[Callable[..., None], str]] = {
    "hard": (write_hard, "[VARIABLES [SEED]]: random 3-SAT at 4.26, a job"),
    "read": (write_read, "[SEED]: 2^20 clauses that the last two refute, a job"),
    "read_check": (write_read_check, "[SEED]: the same with its proof, an input of check"),
    "solve": (write_solve, "[SEED]: 2^20 clauses that are satisfiable, a job"),
    "variables": (write_variables, ": a chain of 65,536 variables, a job"),
    "assumptions": (write_assumptions, ": 65,536 assumptions and no clause, a job"),
    "revisions": (write_revisions, "[SEED [REVISIONS [CLAUSES]]]: 256 revisions of 2,000 easy clauses each, a job"),
    "many": (write_many, ": 4,096 jobs of one clause each"),
    "compared": (write_compared, "[SEED]: 2^17 easy clauses over 65,536 variables, a job"),
    "six": (write_six, "[SEED [REVISIONS]]: 426 clauses over 100 variables, asked 200 times under six assumptions, a job"),
    "hard_jobs": (write_hard_jobs, "[SEED [JOBS [VARIABLES]]]: 64 jobs of random 3-SAT at 4.26 over 125 variables"),
    "moved": (write_moved, "[SEED [JOBS [REVISIONS]]]: 64 jobs of 50 variables that are asked 16 times each"),
    "heavy": (write_heavy, "[SEED [REVISIONS]]: 2^18 easy clauses that are asked about 8 times, a job"),
    "optimum": (write_optimum, "[SEED]: 128 soft literals and 800 clauses over 200 variables, an input of max"),
    "cheaper": (write_cheaper, "INPUT SLICES COST..: an input of max as a job, asked for a model below each cost"),
    "options": (write_options, "[SEED]: 255 assumptions for 900 clauses over 45 variables, an input of core"),
    "needed": (write_needed, "[SEED]: 255 assumptions that are all needed, an input of core"),
    "without": (write_without, "INPUT: an input of core as a job, asked without each assumption"),
    "formulas": (write_formulas, "SCRIPT FOLDER: a script's revisions as files of their own, whose names are written"),
}


def main() -> None:
    if len(sys.argv) < 2 or sys.argv[1] not in WRITERS:
        sys.exit("\n".join([(__doc__ or "").strip(), ""] + [f"  {name} {text}" for name, (_, text) in WRITERS.items()]))
    WRITERS[sys.argv[1]][0](sys.stdout, *sys.argv[2:])


if __name__ == "__main__":
    main()
