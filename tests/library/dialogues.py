#!/usr/bin/env python3
"""Random dialogues through clients/python/mal.py, each answer tried on all assignments, and each refutation written as an input of
`mal check`: FOLDER/1, FOLDER/2 and so on. How many there are goes to standard output.

usage: dialogues.py SEED ROUNDS FOLDER
"""

import itertools
import random
import sys
import threading
from pathlib import Path

sys.path.insert(0, str(Path(__file__).resolve().parents[2] / "clients" / "python"))
from mal import Refused, Solver

MOST = 8  # variables
written = 0


def drawn(variables: int) -> int:
    return random.choice((1, -1)) * random.randint(1, variables)


def satisfies(model: list[int], clauses: list[list[int]]) -> bool:
    return all(any(literal in model for literal in clause) for clause in clauses)


def is_satisfiable(clauses: list[list[int]], assumptions: list[int]) -> bool:
    wanted = clauses + [[literal] for literal in assumptions]
    signs = itertools.product((1, -1), repeat=MOST)
    return any(satisfies([sign * var for var, sign in enumerate(some, 1)], wanted) for some in signs)


def raises(kind: type[BaseException], call, *words, **named) -> bool:
    """Whether a call raises this."""
    try:
        call(*words, **named)
    except kind:
        return True
    return False


def write_claim(folder: Path, clauses: list[list[int]], core: list[int], proof: str) -> None:
    global written
    written += 1
    lines = [f"p cnf {MOST} {len(clauses)}", *(" ".join(map(str, [*clause, 0])) for clause in clauses)]
    lines += ["a " + " ".join(map(str, [*core, 0])), "proof"]
    (folder / str(written)).write_text("\n".join(lines) + "\n" + proof, encoding="ascii")


def talk(folder: Path) -> None:
    variables, clauses = random.randint(2, MOST), []
    with Solver(proofs=True) as solver:
        for _ in range(5):
            for _ in range(random.randint(0, 2 * variables)):
                clauses.append([drawn(variables) for _ in range(random.randint(1, 4))])
                solver.add_clause(clauses[-1])
            assumptions = [drawn(variables) for _ in range(random.randint(0, 4))]
            answer = solver.solve(assumptions)
            assert answer is is_satisfiable(clauses, assumptions), (clauses, assumptions)
            if answer:
                model = solver.model()
                assert satisfies(model, clauses + [[literal] for literal in assumptions]), (clauses, assumptions, model)
                assert all(solver.value(literal) and solver.value(-literal) is False for literal in model)
                assert raises(RuntimeError, solver.core) and raises(RuntimeError, solver.proof)
                continue
            core = solver.core()
            assert set(core) <= set(assumptions) and not is_satisfiable(clauses, core)
            assert raises(RuntimeError, solver.model)
            opposite = any(-literal in core for literal in core)
            assert opposite == (solver.proof() == "")
            if not opposite:
                write_claim(folder, clauses, core, solver.proof())


def pigeons(holes: int) -> Solver:
    solver = Solver([pigeon * holes + hole for hole in range(1, holes + 1)] for pigeon in range(holes + 1))
    for hole in range(1, holes + 1):
        for pigeon in range(holes + 1):
            for other in range(pigeon):
                solver.add_clause([-(pigeon * holes + hole), -(other * holes + hole)])
    return solver


def try_misuse() -> None:
    """Misuse raises, and leaves a solver as it was."""
    with Solver([[1, 2]]) as solver:
        assert raises(RuntimeError, solver.model) and raises(RuntimeError, solver.core)
        for wrong in (0, 65537, -65537, 2**32 + 1, -(2**31), 2**64, "1", 1.0, None):
            assert raises(ValueError, solver.add_clause, [1, wrong]) and raises(ValueError, solver.solve, [wrong])
        assert solver.solve([-1]) is True and solver.model() == [-1, 2] and solver.value(3) is None
        assert solver.solve([-1, -2, -1]) is False and sorted(solver.core()) == [-2, -1]
        assert raises(RuntimeError, solver.proof)
        solver.add_clause([])
        assert raises(RuntimeError, solver.core) and solver.solve() is False and solver.core() == []
    assert raises(ValueError, solver.add_clause, [1]) and raises(ValueError, solver.solve) and raises(RuntimeError, solver.core)
    solver.close()
    assert issubclass(Refused, Exception)


def try_ends() -> None:
    """A search ends after its slices, and where it is stopped."""
    solver = pigeons(12)
    assert solver.solve(slices=0) is None and solver.solve(slices=3) is None and raises(RuntimeError, solver.model)
    asked = []
    assert solver.solve(stop=lambda: asked.append(1) or len(asked) == 3) is None and len(asked) == 3
    assert pigeons(4).solve() is False


def try_threads() -> None:
    """Calls of several threads on one solver wait for each other."""
    solver, wrong = Solver([[-i, i + 1] for i in range(1, 50)]), []

    def ask() -> None:
        for _ in range(100):
            if solver.solve([1]) is not True or solver.solve([1, -50]) is not False:
                wrong.append(1)

    threads = [threading.Thread(target=ask) for _ in range(4)]
    for thread in threads:
        thread.start()
    for thread in threads:
        thread.join()
    assert not wrong


def main() -> None:
    random.seed(int(sys.argv[1]))
    for _ in range(int(sys.argv[2])):
        talk(Path(sys.argv[3]))
    try_misuse()
    try_ends()
    try_threads()
    print(written)


if __name__ == "__main__":
    main()
