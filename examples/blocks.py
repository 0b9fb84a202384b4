#!/usr/bin/env python3
"""Plans in the world of blocks by a live service: python3 examples/blocks.py. The job's revisions are the horizons 0, 1, 2 ..,
each with the clauses of its last move, under the assumption that the goal is reached; the first that is satisfiable has a plan."""

import sys
from pathlib import Path

sys.path.append(str(Path(__file__).resolve().parents[1] / "clients/python"))  # where it is not installed
from mal_service import Satisfiable, Service

START = {"a": "b", "b": "c", "c": "table", "d": "table"}  # what each block is on
GOAL = {"a": "d", "b": "a", "c": "b"}
PLACES = [*START, "table"]
PAIRS = [(block, place) for block in START for place in PLACES if block != place]
MOST = 8


def on(block: str, place: str, step: int) -> int:
    """The variable that says that the block is there after so many moves."""
    return step * 2 * len(PAIRS) + PAIRS.index((block, place)) + 1


def move(block: str, place: str, step: int) -> int:
    """The variable that says that the block goes there in the move after so many others."""
    return on(block, place, step) + len(PAIRS)


def places(step: int) -> "list[list[int]]":
    """Each block is at one place, and no two are on the same block."""
    clauses = [[on(block, place, step) for place in PLACES if place != block] for block in START]
    clauses += [[-on(b, p, step), -on(b, q, step)] for b, p in PAIRS for q in PLACES if q > p and q != b]
    return clauses + [[-on(b, p, step), -on(c, p, step)] for b, p in PAIRS if p != "table" for c in START if c > b and c != p]


def moves(step: int) -> "list[list[int]]":
    """One move at most; a block goes where it says, if nothing is on it or there, and all others stay."""
    clauses = [[-move(*one, step), -move(*other, step)] for one in PAIRS for other in PAIRS if one < other]
    for block, place in PAIRS:
        going = -move(block, place, step)
        clauses.append([going, on(block, place, step + 1)])
        clauses += [[going, -on(c, b, step)] for b in (block, place) if b != "table" for c in START if c != b]
        stays = [move(block, other, step) for other in PLACES if other not in (block, place)]
        clauses.append([-on(block, place, step), on(block, place, step + 1), *stays])
    return clauses


def main() -> None:
    with Service(workers=2) as service, service.job("planner", "blocks") as job:
        job.add([[on(block, place, 0)] for block, place in START.items()] + places(0))
        for length in range(MOST + 1):
            reply = job.solve([on(block, place, length) for block, place in GOAL.items()])
            if isinstance(reply, Satisfiable):
                made = [f"{b} to {p}" for at in range(length) for b, p in PAIRS if move(b, p, at) in reply.model]
                print(f"{length} moves:", *made, sep="\n")
                return
            job.add(moves(length) + places(length + 1))
    print(f"no plan of {MOST} moves")


main()
