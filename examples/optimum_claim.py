"""Writes the input of `mal check` for an optimum that `mal max` has found: the formula with the counter of its soft literals, the
assumption that the cost is lower, and the lines of the proof.

mal max --slices 16 < INPUT | python3 examples/optimum_claim.py INPUT | mal check

The counter of n soft literals has the variables s(i, j) behind those of the formula: j or more of the first i are false. An optimum
of cost 0 needs no proof, and has none.
"""

import sys


def counter(variables, soft):
    """The clauses of the counter, row by row."""
    n = len(soft)

    def s(i, j):
        return variables + (i - 1) * n + j

    for i, lit in enumerate(soft, 1):
        yield [lit, s(i, 1)]
        if i > 1:
            yield from ([-s(i - 1, j), s(i, j)] for j in range(1, n + 1))
            yield from ([lit, -s(i - 1, j - 1), s(i, j)] for j in range(2, n + 1))


def main():
    with open(sys.argv[1]) as lines:
        rows = [line.split() for line in lines if line.strip() and not line.lstrip().startswith("c")]
    header, *clauses, last = rows
    variables, count, soft = int(header[2]), int(header[3]), [int(word) for word in last[1:-1]]
    n = len(soft)
    told = [line.split() for line in sys.stdin]
    cost = [int(row[1]) for row in told if row[0] == "o"]
    more = list(counter(variables, soft))
    print(f"p cnf {variables + n * n} {count + len(more)}")
    for row in clauses + [[*clause, 0] for clause in more]:
        print(*row)
    if cost:
        print("a", -(variables + (n - 1) * n + cost[0]), 0)
    print("proof")
    for row in told:
        if row[0] == "l":
            print(*row)


main()
