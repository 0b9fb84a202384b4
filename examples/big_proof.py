#!/usr/bin/env python3
"""Writes an input of `mal check`: a chain of implications with a unit clause at each end, and a proof of LINES lines
(100,000 where no number is given). Each line but the last derives that a variable implies the one 20 places behind it,
along the 20 clauses between, so it has 20 hints; the last one derives the empty clause along some of these lines.

Usage: python3 examples/big_proof.py [LINES] | ./mal check
"""
import sys

STEP = 20
VARIABLES = 60001  # a multiple of STEP, and one more
CHAIN = VARIABLES - 1  # the clauses -i i+1


def main() -> None:
    lines = int(sys.argv[1]) if len(sys.argv) > 1 else 100_000
    links = CHAIN // STEP
    if lines <= links:
        sys.exit(f"at least {links + 1} lines")
    out = [f"p cnf {VARIABLES} {CHAIN + 2}"]
    out += [f"-{i} {i + 1} 0" for i in range(1, CHAIN + 1)]
    out += ["1 0", f"-{VARIABLES} 0", "proof"]
    first = CHAIN + 3
    starts = [1 + STEP * k for k in range(links)]
    starts += [1 + k % (CHAIN - STEP) for k in range(lines - 1 - links)]
    for k, start in enumerate(starts):
        hints = " ".join(str(h) for h in range(start, start + STEP))
        out.append(f"{first + k} -{start} {start + STEP} 0 {hints} 0")
    hints = [CHAIN + 1] + [first + k for k in range(links)] + [CHAIN + 2]
    out.append(f"{first + lines - 1} 0 {' '.join(map(str, hints))} 0")
    print("\n".join(out))


if __name__ == "__main__":
    main()
