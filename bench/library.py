#!/usr/bin/env python3
"""Measures libmal through IPASIR, beside cadical and picosat where their libraries are installed, and prints a table: the time of one
call, the answers 10 and 20, and the memory at the end. It needs gcc.

usage: bench/library.py [--only ROW[,ROW]] [--seed N] [--limit SECONDS] [--repeat N]

The library is that of the folder MAL_LIBRARY, where that is set, and else that of target/lib (tools/build --library).
"""

import argparse
import os
import platform
import shutil
import subprocess
import sys
import tempfile
from pathlib import Path
from typing import Optional

ROOT = Path(__file__).resolve().parent.parent
ROWS = {
    "add": "a literal of 250,000 clauses is added",
    "assume": "a literal is assumed",
    "val": "a value is read",
    "init": "a solver is made and released",
    "easy": "1,000 answers, 50 variables, 150 clauses and one more each time, 4 assumptions",
    "hard": "1,000 answers, 200 variables, 800 clauses and one more each time, 10 assumptions",
    "models": "200 answers, 2,000 variables, 6,000 clauses and one more each time, 20 assumptions",
    "large": "1,000 answers, 10,000 variables, 25,000 clauses and one more each time, 20 assumptions",
    "chain": "1,000 answers, a chain of 12,500 implications",
    "million": "1,000,000 answers 10, a chain of 20 implications",
    "some": "10,000 answers 20, a chain of 20 implications",
    "refuted": "1,000,000 answers 20, a chain of 20 implications",
}


def compile_over(folder: Path, name: str, words: list[str]) -> Optional[Path]:
    """The client over a solver, or None where gcc does not find it."""
    program = folder / name
    command = ["gcc", "-std=c11", "-D_POSIX_C_SOURCE=200809L", "-O2", f"-I{ROOT / 'c'}", str(ROOT / "bench" / "library.c"), *words]
    made = subprocess.run([*command, "-o", str(program)], stderr=subprocess.PIPE, text=True, check=False)
    if made.returncode != 0 and name == "mal":
        sys.exit(f"bench/library.py: {made.stderr}")
    return program if made.returncode == 0 else None


def measured(program: Path, row: str, options: argparse.Namespace) -> tuple[str, Optional[str]]:
    """The cell of a solver in a row, by the fastest of its runs, and how it answered."""
    best: Optional[list[str]] = None
    for _ in range(options.repeat):
        try:
            command = [str(program), row, str(options.seed)]
            ran = subprocess.run(command, stdout=subprocess.PIPE, text=True, timeout=options.limit, check=False)
        except subprocess.TimeoutExpired:
            return f"over {options.limit:g} s", None
        if ran.returncode != 0 or not ran.stdout:
            return f"status {ran.returncode}", None
        told = ran.stdout.split()
        if best is None or float(told[0]) < float(best[0]):
            best = told
    assert best is not None
    time, unit, satisfiable, unsatisfiable, others, memory = best
    return f"{float(time):,.1f} {unit}, {int(memory) / 1024:.1f} MB", f"{satisfiable} {unsatisfiable} {others}"


def parse() -> argparse.Namespace:
    parser = argparse.ArgumentParser(description="Measures libmal through IPASIR, beside other solvers.")
    parser.add_argument("--only", help=f"rows, separated by commas: {', '.join(ROWS)}")
    parser.add_argument("--seed", type=int, default=1, help="seed of the formulas (1)")
    parser.add_argument("--limit", type=float, default=300, help="seconds for each run (300)")
    parser.add_argument("--repeat", type=int, default=1, help="runs of each, of which the fastest counts (1)")
    options = parser.parse_args()
    options.rows = options.only.split(",") if options.only else list(ROWS)
    unknown = [row for row in options.rows if row not in ROWS]
    return parser.error(f"no row {', '.join(unknown)}") if unknown else options


def show(solvers: dict[str, Path], options: argparse.Namespace) -> int:
    """Prints the table. The status is 1 where two solvers answered differently."""
    print("| Row | " + " | ".join(solvers) + " | Answers 10, 20, none |\n" + "|---" * (len(solvers) + 2) + "|")
    status = 0
    for row in options.rows:
        cells, answers = [], set()
        for program in solvers.values():
            cell, answered = measured(program, row, options)
            cells.append(cell)
            answers |= {answered} - {None}
        status |= len(answers) > 1
        print(f"| {ROWS[row]} | " + " | ".join(cells) + f" | {' or '.join(sorted(answers)) or '-'} |", flush=True)
    return status


def processor() -> str:
    """The machine's processor by its name, where the system tells it."""
    try:
        lines = Path("/proc/cpuinfo").read_text(encoding="utf-8").splitlines()
    except OSError:
        lines = []
    names = [line.split(":", 1)[1].strip() for line in lines if line.startswith("model name")]
    return names[0] if names else platform.machine()


def main() -> int:
    options = parse()
    if not shutil.which("gcc"):
        sys.exit("bench/library.py: no gcc is here")
    library = Path(os.environ.get("MAL_LIBRARY") or ROOT / "target" / "lib") / "libmal.a"
    if not library.exists():
        sys.exit(f"bench/library.py: {library} is not there; tools/build --library builds it")
    others = {"cadical": ["-lcadical", "-lstdc++", "-lm"], "picosat": [str(ROOT / "tests" / "library" / "picosat.c"), "-lpicosat"]}
    with tempfile.TemporaryDirectory(prefix="mal-bench-") as folder:
        made = {name: compile_over(Path(folder), name, words) for name, words in {"mal": [str(library)], **others}.items()}
        print(f"{processor()}, {os.cpu_count()} processors, seed {options.seed}\n")
        return show({name: program for name, program in made.items() if program}, options)


if __name__ == "__main__":
    sys.exit(main())
