#!/usr/bin/env python3
"""Measures the live service over pipes, and prints one line for each figure: how long a small revision takes from its post to its
reply (median, 90 and 99 of 100), how many posts are taken in a second, and the 256 generated jobs as a feed beside `mal run`.

Usage: bench/serve.py [--program FILE] [--rounds N] [--workers N]
"""

import argparse
import os
import subprocess
import time
from pathlib import Path

ROOT = Path(__file__).resolve().parent.parent
TAIL = (50, 90, 99)


def start(program: str, workers: int) -> subprocess.Popen:
    """A service whose history is let go."""
    return subprocess.Popen(
        [program, "serve", "--workers", str(workers)],
        stdin=subprocess.PIPE,
        stdout=subprocess.PIPE,
        stderr=subprocess.DEVNULL,
        bufsize=0,
    )


def await_model(service: subprocess.Popen) -> None:
    """Reads until the line of a model has come whole."""
    got = b""
    while not (b"\nv " in got and got.endswith(b"\n")):
        piece = os.read(service.stdout.fileno(), 65536)
        if not piece:
            raise EOFError("the end in place of a reply")
        got += piece


def small_revisions(program: str, workers: int, rounds: int) -> None:
    """Posts revision after revision, each once the one before is replied to, in jobs of 200 each."""
    service = start(program, workers)
    service.stdin.write(b"t bench\n")
    took = []
    for number in range(rounds):
        head = b"e\n" if number and number % 200 == 0 else b""
        if number % 200 == 0:
            head += b"j j%d 1 1 8\n" % (number // 200)
        at = time.perf_counter()
        service.stdin.write(head + b"p cnf 3 1\n1 -2 3 0\na 0\n")
        await_model(service)
        took.append(time.perf_counter() - at)
    service.stdin.close()
    service.wait()
    took.sort()
    told = ", ".join(f"{took[len(took) * part // 100] * 1e6:.0f} us ({part} of 100)" for part in TAIL)
    print(f"post to reply, {rounds} small revisions, {workers} workers: {told}")


def many_posts(program: str, workers: int) -> None:
    """4,096 jobs of one revision each, as fast as they are taken."""
    rows = []
    for tenant in range(64):
        rows.append(f"t t{tenant}\n")
        rows += [f"j j{job} 1 1 8\np cnf 2 1\n1 2 0\na 0\ne\n" for job in range(64)]
    feed = "".join(rows).encode()
    at = time.perf_counter()
    ran = subprocess.run([program, "serve", "--workers", str(workers)], input=feed, capture_output=True, check=True)
    seconds = time.perf_counter() - at
    assert ran.stdout.count(b"\ns SATISFIABLE\n") == 4096
    print(f"4,096 jobs, {workers} workers: {seconds:.2f} s, {3 * 4096 / seconds:.0f} posts a second, {4096 / seconds:.0f} replies a second")


def generated(program: str, workers: int) -> None:
    """The script of `mal gen --jobs 256`, as a feed and as a script."""
    script = subprocess.run([program, "gen", "--seed", "1", "--jobs", "256"], capture_output=True, check=True).stdout
    seconds = {}
    for command in ("run", "serve"):
        at = time.perf_counter()
        subprocess.run([program, command, "--workers", str(workers)], input=script, capture_output=True, check=True)
        seconds[command] = time.perf_counter() - at
    print(f"256 generated jobs, {workers} workers: serve {seconds['serve']:.2f} s, run {seconds['run']:.2f} s")


def main() -> None:
    parser = argparse.ArgumentParser(description=__doc__.splitlines()[0])
    parser.add_argument("--program", default=str(ROOT / "crates/mal/out/mal"))
    parser.add_argument("--rounds", type=int, default=2000)
    parser.add_argument("--workers", type=int, default=4)
    words = parser.parse_args()
    small_revisions(words.program, words.workers, words.rounds)
    many_posts(words.program, words.workers)
    generated(words.program, words.workers)


if __name__ == "__main__":
    main()
