"""A conversation with `mal serve`: one job of one tenant, whose revisions are posted and answered one after the other."""

import re
import signal
import subprocess
import threading
from dataclasses import dataclass
from typing import Iterable, Iterator

from mal_call import REVISIONS, STOPS, Failure, failure_of, leave_stops_to_parent, program
from mal_formula import Part

VERDICT = rb"(SATISFIABLE(?=\nv)|UNSATISFIABLE(?=\nk)|UNKNOWN(?=\nu))"
REPLY = re.compile(rb"r .*\ns " + VERDICT + rb"\n[vku] ([-0-9 ]*0|spent [0-9]+|starved [0-9]+)\n")
FAULT = re.compile(r"fault: (?:feed|script) line (\d+) (.*)")


@dataclass
class Reply:
    """A verdict, and the line after it without its letter: a model, the failed assumptions, or why it is unknown."""

    verdict: str
    values: str

    def is_spent(self) -> bool:
        """Whether slices were wanting."""
        return self.values.startswith("spent ")


class Service:
    """A service with a job, which is opened by the first revision. `slices` counts those that were run for it."""

    def __init__(self, workers: int, slices: int, profile: int) -> None:
        self.job = b"t t\nj p 1 %d %d %d\n" % (workers, slices, profile)
        self.slices = 0
        self.revisions = 0
        self.told: list[tuple[int, int]] = []  # of each part that was posted its first line in the formula, and how many it has
        self.last = b""
        self.failed = ""
        words = [program(), "serve", "--workers", str(workers)]
        pipe = subprocess.PIPE
        try:
            self.process = subprocess.Popen(words, stdin=pipe, stdout=pipe, stderr=pipe, preexec_fn=leave_stops_to_parent)
        except OSError as fault:
            raise Failure(f"{program()}: {fault.strerror}") from fault
        self.follower = threading.Thread(target=self.follow, daemon=True)
        self.follower.start()

    def follow(self) -> None:
        """Reads the history as it is written. Its last line may be a fault."""
        signal.pthread_sigmask(signal.SIG_BLOCK, STOPS)
        for line in self.process.stderr:
            self.last = line
            self.slices += line.startswith(b"f ") and line.endswith(b" ran\n")

    def is_full(self) -> bool:
        """Whether the job can have no further revision."""
        return self.revisions == REVISIONS

    def ask(self, parts: list[Part]) -> Reply:
        """The reply to a revision, a block with its assumptions. A fault names the line of the formula."""
        parts = [(1, self.job), *parts]
        self.told += [(line, text.count(b"\n")) for line, text in parts]
        try:
            self.post(text for _, text in parts)
            return self.reply()
        except Failure as failure:
            raise told_in_formula(failure, self.told) from failure

    def post(self, lines: Iterable[bytes]) -> None:
        """Posts a revision."""
        self.revisions += 1
        self.job = b""
        try:
            self.process.stdin.writelines(lines)
            self.process.stdin.flush()
        except BrokenPipeError as fault:
            raise self.failure() from fault

    def reply(self) -> Reply:
        """The reply to the revision that was posted; of a refutation all but its proof. What is left of a proof before it is
        passed over."""
        line = b"l "
        while line.startswith(b"l "):
            line = self.line()
        found = REPLY.fullmatch(line + self.line() + self.line())
        if found is None:
            raise self.no_reply()
        self.failed = found[2].decode()
        return Reply(found[1].decode(), self.failed)

    def proof(self) -> Iterator[bytes]:
        """The lines of the proof of a refutation, without their letter. It ends with the first line whose clause has the
        negations of the failed assumptions and nothing else."""
        goal = {b"%d" % -int(word) for word in self.failed.split()[:-1]}
        while True:
            line = self.line()
            if not line.startswith(b"l "):
                raise self.no_reply()
            yield line[2:]
            *literals, zero = line.split(b" ", len(goal) + 3)[2:-1] or [b""]
            if zero == b"0" and set(literals) == goal:
                return

    def line(self) -> bytes:
        """The next line of the replies."""
        line = self.process.stdout.readline()
        if not line.endswith(b"\n"):
            raise self.failure()
        return line

    def no_reply(self) -> Failure:
        """What is read is nothing that the program would write."""
        return Failure(f"{program()}: what it writes is no reply")

    def failure(self) -> Failure:
        """Why the service ended before its job."""
        while self.process.stdout.read(1 << 16):
            pass
        status = self.process.wait()
        self.follower.join()
        if status == 0:
            return Failure(f"{program()}: it ended without a reply")
        return failure_of(status, self.last)

    def close(self) -> None:
        """Ends the service, whatever it does."""
        self.process.kill()
        self.process.wait()


def told_in_formula(failure: Failure, told: Iterable[tuple[int, int]]) -> Failure:
    """A fault with the line that it has in the formula, of parts of which each has this first line there, and so many."""
    found = FAULT.fullmatch(str(failure))
    if found is None:
        return failure
    behind = int(found[1])
    for line, count in told:
        if behind <= count:
            return Failure(f"fault: formula line {line + behind - 1} {found[2]}")
        behind -= count
    return failure
