"""Reads a feed line by line, as `mal serve` does: what each line posts, spelled anew, or its fault (docs/FORMATS.md, Feeds)."""

import re
from dataclasses import dataclass, field
from typing import Iterable, Optional

MOST_TENANTS = 64
MOST_JOBS = 64  # of a tenant
MOST_PRIORITY = 1000
MOST_DEMAND = 64
MOST_SLICES = 4096  # of a revision
PROFILES = 2
MOST_REVISIONS = 256  # of a job
MOST_VARIABLES = 65536
MOST_CLAUSES = 2**20  # of a job
MOST_LITERALS = 2**24  # of a job

NAME = re.compile(rb"[a-z0-9_]{1,32}")
NUMBER = re.compile(rb"-?[0-9]+")
PLAIN = b"-0123456789 \t\r"  # the bytes of most lines of a block
DIGITS = 9  # more are above every limit


class Fault(Exception):
    """The first fault of a feed, as the service names it."""


@dataclass(eq=False)
class Job:
    """What the limits count of a job."""

    tenant: bytes
    name: bytes
    open: bool = True
    revisions: int = 0
    clauses: int = 0
    literals: int = 0


@dataclass
class Post:
    """A line that posts something: its letter, and what the service is to read, of `j` what stands after the name."""

    job: Job
    kind: bytes
    text: bytes


@dataclass
class Block:
    """Half a revision, up to its assumptions."""

    variables: int
    declared: int
    found: int = 0
    literals: int = 0
    clause: set[int] = field(default_factory=set)
    inside: bool = False  # a clause has literals and no 0 yet
    ended: int = 0  # 1 after the line `%`, 2 after the line `0` after it
    text: bytearray = field(default_factory=bytearray)  # the lines so far

    def line(self, line: bytes, words: list[bytes]) -> None:
        """A line that is no comment and not empty."""
        if words[0] == b"p":
            raise Fault("BadHeader")
        if self.ended:
            if self.ended == 2 or words != [b"0"]:
                raise Fault("Trailing")
            self.ended = 2
        elif words[0] == b"%":
            if len(words) > 1:
                raise Fault("Trailing")
            self.ended = 1
        else:
            self._numbers(line, words)

    def _numbers(self, line: bytes, words: list[bytes]) -> None:
        numbers = plain_numbers(line, words)
        if not self.inside and numbers.count(0) == 1 and numbers[-1] == 0:
            self._whole_clause(numbers)
        else:
            numbers = []
            for word in words:
                numbers.append(number_of(word, "BadNumber"))
                self._number(numbers[-1])
            line = b" ".join(b"%d" % number for number in numbers)
        self.text += line + b"\n"

    def _whole_clause(self, numbers: list[int]) -> None:
        """The same as number by number, sooner: most lines are a clause with its 0."""
        if max(numbers) > self.variables or min(numbers) < -self.variables:
            raise Fault("VarTooLarge")
        self.clause.update(numbers)
        self.clause.remove(0)
        self._number(0)

    def _number(self, number: int) -> None:
        if number:
            if not -self.variables <= number <= self.variables:
                raise Fault("VarTooLarge")
            self.clause.add(number)
            self.inside = True
            return
        if len(self.clause) == len(set(map(abs, self.clause))):
            self.literals += len(self.clause)
            if self.literals > MOST_LITERALS:
                raise Fault("Limit Literals")
        self.clause.clear()
        self.inside = False
        self.found += 1

    def end(self) -> None:
        """Judges it as a formula that ends here."""
        if self.found != self.declared:
            raise Fault(f"ClauseCount {self.declared} {self.found}")
        if self.inside:
            raise Fault("Trailing")

    def spelled(self, assumed: Iterable[int]) -> bytes:
        """The whole revision."""
        last = b" ".join([b"a", *(b"%d" % literal for literal in assumed), b"0"])
        return b"p cnf %d %d\n%s%s\n" % (self.variables, self.found, self.text, last)


class Feed:
    """Where a feed stands. After a fault it takes nothing more. More slices than are given here are out of range as well, and
    a greater demand than is given here is spelled as that."""

    def __init__(self, slices: int = MOST_SLICES, demand: int = MOST_DEMAND) -> None:
        self._slices = slices
        self._demand = demand
        self.number = 0  # of the last line
        self.jobs: dict[bytes, dict[bytes, Job]] = {}
        self.tenant: Optional[bytes] = None
        self.job: Optional[Job] = None
        self.block: Optional[Block] = None

    def size(self) -> int:
        """The bytes that are kept of half a revision."""
        return len(self.block.text) if self.block else 0

    def line(self, line: bytes) -> Optional[Post]:
        """What the next line posts, without its end."""
        self.number += 1
        words = words_of(line)
        if not words or words[0].startswith(b"c"):
            return None
        if self.block and words[0] != b"a":
            self.block.line(line, words)
            return None
        handlers = {b"t": self._tenant, b"j": self._job, b"p": self._header}
        handlers.update({b"a": self._assumed, b"q": self._ask, b"e": self._end})
        want(words[0] in handlers)
        return handlers[words[0]](words)

    def end(self) -> None:
        """The end of the input, which may not stand in a block. The fault is that of the last line."""
        self.number = max(self.number, 1)
        if self.block:
            self.block.end()
            raise Fault("BadLine")

    def _tenant(self, words: list[bytes]) -> None:
        want(len(words) == 2 and is_name(words[1]))
        if words[1] not in self.jobs and len(self.jobs) == MOST_TENANTS:
            raise Fault("Limit Tenants")
        self.tenant = words[1]
        self.job = None
        self.jobs.setdefault(self.tenant, {})

    def _job(self, words: list[bytes]) -> Optional[Post]:
        want(len(words) in (2, 5, 6) and is_name(words[1]))
        numbers = [number_of(word, "BadLine") for word in words[2:]]
        want(self.tenant is not None)
        jobs = self.jobs[self.tenant]
        name = words[1]
        if not numbers:
            want(name in jobs and jobs[name].open)
            self.job = jobs[name]
            return None
        for number, most in zip(numbers, (MOST_PRIORITY, MOST_DEMAND, self._slices, PROFILES)):
            want(1 <= number <= most, "Range")
        if name in jobs:
            raise Fault(f"Duplicate {self.tenant.decode()} {name.decode()}")
        want(len(jobs) < MOST_JOBS, "Limit Jobs")
        self.job = jobs[name] = Job(self.tenant, name)
        numbers[1] = min(numbers[1], self._demand)
        return Post(self.job, b"j", b"".join(b" %d" % number for number in numbers) + b"\n")

    def _header(self, words: list[bytes]) -> None:
        want(self.job is not None)
        want(self.job.revisions < MOST_REVISIONS, "Limit Revisions")
        if len(words) != 4 or words[1] != b"cnf" or not (words[2] + words[3]).isdigit():
            raise Fault("BadHeader")
        variables, clauses = (number_of(word, "BadHeader") for word in words[2:])
        want(variables <= MOST_VARIABLES, "Limit Variables")
        want(clauses <= MOST_CLAUSES, "Limit Clauses")
        self.block = Block(variables, clauses)

    def _assumed(self, words: list[bytes]) -> Post:
        want(self.block is not None)
        self.block.end()
        numbers = [number_of(word, "BadLine") for word in words[1:]]
        want(numbers[-1:] == [0] and 0 not in numbers[:-1])
        assumed = dict.fromkeys(numbers[:-1])
        want(all(abs(literal) <= self.block.variables for literal in assumed), "Range")
        opposite = min((abs(literal) for literal in assumed if -literal in assumed), default=0)
        if opposite:
            raise Fault(f"Opposite {opposite}")
        want(self.job.clauses + self.block.found <= MOST_CLAUSES, "Limit Clauses")
        want(self.job.literals + self.block.literals <= MOST_LITERALS, "Limit Literals")
        self.job.clauses += self.block.found
        self.job.literals += self.block.literals
        self.job.revisions += 1
        block, self.block = self.block, None
        return Post(self.job, b"a", block.spelled(assumed))

    def _ask(self, words: list[bytes]) -> Post:
        want(len(words) == 3)
        numbers = [number_of(word, "BadLine") for word in words[1:]]
        want(self.job is not None)
        want(1 <= numbers[0] <= MOST_PRIORITY and 1 <= numbers[1] <= MOST_DEMAND, "Range")
        return Post(self.job, b"q", b"q %d %d\n" % (numbers[0], min(numbers[1], self._demand)))

    def _end(self, words: list[bytes]) -> Post:
        want(len(words) == 1 and self.job is not None)
        job, self.job = self.job, None
        job.open = False
        return Post(job, b"e", b"e\n")


def want(good: bool, fault: str = "BadLine") -> None:
    if not good:
        raise Fault(fault)


def words_of(line: bytes) -> list[bytes]:
    """The words of a line. Blanks are space, tab and CR alone, which is fewer than `split` takes for blanks."""
    if b"\x0b" in line or b"\x0c" in line:
        return [word for word in line.replace(b"\t", b" ").replace(b"\r", b" ").split(b" ") if word]
    return line.split()


def plain_numbers(line: bytes, words: list[bytes]) -> list[int]:
    """The numbers of a line that has nothing else; none where that is not seen at once."""
    if line.translate(None, PLAIN) or b"-0" in line:
        return []
    try:
        return list(map(int, words))
    except ValueError:
        return []


def is_name(word: bytes) -> bool:
    return NAME.fullmatch(word) is not None


def number_of(word: bytes, fault: str) -> int:
    """The value of a number word; of one with more digits than any limit has, a value above all of them."""
    if not NUMBER.fullmatch(word):
        raise Fault(fault)
    digits = word.lstrip(b"-").lstrip(b"0")
    if not digits:
        want(word[:1] != b"-", fault)
        return 0
    number = int(digits) if len(digits) <= DIGITS else 10**DIGITS
    return -number if word[:1] == b"-" else number
