"""Why a line of a history is refused, for mal-explain."""

from collections import Counter
from fractions import Fraction
from typing import Iterator

from mal_fault_lines import ASKS, MOST, Found, Job, Row, check_asks, check_name, check_range, check_words, counted, job_name, quote

FORMS = {
    "h": "`h mal VERSION WORKERS`", "o": "`o TENANT JOB PRIORITY DEMAND SLICES [PROFILE]`", "r": "`r TENANT JOB R`",
    "q": "`q TENANT JOB PRIORITY DEMAND`", "c": "`c TENANT JOB`", "s": "`s TENANT JOB INDEX WORKER`",
    "f": "`f TENANT JOB INDEX WORKER OUTCOME`", "x": "`x TENANT JOB`",
}


class History:
    """A history of which some lines are read, and what can be said of its jobs without running slices."""

    is_judged = False  # whether the line that is taken is the one that is refused; the others are not looked at so closely

    def __init__(self, header: Row) -> None:
        self.workers = int(header.words[3])
        self.asks: dict[Job, list[int]] = {}
        self.revisions: Counter[Job] = Counter()
        self.closed: set[Job] = set()
        self.posts: dict[str, list[str]] = {}  # of each tenant, in its order
        self.volumes: dict[Job, int] = {}  # of the last balancing
        self.starts: Counter[tuple[Job, int]] = Counter()
        self.starts_of: Counter[Job] = Counter()
        self.out: dict[int, tuple[Job, int]] = {}

    def take(self, words: list[str], posts: dict[Job, list[str]]) -> str:
        """Takes an event of a job or a balancing, and says why it may not come here, where that can be said. The posts are the script's
        for each job."""
        if words[0] == "b":
            return self.balance(list(zip(words[1::3], words[2::3])), [int(word) for word in words[3::3]])
        job, letter, numbers = (words[1], words[2]), words[0], [int(word) for word in words[3:] if word.isdigit()]
        if letter == "o":
            why = f"{job_name(job)} was opened before" if job in self.asks else ""
            self.asks[job] = [*numbers, 1][:4]
        else:
            why = "" if job in self.asks else f"{job_name(job)} was not opened before"
        if letter in "oqrc":
            self.posts.setdefault(job[0], []).append(post(letter, job, numbers))
        if letter in "qrc":
            why = why or self.step(letter, job, numbers, posts.get(job, []))
        elif letter == "s":
            why = why or self.start(job, *numbers)
        elif letter == "f":
            started = self.out.pop(numbers[1], None)
            has = f"its start is of node {started[1]} of {job_name(started[0])}" if started else "it has no start"
            why = why or ("" if started == (job, numbers[0]) else f"worker {numbers[1]} has nothing like this to end: {has}")
        return why

    def step(self, letter: str, job: Job, numbers: list[int], posts: list[str]) -> str:
        if job in self.closed:
            return f"{job_name(job)} was closed before"
        if letter == "q":
            self.asks[job][:2] = numbers
        elif letter == "c":
            self.closed.add(job)
        else:
            self.revisions[job] += 1
            if numbers[0] != self.revisions[job]:
                return f"the next revision of {job_name(job)} is {self.revisions[job]}, here {numbers[0]}"
            if post("r", job, numbers) not in posts:
                has = counted(sum(own[0] == "r" for own in posts), "revision")
                return f"the script has {has} of {job_name(job)}, here is revision {numbers[0]}"
        return ""

    def start(self, job: Job, index: int, worker: int) -> str:
        first = min(self.may_start(), default=None) if self.is_judged else None
        before, is_out = self.out.get(worker), (job, index) in self.out.values()
        so_far = self.starts[job, index]
        self.starts[job, index] += 1
        self.starts_of[job] += 1
        self.out[worker] = (job, index)
        if before:
            return f"worker {worker} has a start already: node {before[1]} of {job_name(before[0])}"
        if is_out:
            return f"node {index} of {job_name(job)} has a start already"
        if index >= self.volumes.get(job, 0):
            given = f"gave it {counted(self.volumes[job], 'worker')}" if job in self.volumes else "does not name it"
            return f"node {index} of {job_name(job)} may not start: the last balancing {given}"
        if first and first[2:] != (job, index):
            comes = f"node {first[3]} of {job_name(first[2])} with {counted(first[0], 'start')} comes before one with {so_far}"
            return f"{comes}: the fewest starts come first, then the order of opening"
        return ""

    def may_start(self) -> Iterator[tuple[int, int, Job, int]]:
        """The nodes at home below their volumes, by their starts, the opening of their jobs, and index. A job whose budget may be used
        up is left out."""
        for place, (job, ask) in enumerate(self.asks.items()):
            for index in range(self.volumes.get(job, 0) if self.starts_of[job] < ask[2] else 0):
                if (job, index) not in self.out.values():
                    yield self.starts[job, index], place, job, index

    def balance(self, jobs: list[Job], given: list[int]) -> str:
        self.volumes = dict(zip(jobs, given))
        if not self.is_judged:
            return ""
        places = {job: place for place, job in enumerate(self.asks)}
        for at, job in enumerate(jobs):
            if not self.revisions[job]:
                return f"{job_name(job)} waits for no answer: " + ("it has no revision" if job in places else "it was not opened before")
            if at and places[job] <= places[jobs[at - 1]]:
                return f"{job_name(job)} stands out of order: jobs stand once each, as they were opened"
        for job, volume, wanted in zip(jobs, given, self.fair(jobs)):
            if volume != wanted:
                return f"the fair volume of {job_name(job)} among these is {wanted}, here {volume}"
        return ""

    def fair(self, jobs: list[Job]) -> list[int]:
        """A worker for each of the first jobs, and each further one for the job with the best claim: its priority by its volume."""
        asks = [self.asks[job] for job in jobs]
        volumes = [1 if at < self.workers else 0 for at in range(len(jobs))]
        for _ in range(self.workers - sum(volumes)):
            below = [at for at, volume in enumerate(volumes) if 0 < volume < asks[at][1]]
            if below:
                volumes[max(below, key=lambda at: (Fraction(asks[at][0], volumes[at]), -at))] += 1
        return volumes

    def lacks(self, posts: dict[Job, list[str]]) -> str:
        """What lacks at the end for a script with these posts of each job."""
        wanted: dict[str, list[str]] = {}
        for (tenant, _), own in posts.items():
            wanted.setdefault(tenant, []).append(own[0])
        for (tenant, _), own in posts.items():
            wanted[tenant] += own[1:]
        for tenant in [*wanted, *self.posts]:
            here, there = self.posts.get(tenant, []), wanted.get(tenant, [])
            at = next((at for at, (own, other) in enumerate(zip(here, there)) if own != other), min(len(here), len(there)))
            if at < max(len(here), len(there)):
                has, wants = (quote(part[at]) if at < len(part) else "nothing" for part in (here, there))
                return f"of tenant {quote(tenant)} the script wants {wants} after {counted(at, 'post')}, here is {has}"
        for worker, (job, index) in self.out.items():
            return f"the start of node {index} of {job_name(job)} at worker {worker} has no finish"
        return "not every revision has its answer at the end: balancings and starts are to come after this"


def post(letter: str, job: Job, numbers: list[int]) -> str:
    """A post as a history writes it."""
    return " ".join([letter, *job, *map(str, numbers)])


def posts_of(script: list[Row]) -> dict[Job, list[str]]:
    """What a script without a fault posts of each job."""
    posts: dict[Job, list[str]] = {}
    tenant, job, in_block, count = "", ("", ""), False, 0
    for row in script:
        words = row.words
        if row.is_passed():
            continue
        if in_block:
            in_block = row.first != "a"
        elif row.first == "t":
            tenant = words[1]
        elif row.first == "j":
            job, count = (tenant, words[1]), 0
            numbers = [int(word) for word in words[2:]]
            posts[job] = [post("o", job, numbers[:3] if numbers[3:] == [1] else numbers)]
        elif row.first == "p":
            in_block, count = True, count + 1
            posts[job].append(post("r", job, [count]))
        else:
            posts[job].append(post("q" if row.first == "q" else "c", job, [int(word) for word in words[1:]]))
    return posts


NOT_DUE = {
    "b": "no balancing comes here: the jobs that wait for an answer are others than these, or as they were at the last one",
    "s": "no start comes here: a balancing is due, since others wait for an answer than at the last one, or an exchange is",
    "x": "no exchange of this job comes here: it is not due, or another one or a balancing is due before",
}


def why_history(before: list[Row], rows: list[Row], row: Row, fault: list[str]) -> None:
    """Why a line of a history is refused, or where it is none, what lacks at its end."""
    counting = [other for other in rows if other.first]
    if fault and fault[0] in ("BadLine", "BadNumber", "TooLong"):
        if not counting:
            raise Found(f"the history has no line: the first one is the header {FORMS['h']}", None)
        (check_history_header if counting[0] is row else check_event)(row.words, counting[0].words)
        raise Found(f"{1 << 24:,} events at most")
    history, posts, why = History(counting[0]), posts_of(before), ""
    for other in counting[1:]:
        history.is_judged = other is row
        why = history.take(other.words, posts)
    if fault:
        raise Found(why or NOT_DUE.get(row.first, "this event may not come after those before it"))
    raise Found(history.lacks(posts), None)


def check_history_header(words: list[str], _: list[str]) -> None:
    check_words(words, FORMS["h"])
    if words[:2] != ["h", "mal"]:
        at = 0 if words[0] != "h" else 1
        raise Found(f"the header {FORMS['h']} is to come first, here {quote(words[at])}", at)
    if words[2] not in ("1", "2"):
        raise Found(f"the version is `1` or `2`, here {quote(words[2])}" + ": histories of a cluster are not read" * (words[2] == "3"), 2)
    check_range(words, 3, "the number of workers", 1, 64)


def check_event(words: list[str], header: list[str]) -> None:
    letter = words[0]
    if letter == "b":
        check_balancing(words)
        return
    if letter not in FORMS or letter == "h" or (letter == "q" and header[2] == "1"):
        raise Found(f"{quote(letter)} begins no event" + (" under version 1, which the header names" if letter == "q" else ""))
    check_words(words, FORMS[letter])
    check_name(words[1], 1, "tenant")
    check_name(words[2], 2, "job")
    if letter in "oq":
        check_asks(words, 3)
        if words[6:] and int(words[6]) == 1:
            raise Found("profile 1 is not written", 6)
    elif letter == "r":
        check_range(words, 3, "the number of a revision", 1, MOST["Revisions"])
    elif letter in "sf":
        if letter == "f" and words[5] not in ("ran", "starved", "lost"):
            raise Found(f"the outcome is `ran`, `starved` or `lost`, here {quote(words[5])}", 5)
        check_range(words, 3, "the index of a node", 0, 63)
        check_range(words, 4, "the number of a worker", 1, int(header[3]))


def check_balancing(words: list[str]) -> None:
    for at in range(1, len(words), 3):
        if at + 2 >= len(words):
            raise Found("a word is missing: after `b` stand `TENANT JOB VOLUME` for each job that waits", None)
        check_name(words[at], at, "tenant")
        check_name(words[at + 1], at + 1, "job")
    for at in range(3, len(words), 3):
        check_range(words, at, "a volume", 0, ASKS["demand"])
