"""Talks to a live service of mal: posts revisions of jobs, and has a future of each reply.

    from mal_service import Service

    with Service(workers=4) as service:
        job = service.job("demo", "colours", slices=64)
        job.add([[1, 2], [-1, 3]])
        job.solve([-2])                     # Satisfiable(model=(1, -2, 3))
        job.solve([-2, -3])                 # Unsatisfiable(failed=(-2, -3), proof=('3 2 3 0 1 2 0',))
        futures = [job.post([[v, v + 1]]) for v in (3, 4, 5)]
        replies = [future.result() for future in futures]

A job is a question that grows: each post is its next revision, clauses that join those before and assumptions for that revision
alone, and its solver keeps what it learned. `Solver` puts the calls that users of PySAT know before a job of its own.

`Service(workers=N)` starts `mal serve`: `program`, where that is given, else the variable MAL, else `./mal` of this repository,
else `mal` of the PATH. `Service.connect(address)` talks to a listener, `bin/mal-listen`, which many clients share.

A literal is a number of DIMACS: v for variable v, -v for its negation. All that is posted is tested before it is sent: what is
beyond a limit, or in no form, is a ValueError that names the limit, and then nothing was posted. Any number of threads may post.
A service has one thread that reads the replies and, where it was started here, one that reads the history. Futures are resolved
in the first, and so are their callbacks, which must neither wait nor post; `asyncio.wrap_future` suits programs in asyncio.

A program that asks thousands of short questions of one formula links the solver instead (`mal.py` beside this file). Needs Python
3.9 and no package.
"""

import os
import re
import shutil
import signal
import socket
import subprocess
import threading
import weakref
from collections import deque
from concurrent.futures import Future
from dataclasses import dataclass
from itertools import count
from operator import index
from pathlib import Path
from types import TracebackType
from typing import BinaryIO, Iterable, Iterator, Optional, Union

__all__ = ["Job", "Reply", "Satisfiable", "Service", "ServiceGone", "Solver", "Unknown", "Unsatisfiable", "claim"]

MOST_WORKERS = 64
MOST_TENANTS = 64
MOST_JOBS = 64  # of a tenant
MOST_PRIORITY = 1000
MOST_DEMAND = 64
MOST_SLICES = 4096  # of a revision
MOST_REVISIONS = 256  # of a job
MOST_VARIABLES = 65536
MOST_CLAUSES = 2**20  # of a job
MOST_LITERALS = 2**24  # of a job
PROFILES = 2
NAME = re.compile("[a-z0-9_]{1,32}")
REASONS = {4: "its input could not be read", 5: "its output could not be written", 6: "memory ran out"}
SECONDS = 10  # for a service that takes nothing more to say why

Address = Union[str, tuple[str, int]]


@dataclass(frozen=True)
class Satisfiable:
    """A model of the clauses so far and the assumptions: of each variable in order the literal that is true."""

    model: tuple[int, ...]


@dataclass(frozen=True)
class Unsatisfiable:
    """Nothing satisfies the clauses so far and the failed assumptions, as these lines of LRAT prove. The job's clauses are numbered
    from 1 on in the order in which they were posted; `claim` writes what `mal check` takes."""

    failed: tuple[int, ...]
    proof: tuple[str, ...]


@dataclass(frozen=True)
class Unknown:
    """No verdict: so many slices were `spent`, or so many starts `starved`, which ran out of memory."""

    cause: str
    count: int


Reply = Union[Satisfiable, Unsatisfiable, Unknown]


class ServiceGone(Exception):
    """The service has ended, or was closed, with this revision unanswered."""


class _Process:
    """A service that was started here, with pipes to and from it. A thread reads the history."""

    def __init__(self, workers: int, program: Optional[str], history: Optional[BinaryIO], owned: bool) -> None:
        self._history = history
        self._owned = owned
        self._last = b""
        self.error: Optional[OSError] = None
        self._process = subprocess.Popen(
            [program or _find_program(), "serve", "--workers", str(workers)],
            stdin=subprocess.PIPE,
            stdout=subprocess.PIPE,
            stderr=subprocess.PIPE,
            start_new_session=True,  # an interrupt on the terminal is the caller's, who may go on with the service
        )
        self.lines = self._process.stdout
        self._thread = threading.Thread(target=self._follow, name="mal history", daemon=True)
        self._thread.start()

    def _follow(self) -> None:
        """Keeps the history or drops it. After a fault of its file the rest is dropped, so that the service never waits."""
        for line in self._process.stderr:
            self._last = line
            if self._history and not self.error:
                try:
                    self._history.write(line)
                except OSError as error:
                    self.error = error

    def write(self, text: memoryview) -> int:
        return os.write(self._process.stdin.fileno(), text)

    def end_input(self) -> None:
        self._process.stdin.close()

    def stop(self) -> None:
        """Kills it, with what it may have started."""
        try:
            if self._process.poll() is None:
                os.killpg(self._process.pid, signal.SIGKILL)
        except ProcessLookupError:
            pass  # it was first

    def release(self) -> None:
        """After the end, with no writer left."""
        self.end_input()

    def end(self) -> str:
        """After the last reply was read: what went wrong, if something did."""
        try:
            status = self._process.wait(SECONDS)
        except subprocess.TimeoutExpired:
            self.stop()  # it has closed its output and goes on
            status = self._process.wait()
        self._thread.join()
        for stream in (self._process.stdout, self._process.stderr):
            stream.close()
        try:
            if self._history:
                self._history.close() if self._owned else self._history.flush()
        except OSError as error:
            self.error = self.error or error
        if status in (0, -9):
            return "" if status == 0 else "it was stopped"
        last = self._last.decode(errors="replace").strip()
        return last if status in (1, 2, 3) and last else REASONS.get(status, f"it ended with status {status}")


class _Socket:
    """A connection to a listener, which keeps the history."""

    error: Optional[OSError] = None

    def __init__(self, address: Address) -> None:
        self._socket = socket.socket(socket.AF_UNIX if isinstance(address, str) else socket.AF_INET)
        try:
            self._socket.connect(address)
        except BaseException:
            self._socket.close()
            raise
        self.lines = self._socket.makefile("rb")

    def write(self, text: memoryview) -> int:
        return self._socket.send(text)

    def end_input(self) -> None:
        self._shut(socket.SHUT_WR)

    def stop(self) -> None:
        self._shut(socket.SHUT_RDWR)

    def _shut(self, how: int) -> None:
        try:
            self._socket.shutdown(how)
        except OSError:
            pass  # the other side was first

    def end(self) -> str:
        self.lines.close()
        return ""

    def release(self) -> None:
        self._socket.close()


class _Link:
    """What a service's jobs share: the order of what is written, and the futures of what was posted."""

    def __init__(self, transport: Union[_Process, _Socket]) -> None:
        self.lock = threading.Lock()  # for what is written
        self._transport = transport
        self._tenant: Optional[str] = None
        self._job: Optional[tuple[str, str]] = None
        self._closed = False
        self._waiting_lock = threading.Lock()
        self._waiting: dict[tuple[str, str], deque["Future[Reply]"]] = {}
        self._gone: Optional[str] = None
        self._thread = threading.Thread(target=self._read, name="mal replies", daemon=True)
        self._thread.start()

    def send(self, key: tuple[str, str], text: str, future: Optional["Future[Reply]"] = None, opens: bool = False) -> None:
        """Writes lines of a job, after the lines that go over to it. Under the lock."""
        if self._closed:
            raise ServiceGone("the service is closed")
        if future:
            self._await(key, future)
        front = "" if self._tenant == key[0] else f"t {key[0]}\n"
        if not opens and self._job != key:
            front += f"j {key[1]}\n"
        self._tenant, self._job = key[0], key
        self._write(memoryview((front + text).encode()))

    def _await(self, key: tuple[str, str], future: "Future[Reply]") -> None:
        with self._waiting_lock:
            if self._gone is not None:
                raise ServiceGone(self._gone)
            self._waiting.setdefault(key, deque()).append(future)

    def _write(self, text: memoryview) -> None:
        try:
            while text:
                text = text[self._transport.write(text) :]
        except OSError as error:
            self._transport.stop()
            if threading.current_thread() is not self._thread:
                self._thread.join(SECONDS)  # it knows more
            raise ServiceGone(self._gone or str(error)) from error
        except BaseException:
            self._transport.stop()  # an interrupt in the middle of a line, which nothing may follow
            raise

    def _read(self) -> None:
        """Resolves the futures, in the thread of its own, and at the end fails those that are left."""
        why = ""
        try:
            for key, reply in _replies(self._transport.lines):
                with self._waiting_lock:
                    future = self._waiting[key].popleft()
                    if not self._waiting[key]:
                        del self._waiting[key]
                future.set_result(reply)
        except ServiceGone as fault:
            why = str(fault)
        except (OSError, ValueError, LookupError) as error:
            self._transport.stop()
            why = f"what it wrote is no reply ({error})"
        ended = self._transport.end()
        with self._waiting_lock:
            self._gone = why or ended or "the service has ended"
            left = [future for futures in self._waiting.values() for future in futures]
            self._waiting.clear()
        for future in left:
            future.set_exception(ServiceGone(self._gone))

    def close(self, timeout: Optional[float]) -> None:
        """Ends the input and waits until the last reply was read; where that takes longer, the service is stopped."""
        with self.lock:
            if not self._closed:
                self._closed = True
                try:
                    self._transport.end_input()
                except OSError:
                    pass  # it has ended
        if threading.current_thread() is self._thread:
            return
        self._thread.join(timeout)
        self.stop()
        error, self._transport.error = self._transport.error, None
        if error:
            raise error

    def stop(self) -> None:
        """Ends it at once, and gives everything back."""
        self._closed = True
        self._transport.stop()
        if threading.current_thread() is not self._thread:
            self._thread.join()
            with self.lock:
                self._transport.release()


class Service:
    """A live service. Leaving a `with` serves what was posted to its end; after an exception it stops at once."""

    def __init__(
        self, workers: int = 1, *, program: Optional[str] = None, history: Union[None, str, "os.PathLike[str]", BinaryIO] = None
    ) -> None:
        """Starts a service of 1 to 64 workers. Its history goes to the file `history`, a path or a file for bytes, else nowhere."""
        _check("workers", workers, MOST_WORKERS)
        owned = isinstance(history, (str, os.PathLike))
        file = open(history, "wb") if isinstance(history, (str, os.PathLike)) else history
        try:
            self._begin(_Process(workers, program, file, owned))
        except BaseException:
            if owned and file:
                file.close()
            raise

    @classmethod
    def connect(cls, address: Union[int, Address]) -> "Service":
        """A connection to a listener: the path of its unix socket, its port of this host, or a pair of host and port. Names are
        of this connection alone."""
        service = cls.__new__(cls)
        service._begin(_Socket(("127.0.0.1", address) if isinstance(address, int) else address))
        return service

    def _begin(self, transport: Union[_Process, _Socket]) -> None:
        self._link = _Link(transport)
        self._names: dict[str, set[str]] = {}
        self._end = weakref.finalize(self, transport.stop)  # of a service that nobody closed

    def job(
        self,
        tenant: str,
        name: Optional[str] = None,
        *,
        priority: int = 1,
        demand: int = 1,
        slices: int = MOST_SLICES,
        profile: int = 1,
    ) -> "Job":
        """Opens a job, under a name of its own where none is given. A tenant's names are used once, also after a job was closed."""
        for word in (tenant, "free" if name is None else name):
            if not isinstance(word, str) or not NAME.fullmatch(word):
                raise ValueError(f"{word!r} is no name: 1 to 32 small letters, digits and underlines")
        _check_ask(priority, demand)
        _check("slices", slices, MOST_SLICES)
        _check("profile", profile, PROFILES)
        with self._link.lock:
            if name is None:
                used = self._names.get(tenant, set())
                name = next(word for word in map(str, range(1, MOST_JOBS + 2)) if word not in used)
            self._check_names(tenant, name)
            last = "" if profile == 1 else f" {profile}"
            self._link.send((tenant, name), f"j {name} {priority} {demand} {slices}{last}\n", opens=True)
            self._names.setdefault(tenant, set()).add(name)
        return Job(self, self._link, (tenant, name))

    def _check_names(self, tenant: str, name: str) -> None:
        names = self._names.get(tenant)
        if names is None and len(self._names) == MOST_TENANTS:
            raise ValueError(f"a service has at most {MOST_TENANTS} tenants")
        if names and name in names:
            raise ValueError(f"there is, or was, a job {name} of {tenant}")
        if names and len(names) == MOST_JOBS:
            raise ValueError(f"a tenant has at most {MOST_JOBS} jobs, closed ones too")

    def close(self, *, timeout: Optional[float] = None) -> None:
        """Closes all jobs and waits until what was posted is answered, so many seconds at most; then the service is stopped, and
        what is left unanswered fails with ServiceGone. An OSError where the history could not be written."""
        self._link.close(timeout)
        self._end.detach()

    def stop(self) -> None:
        """Ends the service at once: what is left unanswered fails with ServiceGone."""
        self._link.stop()
        self._end.detach()

    def __enter__(self) -> "Service":
        return self

    def __exit__(
        self, kind: Optional[type[BaseException]], error: Optional[BaseException], trace: Optional[TracebackType]
    ) -> None:
        self.close() if kind is None else self.stop()


class Job:
    """A job of a service, as `Service.job` opens it."""

    def __init__(self, service: Service, link: _Link, key: tuple[str, str]) -> None:
        self.tenant, self.name = key
        self.variables = 0  # the greatest that was named, or asked for
        self.revisions = 0  # that were posted
        self._service = service  # which is there as long as its jobs
        self._link = link
        self._lock = threading.RLock()
        self._clauses = 0
        self._literals = 0
        self._added: list[str] = []
        self._closed = False

    def add(self, clauses: Iterable[Iterable[int]]) -> None:
        """Clauses for the next revision. A ValueError where one of them is none or is beyond a limit, and then none was added."""
        with self._lock:
            self._want_open()
            lines, variables, literals = [], self.variables, self._literals
            for clause in clauses:
                kept = _literals(clause)
                lines.append(" ".join(map(str, kept)) + " 0\n" if kept else "0\n")
                variables = max(variables, _greatest(kept))
                literals += 0 if _has_opposites(kept) else len(kept)
            if self._clauses + len(lines) > MOST_CLAUSES:
                raise ValueError(f"a job has at most {MOST_CLAUSES:,} clauses")
            if literals > MOST_LITERALS:
                raise ValueError(f"a job has at most {MOST_LITERALS:,} literals")
            self.variables, self._literals = variables, literals
            self._clauses += len(lines)
            self._added += lines

    def post(
        self, clauses: Iterable[Iterable[int]] = (), assumptions: Iterable[int] = (), *, variables: int = 0
    ) -> "Future[Reply]":
        """Posts what was added, and these clauses, as the next revision. The future has its reply, or fails with ServiceGone; it
        cannot be cancelled. With `variables` a model is of at least so many."""
        with self._lock:
            self._want_open()
            assumed = _literals(assumptions)
            if _has_opposites(assumed):
                raise ValueError("the assumptions have both signs of a variable")
            if self.revisions == MOST_REVISIONS:
                raise ValueError(f"a job has at most {MOST_REVISIONS} revisions")
            if variables:
                _check("variables", variables, MOST_VARIABLES)
            self.add(clauses)
            self.variables = max(self.variables, variables, _greatest(assumed))
            text = f"p cnf {self.variables} {len(self._added)}\n" + "".join(self._added)
            text += " ".join(map(str, ["a", *assumed, 0])) + "\n"
            future: "Future[Reply]" = Future()
            future.set_running_or_notify_cancel()
            with self._link.lock:
                self._link.send((self.tenant, self.name), text, future)
            self._added = []
            self.revisions += 1
            return future

    def solve(self, assumptions: Iterable[int] = (), *, timeout: Optional[float] = None) -> Reply:
        """Posts what was added as the next revision, and waits for the reply. After so many seconds without one it raises
        concurrent.futures.TimeoutError; the revision stays posted."""
        return self.post((), assumptions).result(timeout)

    def ask(self, priority: int, demand: int) -> None:
        """From here on the job has this priority, and asks for so many solvers at a time."""
        _check_ask(priority, demand)
        with self._lock, self._link.lock:
            self._want_open()
            self._link.send((self.tenant, self.name), f"q {priority} {demand}\n")

    def close(self) -> None:
        """Ends the job. What was posted is still answered."""
        with self._lock, self._link.lock:
            if not self._closed:
                self._link.send((self.tenant, self.name), "e\n")
                self._closed = True

    def __enter__(self) -> "Job":
        return self

    def __exit__(
        self, kind: Optional[type[BaseException]], error: Optional[BaseException], trace: Optional[TracebackType]
    ) -> None:
        try:
            self.close()
        except ServiceGone:
            if kind is None:
                raise

    def _want_open(self) -> None:
        if self._closed:
            raise ValueError(f"the job {self.name} of {self.tenant} is closed")


class Solver:
    """An incremental solver with the calls of PySAT: a job of a service, of its own or of one that is given.

    A question is a revision, and more of them where its slices run out, which go on with the search. A job has 256 revisions: after
    them the clauses are posted anew to a fresh one, by which what was learned is lost.
    """

    def __init__(
        self,
        bootstrap_with: Optional[Iterable[Iterable[int]]] = None,
        *,
        service: Optional[Service] = None,
        tenant: str = "solver",
        workers: int = 1,
        priority: int = 1,
        profile: int = 1,
        slices: Optional[int] = None,
    ) -> None:
        """A solver of these clauses. Of `slices` a question takes at most so many (else as many as it needs). Without a `service` it
        starts one, whose workers all search for this solver; with one it asks that for so many at a time, and takes a name of the
        tenant for each 256 questions, of which there are 64."""
        if slices is not None and slices < 1:
            raise ValueError("slices are at least 1")
        self._given = service
        self._tenant = tenant
        self._workers = workers
        self._most = -(-slices // MOST_SLICES) if slices else 0  # revisions of a question
        share = slices // self._most if slices else MOST_SLICES
        self._asks = {"priority": priority, "demand": workers, "slices": share, "profile": profile}
        self._clauses: list[list[int]] = []
        self._job: Optional[Job] = None
        self._deleted = False
        self._variables = 0
        self.reply: Optional[Reply] = None  # to the last question
        self.append_formula(bootstrap_with or ())

    def add_clause(self, clause: Iterable[int], no_return: bool = True) -> None:
        """Adds a clause, which stays."""
        self.append_formula([clause], no_return)

    def append_formula(self, formula: Iterable[Iterable[int]], no_return: bool = True) -> None:
        """Adds clauses, or those of a formula that has `clauses`."""
        self._want()
        clauses = [_literals(clause) for clause in getattr(formula, "clauses", formula)]
        if self._job:
            self._job.add(clauses)
        self._clauses += clauses
        self._variables = max([self._variables, *map(_greatest, clauses)])

    def solve(self, assumptions: Iterable[int] = ()) -> Optional[bool]:
        """Whether something satisfies the clauses and these assumptions; None where the slices did not suffice or memory ran out."""
        self._want()
        self.reply = None
        assumed = _literals(assumptions)
        self._variables = max(self._variables, _greatest(assumed))
        if _has_opposites(assumed):
            both = set(assumed)
            least = min(abs(literal) for literal in assumed if -literal in both)
            self.reply = Unsatisfiable((least, -least), ())
            return False
        for _ in range(self._most) if self._most else count():
            self.reply = self._fresh_job().solve(assumed)
            if not isinstance(self.reply, Unknown) or self.reply.cause != "spent":
                break
        return self.get_status()

    def get_status(self) -> Optional[bool]:
        """What the last `solve` answered."""
        return None if self.reply is None or isinstance(self.reply, Unknown) else isinstance(self.reply, Satisfiable)

    def get_model(self) -> Optional[list[int]]:
        """After True: of each variable the literal that is true."""
        return list(self.reply.model) if isinstance(self.reply, Satisfiable) else None

    def get_core(self) -> Optional[list[int]]:
        """After False: assumptions under which alone nothing satisfies the clauses."""
        return list(self.reply.failed) if isinstance(self.reply, Unsatisfiable) else None

    def get_proof(self) -> Optional[list[str]]:
        """After False: LRAT lines that refute the clauses, in the order in which they were added, under the core; none where the
        core is both signs of a variable."""
        return list(self.reply.proof) if isinstance(self.reply, Unsatisfiable) else None

    def enum_models(self, assumptions: Iterable[int] = ()) -> Iterator[list[int]]:
        """Each model in turn, which is then forbidden by a clause that stays."""
        assumed = _literals(assumptions)
        while self.solve(assumed):
            model = self.get_model() or []
            yield model
            self.add_clause([-literal for literal in model])

    def nof_vars(self) -> int:
        """The greatest variable that was named."""
        return self._variables

    def nof_clauses(self) -> int:
        return len(self._clauses)

    def delete(self) -> None:
        """Closes the job, and the service where it is the solver's own. The solver takes nothing more."""
        if not self._deleted:
            self._deleted = True
            self.reply = None
            try:
                self._leave()
            except ServiceGone:
                pass  # there is nothing to give back

    def __enter__(self) -> "Solver":
        return self

    def __exit__(
        self, kind: Optional[type[BaseException]], error: Optional[BaseException], trace: Optional[TracebackType]
    ) -> None:
        self.delete()

    def _want(self) -> None:
        if self._deleted:
            raise ValueError("the solver is deleted")

    def _leave(self) -> None:
        """Gives the job back: with a service of its own what was posted to it too."""
        job, self._job = self._job, None
        if job and self._given:
            job.close()
        elif job:
            job._service.stop()

    def _fresh_job(self) -> Job:
        """The job, or where it has no revision left another one with all clauses."""
        if self._job and self._job.revisions == MOST_REVISIONS:
            self._leave()
        if not self._job:
            service = self._given or Service(self._workers)
            self._job = service.job(self._tenant, **self._asks)
            self._job.add(self._clauses)
        return self._job


def claim(clauses: Iterable[Iterable[int]], reply: Unsatisfiable) -> str:
    """The input of `mal check` that says: these clauses, those of all revisions up to the reply's, are refuted under its failed
    assumptions by its proof."""
    rows = [_literals(clause) for clause in clauses]
    variables = max([_greatest(reply.failed), *map(_greatest, rows)])
    lines = [f"p cnf {variables} {len(rows)}", *(" ".join(map(str, [*row, 0])) for row in rows)]
    lines += [" ".join(map(str, ["a", *reply.failed, 0])), "proof", *reply.proof]
    return "\n".join(lines) + "\n"


def _replies(lines: Iterable[bytes]) -> Iterator[tuple[tuple[str, str], Reply]]:
    """The replies that a service writes, each with its job as soon as it is whole. A refutation is that with the first line whose
    clause has the negations of the failed assumptions and nothing else; lines that follow it are passed over."""
    key, failed, goal, proof = ("", ""), (), b"", []
    whole = True
    for line in lines:
        letter = line[:2]
        if letter == b"l ":
            if not whole:
                proof.append(line[2:-1].decode())
                whole = line.split(b" ", 2)[2].startswith(goal)
                if whole:
                    yield key, Unsatisfiable(failed, tuple(proof))
                    proof = []
        elif letter == b"r ":
            _, tenant, job, *_ = line.decode().split()
            key, whole = (tenant, job), False
        elif letter == b"k ":
            failed = tuple(map(int, line[2:].split()))[:-1]
            goal = b" ".join(b"%d" % -literal for literal in failed) + (b" 0 " if failed else b"0 ")
        elif letter == b"v ":
            whole = True
            yield key, Satisfiable(tuple(map(int, line[2:].split()))[:-1])
        elif letter == b"u ":
            whole = True
            _, cause, count = line.decode().split()
            yield key, Unknown(cause, int(count))
        elif line.startswith(b"fault: "):
            raise ServiceGone(line.decode(errors="replace").strip())
        elif letter != b"s ":
            raise ValueError(f"the line {line[:40]!r}")


def _literals(literals: Iterable[int]) -> list[int]:
    """The literals in order, each once."""
    kept: dict[int, None] = {}
    for literal in literals:
        try:
            number = int(index(literal))
        except TypeError:
            number = 0
        if not 1 <= abs(number) <= MOST_VARIABLES:
            raise ValueError(f"{literal!r} is no literal of a variable from 1 to {MOST_VARIABLES:,}")
        kept[number] = None
    return list(kept)


def _greatest(literals: Iterable[int]) -> int:
    """The greatest variable of the literals, 0 of none."""
    return max(map(abs, literals), default=0)


def _has_opposites(literals: list[int]) -> bool:
    """Whether literals, each of which stands once, have both signs of a variable."""
    return len(set(map(abs, literals))) < len(literals)


def _check(what: str, number: int, most: int) -> None:
    if isinstance(number, bool) or not isinstance(number, int) or not 1 <= number <= most:
        raise ValueError(f"{what} {number!r} is not a number from 1 to {most:,}")


def _check_ask(priority: int, demand: int) -> None:
    _check("priority", priority, MOST_PRIORITY)
    _check("demand", demand, MOST_DEMAND)


def _find_program() -> str:
    """MAL, or the repository's program, or an installed one."""
    here = Path(__file__).resolve().parents[2] / "mal"
    found = os.environ.get("MAL") or (str(here) if here.is_file() and os.access(here, os.X_OK) else shutil.which("mal"))
    if not found:
        raise FileNotFoundError("there is no program mal: the variable MAL may name it")
    return found
