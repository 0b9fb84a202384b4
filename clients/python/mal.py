"""An incremental SAT solver, proved to give models and refutations: libmal, by ctypes.

    from mal import Solver

    with Solver([[1, 2], [-1, 3]]) as solver:
        solver.solve([-2])      # True
        solver.model()          # [1, -2, 3]
        solver.solve([-2, -3])  # False
        solver.core()           # [-2, -3]

A literal is a number of DIMACS: v for variable v, -v for its negation, with v from 1 to 65,536.

Which of the two ways suits what:

- This library, where a program has many questions about one formula that grows, each a matter of microseconds, and wants the
  answers in its own process: planning, model checking, enumeration, cores. Nothing is started and nothing is written; a solver
  takes one processor.
- The service (`mal run` on a script, `bin/mal-solve` on files), where many jobs of several tenants share a number of workers, a
  job is to have more than one solver, or replies, proofs and a history are to be kept and replayed.

What is proved is the library: its answers are right of the numbers that it was handed. This file is not proved; it hands them on.
It needs Python 3.9 and no package. The library is libmal.so in the folder MAL_LIBRARY, where that is set, else in target/lib of
this repository, where it was built there (tools/build --library), else the one that is installed (tools/install).
"""

import ctypes
import ctypes.util
import os
import threading
from pathlib import Path
from types import TracebackType
from typing import Callable, Iterable, Optional

__all__ = ["Refused", "Solver"]

MOST_VARIABLES = 65536
SLICES_AT_A_TIME = 16  # some milliseconds, after which an interrupt is heard
SATISFIABLE, UNSATISFIABLE = 10, 20
REASONS = {1: "no literal", 2: "a clause is open", 3: "a limit was passed", 4: "out of memory"}


class _Handle(ctypes.Structure):
    """What `mal` of mal.h is."""

    _fields_ = [("at", ctypes.c_void_p)]


class Refused(Exception):
    """An input was refused: out of memory, or beyond a limit. The solver answers nothing more."""


def _find() -> str:
    """The path or name of the library."""
    if os.environ.get("MAL_LIBRARY"):
        return str(Path(os.environ["MAL_LIBRARY"]).resolve() / "libmal.so")
    built = Path(__file__).resolve().parents[2] / "target" / "lib" / "libmal.so"
    return str(built) if built.exists() else ctypes.util.find_library("mal") or "libmal.so"


def _load() -> ctypes.CDLL:
    """The library, with the types of its calls."""
    library = ctypes.CDLL(_find())
    handle, literal, size = ctypes.POINTER(_Handle), ctypes.c_int32, ctypes.c_size_t
    for name, result, *arguments in (
        ("init", None),
        ("release", None),
        ("proof_on", ctypes.c_bool),
        ("add", None, literal),
        ("assume", None, literal),
        ("begin", ctypes.c_bool),
        ("run", ctypes.c_int32, ctypes.c_uint32),
        ("val", ctypes.c_int32, literal),
        ("failed", ctypes.c_bool, literal),
        ("refusal", ctypes.c_uint32),
        ("lines", size),
        ("line", size, size, ctypes.POINTER(ctypes.c_int64), size),
    ):
        call = getattr(library, f"mal_{name}")
        call.restype = result
        call.argtypes = [handle, *arguments]
    return library


_library: Optional[ctypes.CDLL] = None


class Solver:
    """A solver of clauses that are added one after another, and asked about as often as is wanted.

    Several threads may use one solver: its calls wait for each other. After an answer, `model`, `core` and `proof` tell about it
    until the next clause or question.
    """

    def __init__(self, clauses: Iterable[Iterable[int]] = (), *, proofs: bool = False) -> None:
        """A solver of these clauses. With `proofs` each refutation has its lines, and everything derived is kept for them."""
        global _library
        _library = _library or _load()
        self._calls = _library
        self._lock = threading.RLock()
        self._handle = _Handle()
        self._variables = 0
        self._assumptions: list[int] = []
        self._answer: Optional[bool] = None
        self.proofs = proofs
        self._calls.mal_init(self._handle)
        if not self._handle.at:
            raise Refused(REASONS[4])
        if proofs:
            self._calls.mal_proof_on(self._handle)
        for clause in clauses:
            self.add_clause(clause)

    def add_clause(self, literals: Iterable[int]) -> None:
        """Adds a clause, which stays. A ValueError where one of them is no literal, and then nothing was added."""
        clause = _checked(literals)
        with self._lock:
            self._begin_input()
            for literal in clause:
                self._calls.mal_add(self._handle, literal)
            self._calls.mal_add(self._handle, 0)
            self._variables = max([self._variables, *map(abs, clause)])
            self._raise_if_refused()

    def solve(
        self, assumptions: Iterable[int] = (), *, slices: Optional[int] = None, stop: Optional[Callable[[], bool]] = None
    ) -> Optional[bool]:
        """True where something satisfies all clauses and these assumptions, False where nothing does. None where so many slices of
        1,000 steps did not suffice, or `stop`, which is asked every few milliseconds, said so. The assumptions are for this
        question alone."""
        assumed = _checked(assumptions)
        with self._lock:
            self._begin_input()
            for literal in assumed:
                self._calls.mal_assume(self._handle, literal)
            self._variables = max([self._variables, *map(abs, assumed)])
            self._assumptions = list(dict.fromkeys(assumed))
            self._calls.mal_begin(self._handle)
            answer = self._run(slices, stop)
            self._raise_if_refused()
            if answer in (SATISFIABLE, UNSATISFIABLE):
                self._answer = answer == SATISFIABLE
            return self._answer

    def model(self) -> list[int]:
        """After True: for each variable up to the greatest that was named, in order, the literal of it that is true."""
        with self._lock:
            self._want(True)
            return [self._calls.mal_val(self._handle, variable) or -variable for variable in range(1, self._variables + 1)]

    def value(self, literal: int) -> Optional[bool]:
        """After True: whether the literal is true in the model. None where its variable is above all that were named."""
        with self._lock:
            self._want(True)
            value = self._calls.mal_val(self._handle, *_checked([literal]))
            return None if value == 0 else value == literal

    def core(self) -> list[int]:
        """After False: assumptions of the question under which alone nothing satisfies the clauses."""
        with self._lock:
            self._want(False)
            return [literal for literal in self._assumptions if self._calls.mal_failed(self._handle, literal)]

    def proof(self) -> str:
        """After False, of a solver with `proofs`: the lines of an LRAT proof that nothing satisfies the clauses under the core. The
        clauses have the numbers from 1 on, in the order in which they were added. Empty where the core is both signs of one
        variable. `bin/mal-check` takes it, after the clauses and a line `a` with the core."""
        with self._lock:
            self._want(False)
            if not self.proofs:
                raise RuntimeError("this solver keeps no proofs: Solver(proofs=True) does")
            count = self._calls.mal_lines(self._handle)
            return "".join(" ".join(map(str, self._line(n))) + "\n" for n in range(count))

    def close(self) -> None:
        """Gives back the solver's memory. It takes nothing more."""
        with self._lock:
            self._answer = None
            self._calls.mal_release(self._handle)

    def __enter__(self) -> "Solver":
        return self

    def __exit__(
        self, kind: Optional[type[BaseException]], error: Optional[BaseException], trace: Optional[TracebackType]
    ) -> None:
        self.close()

    def __del__(self) -> None:
        if getattr(self, "_handle", None):
            self._calls.mal_release(self._handle)

    def _begin_input(self) -> None:
        """Before an input: the answer is over."""
        if not self._handle.at:
            raise ValueError("the solver is closed")
        self._answer = None
        self._assumptions = []

    def _run(self, slices: Optional[int], stop: Optional[Callable[[], bool]]) -> int:
        """Runs until there is an answer or an end to the search; a few slices at a time, so that an interrupt is heard."""
        answer = self._calls.mal_run(self._handle, 0)
        while answer == 0 and slices != 0 and not (stop and stop()):
            some = SLICES_AT_A_TIME if slices is None else min(slices, SLICES_AT_A_TIME)
            slices = None if slices is None else slices - some
            answer = self._calls.mal_run(self._handle, some)
        return answer

    def _line(self, n: int) -> list[int]:
        """The n-th line of the refutation, whose length is told first."""
        room = self._calls.mal_line(self._handle, n, (ctypes.c_int64 * 1)(), 1)
        out = (ctypes.c_int64 * room)()
        self._calls.mal_line(self._handle, n, out, room)
        return list(out)

    def _want(self, answer: bool) -> None:
        if self._answer is not answer:
            raise RuntimeError(f"the last answer is not {answer}, or there is none since the last clause")

    def _raise_if_refused(self) -> None:
        cause = self._calls.mal_refusal(self._handle)
        if cause:
            raise Refused(REASONS.get(cause, f"cause {cause}"))


def _checked(literals: Iterable[int]) -> list[int]:
    """The literals as a list. ctypes cuts a number to 32 bits, so none that is no literal may come there."""
    checked = list(literals)
    for literal in checked:
        if not isinstance(literal, int) or not 1 <= abs(literal) <= MOST_VARIABLES:
            raise ValueError(f"{literal!r} is no literal of a variable from 1 to {MOST_VARIABLES}")
    return checked
