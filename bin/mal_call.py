"""What the scripts of this folder share: reading files that may be compressed, calling the program, telling how far it is on a
terminal, ending when asked to, and ending with a line where something fails."""

import argparse
import ctypes
import gzip
import lzma
import os
import re
import signal
import subprocess
import sys
import tempfile
import threading
import time
import zlib
from contextlib import contextmanager, suppress
from functools import lru_cache
from pathlib import Path
from types import FrameType
from typing import IO, Callable, Iterable, Iterator, NoReturn, Optional

ROOT = Path(__file__).resolve().parent.parent
UNPACKERS: dict[bytes, Callable[[bytes], bytes]] = {b"\x1f\x8b": gzip.decompress, b"\xfd7zXZ\0": lzma.decompress}
TELLING = (1, 2, 3, 7)  # statuses of the program, and 1 of the script that builds it, with a line on standard error
FRONTS = ("usage: mal ", "fault: ", "mal: ")  # of these lines
REASONS = {4: "its input could not be read", 5: "its output could not be written", 6: "memory ran out"}
PR_SET_PDEATHSIG = 1
STOPS = {signal.SIGTERM: "asked to end", signal.SIGALRM: "time is up"}
SLICES = 4096  # of a revision, at most; and of a question of `max` and `core`
REVISIONS = 256  # of a job, at most
VARIABLES = 65536  # of a formula, at most
CLAUSES = 1 << 20  # of a formula, at most
TICK = 0.3  # seconds between two lines of progress


class Failure(Exception):
    """Why a script ends with status 1: a line for standard error."""


class Stopped(Exception):
    """The time is up, or a signal asks to end: why, in some words."""


def read(path: str) -> bytes:
    """The lines of a file, or of standard input where the path is `-`. What is compressed is known by its first bytes."""
    try:
        content = standard_input() if path == "-" else Path(path).read_bytes()
        for front, unpack in UNPACKERS.items():
            if content.startswith(front):
                content = unpack(content)
                break
    except OSError as fault:
        raise Failure(f"{path}: {fault.strerror or fault}") from fault
    except (EOFError, ValueError, zlib.error, lzma.LZMAError) as fault:
        raise Failure(f"{path}: {fault}") from fault
    return content if content.endswith(b"\n") else content + b"\n"


def standard_input() -> bytes:
    """All of standard input."""
    if sys.stdin is None:
        raise Failure("standard input is closed")
    if sys.stdin.isatty() and sys.stderr is not None:
        print("reading from standard input; --help tells the rest", file=sys.stderr)
    return sys.stdin.buffer.read()


def say(text: str) -> None:
    """Writes a line to standard output, at once. A reader that is gone ends the script as it ends every other program."""
    if sys.stdout is None:
        raise Failure("standard output is closed")
    try:
        sys.stdout.write(text + "\n")
        sys.stdout.flush()
    except BrokenPipeError:
        signal.signal(signal.SIGPIPE, signal.SIG_DFL)
        os.kill(os.getpid(), signal.SIGPIPE)
    except OSError as fault:
        raise Failure(f"standard output: {fault.strerror}") from fault


def end_with_parent(number: int = signal.SIGKILL) -> None:
    """Has the process killed, by this signal, where its parent ends first."""
    ctypes.CDLL(None).prctl(PR_SET_PDEATHSIG, number)


def find_program() -> str:
    """MAL, or else the installed program beside this file, or the path of the repository's, which is built where there is none;
    how far that is shows on the terminal."""
    if os.environ.get("MAL"):
        return os.environ["MAL"]
    installed = Path(__file__).resolve().parent / "mal"
    if installed.is_file():
        return str(installed)
    command = [str(ROOT / "mal"), "--path"]
    ran = subprocess.run(command, stdout=subprocess.PIPE, text=True, preexec_fn=lambda: end_with_parent(signal.SIGTERM), check=False)
    return ran.stdout.strip() if ran.returncode == 0 else sys.exit(1)  # what it lacks it has said


@lru_cache(maxsize=None)
def program() -> str:
    """What to run. A reason to end ends what looks for it and may be building it."""
    Stops.finding = True
    try:
        path = find_program()
    except SystemExit:
        if Stops.reason:
            raise Stopped(Stops.reason) from None
        raise
    finally:
        Stops.finding = False
    if Stops.reason:
        raise Stopped(Stops.reason)
    return path


def leave_stops_to_parent() -> None:
    """Of the program, before it begins: it ends with its parent, and a signal to both asks the parent alone to end."""
    end_with_parent()
    signal.signal(signal.SIGTERM, signal.SIG_IGN)


def failure_of(status: int, log: bytes) -> Failure:
    """Why the program ended with this status: its own line, which is the last of its log, where it has one."""
    lines = log.decode(errors="replace").split("\n") if status in TELLING else []
    told = [line for line in lines if line.strip()]
    if told:
        line = told[-1].strip()
        return Failure(line if line.startswith(FRONTS) else f"{program()}: {line}")
    unnamed = f"ended by signal {-status}" if status < 0 else f"status {status}"
    return Failure(f"{program()}: {REASONS.get(status, unnamed)}")


def call(words: list[str], parts: Iterable[bytes]) -> IO[bytes]:
    """A file of what the program writes to standard output, with these words and the parts, one after another, as its
    input. A status that is not 0 is a failure."""
    command = [program(), *words]
    try:
        out = tempfile.TemporaryFile()
        source = tempfile.TemporaryFile()
        source.writelines(parts)
        source.seek(0)
    except OSError as fault:
        raise Failure(f"a temporary file: {fault.strerror}") from fault
    try:
        with source:
            ran = subprocess.run(
                command, stdin=source, stdout=out, stderr=subprocess.PIPE, preexec_fn=leave_stops_to_parent, check=False
            )
    except OSError as fault:
        raise Failure(f"{program()}: {fault.strerror}") from fault
    if ran.returncode != 0:
        raise failure_of(ran.returncode, ran.stderr)
    out.seek(0)
    return out


class Progress:
    """A line on the terminal, where standard error is one, that is written anew as long as something is waited for. Where there is
    no terminal, nothing is written."""

    def __init__(self, text: Callable[[], str]) -> None:
        self.text = text
        self.over = threading.Event()
        self.thread: Optional[threading.Thread] = None

    def __enter__(self) -> "Progress":
        if sys.stderr is not None and sys.stderr.isatty():
            self.thread = threading.Thread(target=self.tell, daemon=True)
            self.thread.start()
        return self

    def __exit__(self, *_: object) -> None:
        self.over.set()
        if self.thread is not None:
            self.thread.join()

    def tell(self) -> None:
        """Writes the line, and removes it in the end."""
        signal.pthread_sigmask(signal.SIG_BLOCK, STOPS)
        told = False
        try:
            while not self.over.wait(TICK):
                told = True
                width = os.get_terminal_size(2).columns or 80
                print(f"\r\033[K{self.text()[: width - 1]}", end="", file=sys.stderr, flush=True)
            if told:
                print("\r\033[K", end="", file=sys.stderr, flush=True)
        except OSError:
            pass  # the terminal is gone


class Clock:
    """The time since the script began."""

    start = time.monotonic()

    @classmethod
    def seconds(cls) -> int:
        return int(time.monotonic() - cls.start)


class Stops:
    """Whether there is a reason to end, and whether that has to wait."""

    reason = ""
    held = False
    finding = False  # the program; what does so is asked to end in its own way


def stop_after(seconds: Optional[float]) -> None:
    """From here on SIGTERM, and the end of the time where there is one, raise `Stopped`, once."""
    for number in STOPS:
        signal.signal(number, stop)
    if seconds is not None:
        signal.setitimer(signal.ITIMER_REAL, seconds)


def stop(number: int, _frame: Optional[FrameType]) -> None:
    """Ends what is under way, unless that has to wait."""
    first = not Stops.reason
    Stops.reason = Stops.reason or STOPS[signal.Signals(number)]
    if first and Stops.finding:
        end_children()
    elif first and not Stops.held:
        raise Stopped(Stops.reason)


def end_children() -> None:
    """Asks the processes that this one started to end."""
    with suppress(OSError):
        for child in Path(f"/proc/self/task/{os.getpid()}/children").read_text().split():
            os.kill(int(child), signal.SIGTERM)


@contextmanager
def held(for_good: bool = False) -> Iterator[None]:
    """What is written here is written whole: a reason to end has to wait, or comes too late for good."""
    Stops.held = True
    yield
    Stops.held = for_good
    if Stops.reason and not for_good:
        raise Stopped(Stops.reason)


def leave() -> None:
    """From here on SIGTERM ends the script as it ends every other program."""
    signal.setitimer(signal.ITIMER_REAL, 0)
    for number in STOPS:
        signal.signal(number, signal.SIG_DFL)


class Parser(argparse.ArgumentParser):
    """Words that are none of the script's end it with status 1, as each error does."""

    def __init__(self, prog: str, description: Optional[str]) -> None:
        super().__init__(
            prog=prog, description=description, formatter_class=argparse.RawDescriptionHelpFormatter, allow_abbrev=False
        )

    def error(self, message: str) -> NoReturn:
        raise Failure(f"{self.prog}: {message}")

    def print_help(self, file: object = None) -> None:
        """Writes the help to standard output, and fails where that cannot be written."""
        say(self.format_help().rstrip())

    def add_time(self) -> None:
        """The option that bounds the time."""
        self.add_argument("-t", dest="seconds", metavar="SECONDS", type=seconds_of, help="end as unknown after this time")


def count_of(word: str) -> int:
    """A number from 1 on."""
    if not re.fullmatch("0*[1-9][0-9]{0,17}", word):
        raise argparse.ArgumentTypeError(f"{word} is no number from 1 on")
    return int(word)


def up_to(most: int) -> Callable[[str], int]:
    """What reads a number from 1 to this one."""

    def read_count(word: str) -> int:
        if not re.fullmatch("0*[1-9][0-9]{0,8}", word) or int(word) > most:
            raise argparse.ArgumentTypeError(f"{word} is no number from 1 to {most}")
        return int(word)

    return read_count


def seconds_of(word: str) -> float:
    """A time above 0, with a point or without."""
    if not re.fullmatch(r"[0-9]{1,9}(\.[0-9]{1,6})?", word) or float(word) == 0:
        raise argparse.ArgumentTypeError(f"{word} is no number of seconds above 0")
    return float(word)


def keep_streams() -> None:
    """Sees to it that no file takes the number of a standard stream that is closed."""
    for number in range(3):
        try:
            os.fstat(number)
        except OSError:
            os.open(os.devnull, os.O_RDWR)


def end(main: Callable[[], int]) -> NoReturn:
    """Ends with the status that `main` answers, or with 1 and a line on standard error. An interrupt, and a reader that is
    gone, end it at once."""
    signal.signal(signal.SIGINT, signal.SIG_DFL)
    keep_streams()
    try:
        status = main()
    except SystemExit as asked:  # after the help
        status = int(asked.code or 0)
    except (Failure, MemoryError) as failure:
        if sys.stderr is not None:
            print("memory ran out" if isinstance(failure, MemoryError) else failure, file=sys.stderr)
        status = 1
    try:
        if sys.stdout is not None:
            sys.stdout.flush()
    except OSError as fault:
        if status == 0 and sys.stderr is not None:
            print(f"standard output: {fault.strerror}", file=sys.stderr)
        status = status or 1
    os._exit(status)
