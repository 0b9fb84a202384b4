"""Clauses with a mark before each, as WCNF and GCNF have them: a weight, `h`, or a group in braces."""

import re
from dataclasses import dataclass
from typing import Iterable, Iterator, Optional

from mal_call import Failure, program

LITERAL = re.compile(rb"-?0*[1-9][0-9]{0,9}")


@dataclass
class Marked:
    """A clause, the word before it, and the line that it begins in."""

    mark: bytes
    literals: list[int]
    line: int


@dataclass
class Header:
    """The words of a header after `p`, and its line."""

    words: list[bytes]
    line: int


def parts_of(text: bytes, marks: bool) -> tuple[Optional[Header], list[Marked]]:
    """The header of a file, where it has one, and its clauses up to a line `%`; with marks the first word of each is one."""
    header = None
    found: list[Marked] = []
    open_words: list[bytes] = []
    begin = 0
    line = 0
    for line, words in enumerate(map(bytes.split, text.splitlines()), 1):
        if not words or words[0].startswith(b"c"):
            continue
        if words == [b"%"]:
            break
        if words[0] == b"p":
            if header or found or open_words:
                raise fault(line, "the header is not the first line")
            header = Header(words[1:], line)
            continue
        begin = begin if open_words else line
        open_words += words
        while b"0" in open_words[marks:]:
            stop = open_words.index(b"0", marks)
            found.append(Marked(open_words[0] if marks else b"", literals_of(open_words[marks:stop], line), begin))
            open_words = open_words[stop + 1 :]
            begin = line
    if open_words:
        raise fault(begin, "a clause without 0 at its end")
    return header, found


def literals_of(words: list[bytes], line: int) -> list[int]:
    """The literals of a clause, each once."""
    for word in words:
        if not LITERAL.fullmatch(word):
            raise fault(line, f"{word.decode(errors='replace')} is no literal")
    return list(dict.fromkeys(map(int, words)))


def number_of(word: bytes, line: int, what: str) -> int:
    """A number without a sign."""
    if not re.fullmatch(rb"[0-9]{1,20}", word):
        raise fault(line, f"{word.decode(errors='replace')} is no {what}")
    return int(word)


def fault(line: int, what: str) -> Failure:
    """What is wrong with a line."""
    return Failure(f"fault: formula line {line}: {what}")


def is_tautology(literals: list[int]) -> bool:
    """Whether both signs of a variable are there."""
    return not {-literal for literal in literals}.isdisjoint(literals)


def greatest(clauses: Iterable[Marked]) -> int:
    """The greatest variable of the clauses."""
    return max((abs(literal) for clause in clauses for literal in clause.literals), default=0)


def check_declared(clauses: list[Marked], variables: int, count: int, line: int) -> None:
    """Sees to it that a formula has the clauses that its header says, over its variables."""
    for clause in clauses:
        if any(abs(literal) > variables for literal in clause.literals):
            raise fault(clause.line, f"a variable above the {variables} of the header")
    if len(clauses) != count:
        raise fault(line, f"the header says {count} clauses, and there are {len(clauses)}")


def dimacs(variables: int, clauses: list[list[int]]) -> Iterator[bytes]:
    """A formula, line by line."""
    yield b"p cnf %d %d\n" % (variables, len(clauses))
    for clause in clauses:
        yield row(clause)


def row(literals: Iterable[int], front: str = "") -> bytes:
    """The line of a clause, or of assumptions."""
    return (front + " ".join(map(str, [*literals, 0])) + "\n").encode()


def numbers(line: bytes) -> list[int]:
    """The numbers of a line that the program writes, after its letter and before its zero."""
    if not re.fullmatch(rb"[vk] (-?[1-9][0-9]* )*0\n", line):
        raise Failure(f"{program()}: what it writes is no answer")
    return list(map(int, line.split()[1:-1]))
