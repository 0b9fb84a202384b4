"""Formulas in DIMACS CNF and iCNF, as questions for a job. What is a fault is judged by the program, all but the first line and the
place of assumptions; so lines are handed on as they stand, and each part knows its lines."""

import re
from dataclasses import dataclass
from typing import Iterator, Optional

from mal_call import VARIABLES, Failure

FRONT = re.compile(rb"(?:[ \t\r]*(?:c.*)?\n)*")  # empty lines and comments
COMMENT = re.compile(rb"^[ \t\r]*c.*$", re.M)
ASSUMED = re.compile(rb"^[ \t\r]*a(?:[ \t\r].*)?\n", re.M)
HEADER = re.compile(rb"^[ \t\r]*p(?:[ \t\r].*)?$", re.M)
PERCENT = re.compile(rb"^[ \t\r]*%", re.M)
NEGATIVE_ZERO = re.compile(rb"(?<!\S)-0+(?!\S)")

Part = tuple[int, bytes]  # whole lines for the program, and the number that the first of them has in the formula


@dataclass
class Question:
    """Clauses that join those of the questions before, how many they are, and a line of assumptions."""

    clauses: Part
    count: int
    assumed: Part


@dataclass
class Formula:
    """Questions over so many variables. A formula in DIMACS CNF has one, and its own header, with the lines before that."""

    variables: bytes
    questions: list[Question]
    header: Optional[Part] = None

    def block(self, first: int, at: int) -> list[Part]:
        """A revision that asks question `at`, with the clauses of all questions from the first one on."""
        told = self.questions[first : at + 1]
        line, assumed = told[-1].assumed
        count = sum(question.count for question in told)
        header = self.header or (line, b"p cnf %s %d\n" % (self.variables, count))
        return [header, *(question.clauses for question in told), (line, assumed)]

    def block_again(self, at: int) -> list[Part]:
        """A revision that asks question `at` again, without clauses."""
        line, assumed = self.questions[at].assumed
        return [(line, b"p cnf %s 0\n" % self.variables), (line, assumed)]


def formula_of(text: bytes) -> Formula:
    """The formula of a file."""
    begin = FRONT.match(text).end()
    line = 1 + text.count(b"\n", 0, begin)
    stop = text.find(b"\n", begin) + 1 or len(text)
    header = text[begin:stop].split()
    if header[:1] != [b"p"]:
        raise Failure(f"fault: formula line {line if header else max(line - 1, 1)} BadHeader")
    if header == [b"p", b"inccnf"]:
        return incremental_formula(text[stop:], line + 1)
    return Formula(b"".join(header[2:3]), [single(text[stop:], line + 1)], (1, text[:stop]))


def relaxed_formula_of(text: bytes) -> Formula:
    """The formula of a file whose headers may be wrong or missing, in which `-0` ends a clause too, and what stands after `%` does
    not count. Each line keeps its number."""
    text = NEGATIVE_ZERO.sub(b"0", text)
    headers = [found.group().split() for found in HEADER.finditer(text)]
    text = HEADER.sub(b"", text)
    if [b"p", b"inccnf"] in headers:
        return incremental_formula(text, 1)
    percent = PERCENT.search(text)
    text = text[: percent.start()] if percent else text
    question = single(text, 1)
    told = words(question.clauses[1])
    count = sum(is_zero(word) for word in told)
    used = max(map(variable, told + question.assumed[1].split()), default=0)
    declared = [int(header[2]) for header in headers if len(header) > 2 and re.fullmatch(rb"[0-9]{1,9}", header[2])]
    most = max([used, *(number for number in declared if number <= VARIABLES)])
    return Formula(b"%d" % most, [question], (1, b"p cnf %d %d\n" % (most, count)))


def incremental_formula(text: bytes, line: int) -> Formula:
    """A formula in iCNF, from the line after its header on."""
    return Formula(b"%d" % max(map(variable, words(text)), default=0), list(incremental(text, line)))


def single(text: bytes, line: int) -> Question:
    """The question of a formula in DIMACS CNF, from the line after its header on. After assumptions nothing may stand."""
    found = ASSUMED.search(text)
    if found is None:
        return Question((line, text), 0, (max(line + text.count(b"\n") - 1, 1), b"a 0\n"))
    behind = FRONT.match(text, found.end()).end()
    if behind < len(text):
        raise Failure("fault: formula line %d BadLine" % (line + text.count(b"\n", 0, behind)))
    clauses = text[: found.start()]
    return Question((line, clauses), 0, (line + clauses.count(b"\n"), found.group()))


def incremental(text: bytes, line: int) -> Iterator[Question]:
    """The questions of a formula in iCNF. Clauses after the last one belong to none; where there is no question at all, the
    clauses are asked about without assumptions."""
    begin = 0
    for start, stop in [found.span() for found in ASSUMED.finditer(text)] or [(len(text), len(text))]:
        clauses = text[begin:start]
        behind = line + clauses.count(b"\n")
        count = sum(map(is_zero, words(clauses)))
        yield Question((line, clauses), count, (behind, text[start:stop] or b"a 0\n"))
        begin, line = stop, behind + 1


def words(text: bytes) -> list[bytes]:
    """The words of the lines that are no comments."""
    return COMMENT.sub(b"", text).split()


def is_zero(word: bytes) -> bool:
    """Whether the word ends a clause."""
    return not word.strip(b"0")


def variable(word: bytes) -> int:
    """The variable of a literal; 0 where it is none, or has too many digits for one."""
    digits = word.lstrip(b"-").lstrip(b"0")
    return int(digits) if digits.isdigit() and len(digits) < 10 else 0
