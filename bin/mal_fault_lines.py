"""Why a line of a script, a feed, a formula or a proof is refused, for mal-explain. What is refused, and in which line, is known: the
lines before it have no fault. So each check looks for what is wrong with a line, and raises Found."""

import re
from typing import Iterable, NoReturn, Optional

MOST_BYTES, MOST_ID = 1 << 26, 1 << 62
MOST = {"Variables": 65_536, "Clauses": 1 << 20, "Literals": 1 << 24, "Softs": 128, "Assumptions": 255, "Tenants": 64, "Jobs": 64,
        "Revisions": 256}
ASKS = {"priority": 1000, "demand": 64, "slices": 4096, "profile": 2}  # each from 1 on
FORMS = {"t": "`t TENANT`", "j": "`j NAME PRIORITY DEMAND SLICES [PROFILE]`", "q": "`q PRIORITY DEMAND`", "e": "`e`"}

Job = tuple[str, str]  # a tenant and the name of its job
WORD, NAME = re.compile(rb"[^ \t\r]+"), re.compile("[a-z0-9_]{1,32}")


class Found(Exception):
    """Why a line is refused, and which of its words is meant, none for its end."""

    def __init__(self, why: str, word: Optional[int] = 0) -> None:
        super().__init__(why)
        self.why, self.word = why, word


class Row:
    """A line: its text, its words and its number in the whole input."""

    def __init__(self, text: bytes, line: int) -> None:
        self.text, self.line = text, line
        found = WORD.search(text)
        self.first = found[0].decode("latin-1") if found else ""

    @property
    def words(self) -> list[str]:
        """The words, which are not kept: an input may have millions."""
        return [word.decode("latin-1") for word in WORD.findall(self.text)]

    def is_passed(self) -> bool:
        """Whether the line is empty or a comment."""
        return not self.first or self.first[0] == "c"

    def column(self, word: Optional[int]) -> int:
        """Where a word begins, or the line ends."""
        starts = [found.start() + 1 for found in WORD.finditer(self.text)]
        return starts[word] if word is not None and word < len(starts) else len(self.text.rstrip(b" \t\r")) + 1


def quote(word: object) -> str:
    """A word as it is shown."""
    text = "".join(c if " " <= c <= "~" else f"\\x{ord(c):02x}" for c in str(word))
    return f"`{text}`" if len(text) <= 40 else f"`{text[:36]}`.."


def counted(count: int, noun: str) -> str:
    return f"{count:,} {noun}" + ("" if count == 1 else "s")


def job_name(job: Job) -> str:
    return f"job {quote(job[1])} of tenant {quote(job[0])}"


def value(word: str) -> Optional[int]:
    """The number that a word is, cut where it is far beyond all limits; none where it is none."""
    if not re.fullmatch("-?[0-9]+", word):
        return None
    digits = word.lstrip("-").lstrip("0")[:25]
    return int(word[0] * (word[0] == "-") + digits) if digits else None if word[0] == "-" else 0


def number(word: str, at: int, more: str = "") -> int:
    """The number that a word is to be."""
    found = value(word)
    if found is None:
        signs = {"+": ": no `+` stands before one", "-": ": a 0 has no sign"}
        raise Found(f"{quote(word)} is no number" + (signs[word[0]] if re.fullmatch(r"-0+|\+[0-9]+", word) else more), at)
    return found


def check_words(words: list[str], form: str) -> None:
    """Whether a line has as many words as its form, or one more where that has brackets."""
    low, high = len(re.sub(r" \[.*\]", "", form).split()), len(form.split())
    if len(words) < low:
        raise Found(f"a word is missing: the line is to be {form}", None)
    if len(words) > high:
        raise Found(f"{quote(words[high])} is one word too many: the line is to be {form}", high)


def check_name(word: str, at: int, whose: str) -> None:
    if not NAME.fullmatch(word):
        long = f"32 letters at most, here {len(word):,}" if len(word) > 32 else "1 to 32 small letters, digits and `_`"
        raise Found(f"{quote(word)} is no name of a {whose}: {long}", at)


def check_asks(words: list[str], first: int, names: Iterable[str] = ASKS) -> None:
    """Whether words from one on are numbers in their ranges. A word that is none comes before one outside its range."""
    asks = [(name, number(word, at), at) for at, (name, word) in enumerate(zip(names, words[first:]), first)]
    for name, found, at in asks:
        if not 1 <= found <= ASKS[name]:
            what = "number of slices" if name == "slices" else name
            raise Found(f"the {what} is 1 to {ASKS[name]:,}, here {quote(words[at])}", at)


def check_range(words: list[str], at: int, what: str, low: int, high: int) -> None:
    found = value(words[at])
    if found is None or not low <= found <= high:
        raise Found(f"{what} is {low} to {high:,}, here {quote(words[at])}", at)


def above(words: list[str], at: int, header: Row) -> Found:
    """A literal whose variable is not declared."""
    most = int(header.words[2])
    declares = f"the variables 1 to {most:,}" if most else "no variable"
    return Found(f"the header in line {header.line} declares {declares}, here {quote(words[at])}", at)


def check_literals(words: list[str], header: Row, most: int = 1 << 62) -> list[int]:
    """The literals of a line after its letter: numbers, and then a 0."""
    lits: list[int] = []
    for at, word in enumerate(words[1:], 1):
        if number(word, at, f": after `{words[0]}` stand literals and then a `0`") == 0:
            if at + 1 < len(words):
                raise Found(f"{quote(words[at + 1])} stands after the `0` that ends the line", at + 1)
            break
        lits.append(value(word) or 0)
    else:
        raise Found(f"the line is to end with `0`: `{words[0]} LITERALS 0`", None)
    for at, lit in enumerate(lits, 1):
        if abs(lit) > int(header.words[2]):
            raise above(words, at, header)
    return lits


def check_opposite(lits: list[int]) -> None:
    signs = set(lits)
    both = min((lit for lit in signs if lit > 0 and -lit in signs), default=0)
    if both:
        raise Found(f"variable {both} is assumed with both signs", max(lits.index(both), lits.index(-both)) + 1)


def check_header(words: list[str]) -> None:
    form = "the header `p cnf VARIABLES CLAUSES`"
    for at, (word, wanted) in enumerate(zip(words, ("p", "cnf"))):
        if word != wanted:
            raise Found(f"{form} is to come first, here {quote(word)}" if at == 0 else f"`cnf` is to stand here, not {quote(word)}", at)
    check_words(words, "`p cnf VARIABLES CLAUSES`")
    for at, name in ((2, "variables"), (3, "clauses")):
        if value(words[at]) is None or words[at].startswith("-"):
            raise Found(f"the number of {name} is to be digits alone, here {quote(words[at])}", at)
    for at, name in ((2, "Variables"), (3, "Clauses")):
        if (value(words[at]) or 0) > MOST[name]:
            raise Found(f"{MOST[name]:,} {name.lower()} at most, here {value(words[at]):,}", at)


def check_in_formula(row: Row, header: Row, rows: list[Row], fault: list[str]) -> None:
    """Why a line is refused after a header, or where a formula ends with it. The rows are those after the header, up to the line."""
    words, percent = row.words, next((other for other in rows[:-1] if other.first == "%"), None)
    if fault[0] == "ClauseCount":
        found = value(fault[2]) or 0
        raise Found(f"the header in line {header.line} declares {counted(int(fault[1]), 'clause')}, here {found:,}{unclosed(rows)}", None)
    if fault == ["Limit", "Literals"]:
        raise Found(f"{MOST['Literals']:,} literals of all clauses at most, and the clause that ends here is beyond that", None)
    if fault[0] == "BadHeader":
        raise Found(f"a second header: the formula has one, in line {header.line}")
    if fault[0] == "Trailing" and percent:
        raise Found(f"after the line `%`, line {percent.line}, one line `0` may stand and nothing more")
    if fault[0] == "Trailing" and row.first == "%" and len(words) > 1:
        raise Found("the line `%` has no other word", 1)
    if fault[0] == "Trailing":
        raise Found(f"the formula ends here{unclosed(rows)}", None)
    for at, word in enumerate(words):
        if abs(number(word, at, ": clauses are numbers, each clause ended by `0`")) > int(header.words[2]):
            raise above(words, at, header)


def unclosed(rows: list[Row]) -> str:
    """Where the literals begin that have no 0 after them."""
    words = [(row.line, value(word)) for row in rows[-1000:] if not row.is_passed() and row.first not in "%aw" for word in row.words]
    last = next((place for place in range(len(words), 0, -1) if not words[place - 1][1]), 0)
    return f"; the literals from line {words[last][0]} on have no `0` after them" if last < len(words) else ""


class Place:
    """Where in a script or a feed a line stands: what the lines before it, which have no fault, have begun."""

    def __init__(self, rows: list[Row], is_feed: bool) -> None:
        self.tenants: dict[str, int] = {}
        self.tenant = ""
        self.begun: dict[Job, Row] = {}
        self.job: Optional[Job] = None
        self.header: Optional[Row] = None
        self.block: list[Row] = []
        self.clauses = self.ended = 0
        for row in rows:
            if not row.is_passed():
                self.take(row, is_feed)

    def take(self, row: Row, is_feed: bool) -> None:
        if self.header:
            self.block.append(row)
            if row.first == "a":
                self.header, self.block = None, []
        elif row.first == "t":
            self.tenant, self.job = row.words[1], None
            self.tenants.setdefault(self.tenant, row.line)
        elif row.first == "j":
            self.job, self.clauses = (self.tenant, row.words[1]), 0
            self.begun.setdefault(self.job, row)
        elif row.first == "p":
            self.header = row
            self.clauses += int(row.words[3])
        elif row.first == "e":
            self.job, self.ended = None, row.line

    def check(self, row: Row, fault: list[str], is_feed: bool) -> None:
        """Why a line is refused."""
        words, first = row.words, row.first
        begun = f"{job_name(self.job)} began in line {self.begun[self.job].line}" if self.job else ""
        if fault[0] == "TooLong":
            raise Found(f"{MOST_BYTES:,} bytes of a line at most, here {len(row.text):,}", None)
        if self.header:
            self.check_in_block(row, self.header, fault)
        elif self.job and first == "p":
            if fault == ["Limit", "Revisions"]:
                raise Found(f"{MOST['Revisions']} revisions of a job at most, and this is one more: {begun}")
            check_header(words)
        elif first == "j" or first == "t":
            if self.job and not is_feed:
                raise Found(f"job {quote(self.job[1])} without `e`: it began in line {self.begun[self.job].line}")
            (self.check_job if first == "j" else self.check_tenant)(words, fault, is_feed)
        elif self.job and first in ("q", "e"):
            check_words(words, FORMS[first])
            check_asks(words, 1)
        elif self.job and not row.is_passed():
            what = "no block stands before this line `a`: " if first == "a" else ""
            raise Found(what + f"a line of a job begins with `p`, `q` or `e` outside a block, here with {quote(first)}; {begun}")
        elif not row.is_passed():
            last = f"; the last job ended in line {self.ended}" if self.ended and first in "paqe" else ""
            raise Found(f"a line outside a job begins with `t` or `j`, here with {quote(first)}{last}")

    def check_in_block(self, row: Row, header: Row, fault: list[str]) -> None:
        if row.first == "a" and fault[0] not in ("ClauseCount", "Trailing"):
            lits = check_literals(row.words, header)
            check_opposite(lits)
            if fault == ["Limit", "Clauses"]:
                raise Found(f"{MOST['Clauses']:,} clauses of a job at most, here {self.clauses:,} with this revision")
            if fault == ["Limit", "Literals"]:
                raise Found(f"{MOST['Literals']:,} literals of a job at most, and those of this revision go beyond that")
            return
        if row.first in ("p", "e", "j", "t", "q") and fault[0] in ("BadHeader", "BadNumber"):
            raise Found(f"{quote(row.first)} stands in the block that began in line {header.line}: a line `a` ends a block, `a 0` at least")
        if not row.is_passed() or fault[0] in ("ClauseCount", "Trailing"):
            check_in_formula(row, header, [*self.block, row], fault)

    def check_tenant(self, words: list[str], fault: list[str], is_feed: bool) -> None:
        check_words(words, FORMS["t"])
        check_name(words[1], 1, "tenant")
        if fault == ["Limit", "Tenants"]:
            raise Found(f"{MOST['Tenants']} tenants at most, and {quote(words[1])} is one more", 1)

    def check_job(self, words: list[str], fault: list[str], is_feed: bool) -> None:
        job = (self.tenant, words[1]) if len(words) > 1 else None
        if not self.tenant:
            raise Found("no tenant is named yet: a line `t TENANT` comes before the first job")
        if is_feed and job and len(words) == 2:
            was = f"it began in line {self.begun[job].line} and was closed" if job in self.begun else "none began"
            raise Found(f"no {job_name(job)} is open: {was}. {FORMS['j']} begins a job, `j NAME` goes on with one", 1)
        check_words(words, FORMS["j"])
        check_name(words[1], 1, "job")
        check_asks(words, 2)
        if fault[0] == "Duplicate" and job in self.begun:
            raise Found(f"tenant {quote(self.tenant)} has a job {quote(words[1])} already: it began in line {self.begun[job].line}", 1)
        if fault == ["Limit", "Jobs"]:
            raise Found(f"{MOST['Jobs']} jobs of a tenant at most, and {quote(words[1])} is one more of {quote(self.tenant)}", 1)

    def check_end(self, row: Row, fault: list[str]) -> None:
        """Why the text may not end with this line."""
        if self.header and fault[0] in ("ClauseCount", "Trailing"):
            check_in_formula(row, self.header, self.block or [row], fault)
        if self.header:
            raise Found(f"the block that began in line {self.header.line} has no line `a`: `a 0` where nothing is assumed", None)
        if self.job:
            raise Found(f"job {quote(self.job[1])} without `e`: it began in line {self.begun[self.job].line}", None)


def why_script(rows: list[Row], row: Row, fault: list[str], is_last: bool, is_feed: bool = False) -> None:
    place = Place(rows[:-1], is_feed)
    place.check(row, fault, is_feed)
    if is_last:
        if not row.is_passed():
            place.take(row, is_feed)
        place.check_end(row, fault)


def why_formula(rows: list[Row], row: Row, fault: list[str], letter: str) -> None:
    """Why a line of a formula is refused, or one of those after it, of which the first begins with this letter."""
    at = next((place for place, other in enumerate(rows) if other.first in (letter, "proof")), None)
    counting = [other for other in rows[:at] if not other.is_passed()]
    header = counting[0] if counting else None
    if header is None:
        raise Found("the formula has no header: a line `p cnf VARIABLES CLAUSES` is to come first", None)
    if at is None:
        if header is row:
            check_header(row.words)
        check_in_formula(row, header, counting[1:] or [header], fault)
    elif rows[at] is row:
        if row.first == "proof":
            raise Found("the line `proof` has no other word", 1)
        lits = check_literals(row.words, header)
        if letter == "w":
            check_softs(len(lits), header, fault)
        check_opposite(lits)
        raise Found(f"{MOST['Assumptions']} assumptions at most, here {len(set(lits)):,}")
    raise Found(f"after the line `{letter}`, line {rows[at or 0].line}, comments alone may stand")


def check_softs(n: int, header: Row, fault: list[str]) -> NoReturn:
    if n > MOST["Softs"]:
        raise Found(f"{MOST['Softs']} soft literals at most, here {n:,}", MOST["Softs"] + 1)
    own = {"Variables": int(header.words[2]), "Clauses": int(header.words[3])}.get(fault[1])
    more = {"Variables": n * n, "Clauses": n + (n - 1) * (2 * n - 1)}.get(fault[1], 2 * n + (n - 1) * (5 * n - 3))
    here = f"here {own + more:,}: {own:,} of the formula and" if own is not None else "beyond which the formula goes with"
    raise Found(f"{MOST[fault[1]]:,} {fault[1].lower()} at most, {here} {more:,} of the counter of {counted(n, 'soft literal')}")


class Proof:
    """A proof of which some lines are read, and the clauses that are held."""

    def __init__(self, formula: Iterable[Row]) -> None:
        words = [word for row in formula if not row.is_passed() and row.first not in "p%aproof" for word in row.words]
        self.held: dict[int, frozenset[int]] = {}
        self.last = 0
        lits: list[int] = []
        for lit in map(int, words):
            lits.append(lit)
            if lit == 0:
                self.last += 1
                self.held[self.last], lits = frozenset(lits[:-1]), []
        self.deleted: dict[int, int] = {}

    def check(self, row: Row) -> tuple[int, list[int], list[int], int]:
        """The id, literals and hints of a line, and the place of its first hint. Of a line that deletes all lists are empty."""
        words, form = row.words, "a line is `ID LITERALS 0 HINTS 0`, or `ID d IDS 0`"
        at = 1 if row.first == "l" else 0
        if at == len(words):
            raise Found(f"{form}, and this one ends after `l`", None)
        number(words[at], at, f": {form}")
        check_range(words, at, "an id", 1, MOST_ID)
        deletes = words[at + 1 : at + 2] == ["d"]
        zero = at + 1 if deletes else next((spot for spot in range(at + 1, len(words)) if value(words[spot]) == 0), len(words))
        for spot in range(at + 1 + deletes, len(words)):
            is_lit = spot < zero
            low, most = (0 if deletes else -MOST_ID), MOST["Variables"] if is_lit else MOST_ID
            found = number(words[spot], spot, f": {form}")
            if not (-most if is_lit else low) <= found <= most:
                what = "the variable of a literal" if is_lit else "an id" if deletes else "a hint"
                raise Found(f"{what} is 1 to {most:,}, here {quote(words[spot])}", spot)
        rest = [value(word) or 0 for word in words[zero + 1 :]]
        if 0 not in rest:
            which = "ids" if deletes else "hints" if zero < len(words) else "literals"
            raise Found(f"the {which} have no `0` after them: {form}", None)
        if rest.index(0) + 1 < len(rest):
            behind = zero + 2 + rest.index(0)
            raise Found(f"{quote(words[behind])} stands after the `0` that ends the line", behind)
        return int(words[at]), [] if deletes else [int(word) for word in words[at + 1 : zero]], rest[:-1], zero + 1

    def take(self, row: Row, judged: bool = False) -> None:
        """Takes a line; where it is the one that is judged it is one that the program refuses."""
        words = row.words[row.first == "l" :]
        id_, lits, hints, first = self.check(row)
        if words[1:2] == ["d"]:
            self.deleted.update((hint, row.line) for hint in hints if self.held.pop(hint, None) is not None)
            return
        if judged and id_ <= self.last:
            raise Found(f"ids rise: the one before is {self.last}, here {id_}", len(row.words) - len(words))
        for at, hint in enumerate(hints, first):
            if judged and hint < 0:
                raise Found(f"a hint is 1 at least, here {hint}: a resolution candidate, and no such step is taken", at)
        if judged:
            self.check_hints(set(lits), hints, first)
        self.held[id_], self.last = frozenset(lits), id_

    def check_hints(self, lits: set[int], hints: list[int], first: int) -> None:
        trues = {-lit for lit in lits}
        for at, hint in enumerate(hints, first):
            clause = self.held.get(hint)
            if clause is None:
                was = f"line {self.deleted[hint]} deletes it" if hint in self.deleted else "no line before adds it"
                raise Found(f"no clause {hint} is held here: {was}", at)
            left = [lit for lit in clause if -lit not in trues]
            if trues & clause or any(-lit in clause for lit in clause):
                continue
            if len(left) > 1:
                some = ", ".join(map(str, sorted(left, key=abs)[:8])) + ", .." * (len(left) > 8)
                raise Found(f"clause {hint} is not unit here: its literals {some} are neither true nor false", at)
            trues.update(left)
        some = ", ".join(map(str, sorted(trues, key=abs)[:8])) + ", .." * (len(trues) > 8)
        raise Found(f"the hints end before a clause is false; true are {some or 'no literals'}", None)


def why_proof(before: list[Row], rows: list[Row], row: Row, fault: list[str]) -> None:
    """Why a line of a proof is refused, or where there is none that it does not reach its goal."""
    if not fault:
        assumed = next((" ".join(other.words[1:-1]) for other in before if other.first == "a"), "")
        wanted = f"but negations of the assumptions {quote(assumed)}" if assumed else "at all"
        raise Found(f"the proof ends without its goal: no line adds a clause with no literal {wanted}", None)
    proof = Proof(before)
    for other in rows[:-1]:
        if not other.is_passed():
            proof.take(other)
    proof.take(row, True)
