"""Why a description of jobs in JSON is refused, for mal-explain. The job and the fault are known, or that the text is no JSON."""

import json
import re
from json.decoder import scanstring
from typing import Any, NoReturn, Optional, Union

from mal_fault_lines import ASKS, MOST, NAME, Found, check_opposite, quote

Path = list[Union[str, int]]  # the keys and the places that lead to a value

JOB = {"tenant": "name", "name": "name", "priority": "number", "demand": "number", "slices": "number", "profile": "number", "steps": "list"}
REVISION = {"variables": "number", "clauses": "clauses", "assumptions": "literals"}
ASK = {"priority": "number", "demand": "number"}
KINDS = {
    "name": "a text of 1 to 32 small letters, digits and `_`", "number": "a whole number within 64 bits", "list": "a list",
    "literals": "a list of whole numbers", "clauses": "a list of lists of whole numbers",
}
TOKEN = re.compile(r'"(?:[^"\\]|\\.)*"|[][{}]|-?(?:[0-9][0-9.eE+-]*|Infinity)|NaN')
BLANKS = re.compile(r"[ \t\n\r]*")
DEEPEST = 127


class NotJson(Exception):
    """Why a text is no JSON, and where."""

    def __init__(self, why: str, at: int) -> None:
        super().__init__(why)
        self.why, self.at = why, at


class Misdescribed(Exception):
    """Why a value is refused, the path to it, and the key where that is meant and not the value under it."""

    def __init__(self, why: str, path: Path, key: Optional[str] = None) -> None:
        super().__init__(why)
        self.why, self.path, self.key = why, path, key


def shown(thing: Any) -> str:
    return quote(json.dumps(thing))


def whole(digits: str) -> Union[int, float]:
    """A whole number; as one with a point what is beyond 64 bits, and `-0`."""
    found = int(digits) if len(digits) < 25 else 1 << 99
    return found if -(1 << 63) <= found < 1 << 63 and digits != "-0" else 0.5


def load(text: str) -> Any:
    """The value of a text that the program takes as JSON, or where it is none."""
    try:
        document = json.loads(text, parse_int=whole)
    except json.JSONDecodeError as error:
        raise NotJson(error.msg[0].lower() + error.msg[1:], error.pos) from None
    except RecursionError:
        document = None
    check_tokens(text)
    return document


def check_tokens(text: str) -> None:
    """Refuses what this language reads as JSON and the program does not."""
    depth = 0
    for token in TOKEN.finditer(text):
        word = token[0]
        depth += (word in "[{") - (word in "]}")
        if depth > DEEPEST:
            raise NotJson(f"values are {DEEPEST} deep at most", token.start())
        if word.startswith('"'):
            if "\\u" in word and re.search("[\ud800-\udfff]", scanstring(text, token.start() + 1)[0]):
                raise NotJson("half a surrogate pair in a text", token.start())
        elif word[-1] in "yN":
            raise NotJson(f"`{word}` is no number", token.start())
        elif word not in "[]{}" and abs(float(word)) == float("inf"):
            raise NotJson("a number beyond a double", token.start())


def offset_of(text: str, path: Path, key: Optional[str]) -> int:
    """Where a value or a key of it begins. Of a key that stands twice it is the last one."""
    decoder, at = json.JSONDecoder(parse_int=whole), 0

    def skip(at: int) -> int:
        found = BLANKS.match(text, at)
        return found.end() if found else at

    at = skip(at)
    for depth, step in enumerate([*path, key] if key is not None else path):
        wanted, place = at, 0
        at = skip(at + 1)
        while text[at] not in "]}":
            name: Union[str, int] = place
            start = at
            if isinstance(step, str):
                name, at = scanstring(text, at + 1)
                at = skip(skip(at) + 1)
            if name == step:
                wanted = start if depth == len(path) else at
                if isinstance(step, int):
                    break
            at, place = skip(decoder.raw_decode(text, at)[1]), place + 1
            at = skip(at + 1) if text[at] == "," else at
        at = wanted
    return at


def wrong(thing: Any, kind: str) -> Optional[Path]:
    """The path to what is of another kind; none where nothing is."""
    if kind == "name":
        return None if isinstance(thing, str) and NAME.fullmatch(thing) else []
    if kind == "number":
        return None if type(thing) is int else []
    if not isinstance(thing, list):
        return []
    for at, part in enumerate(thing if kind != "list" else []):
        deeper = wrong(part, "number" if kind == "literals" else "literals")
        if deeper is not None:
            return [at, *deeper]
    return None


def check_shape(thing: Any, what: str, keys: dict[str, str], path: Path) -> None:
    """Whether a value has just these keys, each with a value of its kind. `profile` may be left out."""
    if not isinstance(thing, dict):
        raise Misdescribed(f"{what} is an object, here {shown(thing)}", path)
    for key in thing:
        if key not in keys:
            raise Misdescribed(f"key {quote(key)} is none of {', '.join(f'`{name}`' for name in keys)}: {what} has no others", path, key)
    for key, kind in keys.items():
        if key not in thing and key != "profile":
            raise Misdescribed(f"{what} lacks the key `{key}`", path)
        bad = wrong(thing[key], kind) if key in thing else None
        if bad is not None:
            found = thing[key]
            for step in bad:
                found = found[step]
            raise Misdescribed(f"`{key}` is {KINDS[kind]}, here{' within it' if bad else ''} {shown(found)}", [*path, key, *bad])


def why_shape(job: Any, path: Path) -> None:
    check_shape(job, "a job", JOB, path)
    for at, step in enumerate(job["steps"]):
        is_ask = isinstance(step, dict) and not set(step) & set(REVISION) and bool(set(step) & set(ASK))
        keys, what = (ASK, "a step that asks anew") if is_ask else (REVISION, "a revision")
        check_shape(step, what, keys, [*path, "steps", at])


def check_asks(thing: dict[str, Any], path: Path) -> None:
    for key, most in ASKS.items():
        if not 1 <= thing.get(key, 1) <= most:
            raise Misdescribed(f"`{key}` is 1 to {most:,}, here {thing[key]:,}", [*path, key])


def why_step(step: dict[str, Any], fault: list[str], path: Path) -> None:
    """Why a step is refused, where its numbers are."""
    check_asks(step, path)
    variables = step.get("variables", 0)
    if variables < 0:
        raise Misdescribed(f"`variables` is 0 at least, here {variables:,}", [*path, "variables"])
    if variables > MOST["Variables"] and fault[0] == "Limit":
        raise Misdescribed(f"{MOST['Variables']:,} variables at most, here {variables:,}", [*path, "variables"])
    lists: list[tuple[Path, list[int]]] = [(["clauses", at], lits) for at, lits in enumerate(step.get("clauses", []))]
    for more, lits in [*lists, (["assumptions"], step.get("assumptions", []))]:
        for at, lit in enumerate(lits):
            if lit == 0 and fault[0] == "Range":
                raise Misdescribed("0 is no literal, and no 0 ends a list", [*path, *more, at])
            if abs(lit) > variables and fault[0] == "VarTooLarge":
                raise Misdescribed(f"the variables of this step are 1 to {variables:,}, here {lit}", [*path, *more, at])
    if fault[0] == "Opposite":
        try:
            check_opposite(step.get("assumptions", []))
        except Found as found:
            raise Misdescribed(found.why, [*path, "assumptions", (found.word or 1) - 1]) from None


def why_limit(jobs: list[Any], at: int, fault: list[str], path: Path) -> NoReturn:
    """Why a job is one of too many, or has too much."""
    job, most = jobs[at], MOST[fault[1]]
    if fault[1] == "Tenants":
        raise Misdescribed(f"{most} tenants at most, and {quote(job['tenant'])} is one more", [*path, "tenant"])
    if fault[1] == "Jobs":
        raise Misdescribed(f"{most} jobs of a tenant at most, and this is one more of {quote(job['tenant'])}", [*path, "name"])
    revisions = [place for place, step in enumerate(job["steps"]) if "clauses" in step]
    if fault[1] == "Revisions":
        raise Misdescribed(f"{most} revisions of a job at most, here {len(revisions)}", [*path, "steps", revisions[most]])
    total = 0
    for place in revisions:
        for lits in map(set, job["steps"][place]["clauses"]):
            total += 1 if fault[1] == "Clauses" else 0 if any(-lit in lits for lit in lits) else len(lits)
        if total > most:
            raise Misdescribed(f"{most:,} {fault[1].lower()} of a job at most, here {total:,} with this step", [*path, "steps", place])
    raise Misdescribed(f"{most:,} {fault[1].lower()} at most", path)


def why_job(document: Any, number: int, fault: list[str]) -> None:
    """Why a job of a document is refused, or where the number is 0 the document."""
    if number == 0:
        check_shape(document, "a description", {"jobs": "list"}, [])
        return
    jobs, path = document["jobs"], ["jobs", number - 1]
    job = jobs[number - 1]
    if fault[0] == "Shape":
        why_shape(job, path)
    elif fault[0] == "Duplicate":
        names = [(other["tenant"], other["name"]) for other in jobs[:number]]
        first = names.index(names[-1]) + 1
        why = f"tenant {quote(job['tenant'])} has a job {quote(job['name'])} already, job {first} of the list"
        raise Misdescribed(why, [*path, "name"])
    elif fault[0] == "Range":
        check_asks(job, path)
    for at, step in enumerate(job["steps"]):
        why_step(step, fault, [*path, "steps", at])
    if fault[0] == "Limit":
        why_limit(jobs, number - 1, fault, path)


def why_json(text: str, fault: list[str]) -> tuple[int, str]:
    """Why a text is refused, and the place of the character that is meant. The fault is the program's words after `json`."""
    try:
        document = load(text)
        if fault[0] == "job":
            why_job(document, int(fault[1]), fault[2:])
    except NotJson as error:
        return error.at, f"no JSON: {error.why}"
    except Misdescribed as error:
        path = "".join(f"[{step}]" if isinstance(step, int) else f".{step}" for step in error.path).lstrip(".")
        return offset_of(text, error.path, error.key), error.why + (f", at {path}" if path else "")
    return 0, ""
