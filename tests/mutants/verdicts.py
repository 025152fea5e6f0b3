"""Checks copies of a crate that have mutants in them, and judges what the prover says of each."""

from __future__ import annotations

import functools
import os
import re
import subprocess
import tempfile
from dataclasses import dataclass, field

from copies import make_copy
from edits import INVARIANT, REQUIRED, Mutant, rtlib
from payd_tools.repository.inventory import Function, functions_of, read_file

KILLED, SURVIVED, ELSEWHERE, BAD_EDIT = "killed", "SURVIVED", "REFUSED ELSEWHERE", "BAD EDIT"


@dataclass
class Outcome:
    """What came of a mutant, and what the prover said of it."""

    mutant: str
    verdict: str
    said: str


@dataclass
class Tally:
    """What came of a crate's mutants, by how many checks and processor seconds."""

    outcomes: list[Outcome] = field(default_factory=list)
    checks: int = 0
    seconds: float = 0

    def add(self, other: Tally) -> None:
        self.outcomes += other.outcomes
        self.checks += other.checks
        self.seconds += other.seconds


@dataclass
class Report:
    """What the prover said of a copy of a crate, and the sources and proof files that it has there."""

    lines: list[str]
    texts: dict[str, str]
    # Whether it read the crate and came to an end.
    has_judged: bool
    # Of processors.
    seconds: float


def check(crate, batch: list[Mutant]) -> Report:
    """Checks the functions of a batch on a copy of the crate with all its mutants."""
    with tempfile.TemporaryDirectory(prefix="mutants-") as room:
        make_copy(crate, batch, room)
        # (it would take a tenth longer to keep its work for a later check)
        words = crate.words(["--jobs", "1", "--allow-holes"], keeps=False)
        words += [word for it in sorted({it.function() for it in batch}) for word in ("--only", it)]
        lines, seconds = run(room, [rtlib.RATTLE, "check", *words])
        texts = {os.path.relpath(it, room): read_file(it) for it in rtlib.files_of(room)}
    return Report(lines, texts, bool(re.fullmatch(r"only=\d+ holes=\d+", lines[-1])), seconds)


def run(folder: str, words: list[str]) -> tuple[list[str], float]:
    """Runs a command, and returns the lines that it printed and the processor seconds that it took."""
    how = {"stdin": subprocess.DEVNULL, "stdout": subprocess.PIPE, "stderr": subprocess.STDOUT, "errors": "replace"}
    with subprocess.Popen([*rtlib.guarded(), *words], cwd=folder, **how) as started:
        said = started.stdout.read()
        # (the only call that tells the time of one child)
        _, started.returncode, used = os.wait4(started.pid, 0)
    return said.rstrip("\n").split("\n"), used.ru_utime + used.ru_stime


def line_of(crate, function: str, report: Report) -> str:
    """What the prover says of a function, or '' where no line is about it."""
    wanted = re.compile(rf"fn {crate.name}::(?:\w+::)*{re.escape(function)}: (.*)")
    found = [it[1] for it in map(wanted.match, report.lines) if it]
    return found[0] if len(found) == 1 else ""


NOTE = re.compile(r"note: src/(\S+\.rt):(\d+):\d+: (?:it is not proved that|`search` found no) .*?\(`([\w-]+)`\)")


def open_goals(function: str, said: str, report: Report) -> list[str]:
    """The goals of a function that have no answer and that the search left open: those that its line names, or those of
    the notes whose place is in it."""
    found = re.findall(r"`([\w-]+)`", "".join(re.findall(r"`search` did not prove ((?:`[\w-]+`(?:, )?)+)", said)))
    for file, line, goal in (it.groups() for it in map(NOTE.match, report.lines) if it):
        functions = functions_in_copy(file, report.texts.get(f"src/{file}", ""))
        if any(it.path() == function and int(line) - 1 in it.lines for it in functions):
            found.append(goal)
    return list(dict.fromkeys(found))


@functools.lru_cache(100)
def functions_in_copy(file: str, source: str) -> list[Function]:
    return list(functions_of(source, file))


@dataclass
class Error:
    """An error in a proof file: the goal that it is about or '', whether it is that a tactic didn't prove this goal
    itself, and its text."""

    goal: str
    is_at_goal: bool
    said: str


UNPROVED = re.compile(
    r"the goal does not follow|the goal fails|no proof of|did not prove|before the equations had joined"
    r"|`(?:search|grind)` (?:found no proof|builds no proof|stopped at its own limit|broke off)"
)


def own_errors(function: str, report: Report) -> list[Error]:
    """The errors in a function's own proof files."""
    place = re.compile(rf"(?:\./)?(proofs/(?:\w+/)*{function.replace('::', '/')}/\w+\.antt):(\d+):(\d+): error: (.*)")
    found = []
    for file, line, column, said in (it.groups() for it in map(place.match, report.lines) if it):
        goal = re.match(r"`([\w-]+)`:", said)
        is_whole = is_whole_answer(report.texts.get(file, ""), int(line), int(column))
        is_unproved = bool(goal and UNPROVED.search(said))
        found.append(Error(goal[1] if goal else "", is_unproved and is_whole, said))
    return found


def is_whole_answer(proof: str, line: int, column: int) -> bool:
    """Whether what begins at a place of a proof file is an answer to its goal, or one of its cases: no step of it, as
    what stands in brackets or after a 'let'."""
    lines = proof.splitlines(True)[:line]
    before = "".join([*lines[:-1], lines[-1][: column - 1]]) if lines else ""
    answer = re.split(r"(?m)^pub [\w-]+ : goal\..*\n", before)[-1]
    head, equals, rest = answer.partition("=")
    return bool(equals) and not re.search(r"\b(?:let|rw)\b", rest) and rest.count("(") == rest.count(")")


# What is said of a function of which all is proved but what it calls.
STANDS = re.compile(
    r"no holes|depends on a hole in .*"
    r"|no proof(?:[:;] it (?:calls|passes the block) [^;]*, which (?:is|are) not proved)+"
)


def is_of_clause(goal: str, clause: str) -> bool:
    """Whether a goal is of this clause, or of any, as it is stated where the function returns; or of an invariant, or
    of what a call requires."""
    called = REQUIRED.fullmatch(clause)
    if called:
        return bool(re.fullmatch(rf"{called[1]}(-\w+)?-requires(-[\w-]+)?", goal))
    if clause == INVARIANT:
        return goal.startswith("invariant_of-")
    return bool(re.fullmatch(rf"returns[\w-]*-clause-{clause}(-\d+)?" if clause else r"returns[\w-]*", goal))


def verdict_of(crate, mutant: Mutant, report: Report) -> Outcome:
    """A mutant is killed where a clause's goal isn't proved, and all that isn't one is."""
    said = line_of(crate, mutant.function(), report)
    if not report.has_judged or not said:
        errors = [it for it in report.lines if "error" in it] or report.lines
        return Outcome(mutant.name, BAD_EDIT, f"the prover judged nothing: {errors[0]}")
    errors = own_errors(mutant.function(), report)
    found = [*open_goals(mutant.function(), said, report), *(it.goal for it in errors if it.is_at_goal)]
    others = [f"`{it}` isn't proved" for it in found if not any(is_of_clause(it, of) for of in ("", mutant.clause))]
    others += [it.said for it in errors if not it.is_at_goal]
    at_clause = [it for it in found if is_of_clause(it, mutant.clause)]
    if others:
        return Outcome(mutant.name, ELSEWHERE, f"{said}: {'; '.join(others)}")
    if at_clause:
        return Outcome(mutant.name, KILLED, f"at {', '.join(at_clause)}")
    if found or not STANDS.fullmatch(said):
        return Outcome(mutant.name, ELSEWHERE, f"{said}: {', '.join(found)}")
    return Outcome(mutant.name, SURVIVED, said)


def try_batch(crate, batch: list[Mutant]) -> Tally:
    """Tries the mutants of a batch, in halves where it can't be read as a whole."""
    report = check(crate, batch)
    tally = Tally([], 1, report.seconds)
    if not report.has_judged and len(batch) > 1:
        half = len(batch) // 2
        for part in batch[:half], batch[half:]:
            tally.add(try_batch(crate, part))
    else:
        tally.outcomes = [verdict_of(crate, it, report) for it in batch]
    return tally
