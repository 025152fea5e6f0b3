"""Reads mutants: what an edit changes, and in which check it can stand beside others."""

from __future__ import annotations

import functools
import os
import re
import sys
from dataclasses import dataclass

from payd_tools.repository import toolchain
from payd_tools.repository.inventory import Function, read_file, read_functions

TOP = toolchain.TOP
# The toolchain's command rt as a module, for the words of a check.
rt = toolchain.load_rt() or sys.exit("mutants: the command rt isn't on the path")
rtlib = rt.rtlib

FOLDER = "mutants"
# What a mutant names in place of a clause that the invariant of a type has to kill.
INVARIANT = "invariant"
# The same of what a function that it calls requires.
REQUIRED = re.compile(r"what (\w+) requires")
MARKS = ("function", "clause", "promise", "body", "first", "old", "new")


class BadEdit(Exception):
    """Why an edit can't be tried."""


@dataclass
class Mutant:
    """An edit of one function's body: its name, the function, and the new body."""

    name: str
    of: Function
    body: str
    # The one clause that has to kill it, or '' where any may.
    clause: str
    # Whether it can stand in a twin of its function.
    can_be_twin: bool
    # Whether it keeps the function's own body in part, so that proof files of that are of use.
    has_proofs: bool
    # With what the name of its twin ends, or '' where it stands in its function's own place.
    ending: str = ""

    def function(self) -> str:
        """Returns how the prover names the function that has the new body."""
        return self.of.path() + self.ending

    def own_clause(self) -> str:
        """Returns the clause of the function itself that it names, or ''."""
        return "" if self.clause == INVARIANT or REQUIRED.fullmatch(self.clause) else self.clause


@functools.lru_cache(None)
def lines_of(crate, file: str) -> list[str]:
    """Returns the lines of a crate's source."""
    return read_file(f"{crate.folder}/src/{file}").splitlines()


@functools.lru_cache(None)
def functions_in(crate) -> dict[str, Function]:
    """Returns the functions of a crate that have a body, as the prover names them."""
    return {it.path(): it for it in read_functions(crate.folder) if it.body}


def proof_folders(function: str) -> tuple[str, str]:
    """Where the proof files of a function are, and those of its closures."""
    module, _, name = f"proofs::{function}".replace("::", "/").rpartition("/")
    return f"{module}/{name}", f"{module}/fn/{name}"


def read_edit(path: str, marks: tuple[str, ...] = MARKS) -> dict[str, list[str]]:
    """Returns what stands after each mark of an edit, line by line."""
    edit: dict[str, list[str]] = {it: [] for it in marks}
    for line in read_file(path).splitlines():
        mark, _, text = line.partition(": ")
        if mark not in edit or not text:
            raise BadEdit(f"a line begins with no mark of an edit, or says nothing: {line}")
        edit[mark].append(text)
    return edit


def mutant_of(crate, name: str, edit: dict[str, list[str]]) -> Mutant:
    """Applies an edit to its function's body."""
    if len(edit["function"]) != 1 or len(edit["clause"]) > 1:
        raise BadEdit("it has to name one function, and one clause at most")
    [path] = edit["function"]
    if path not in functions_in(crate):
        raise BadEdit(f"no function with a body is {path}")
    of = functions_in(crate)[path]
    lines = lines_of(crate, of.file)
    is_cycle = any("#[cycle" in it for it in lines[of.lines.start : of.body.start])
    has_closures = os.path.exists(f"{crate.folder}/{proof_folders(path)[1]}")
    is_fixed = has_closures or is_cycle or of.inside.is_trait or of.trait != ""
    body = body_of(edit, "\n".join(lines[of.body.start : of.body.stop]))
    return Mutant(name, of, body, "".join(edit["clause"]), not is_fixed, not edit["body"])


def body_of(edit: dict[str, list[str]], body: str) -> str:
    """What a function's body becomes."""
    whole, first, olds, news = (edit[it] for it in ("body", "first", "old", "new"))
    if [bool(whole), bool(first), bool(olds)].count(True) != 1 or len(olds) != len(news):
        raise BadEdit("it has to have a line 'body: TEXT' or 'first: TEXT', or pairs of 'old: TEXT' and 'new: TEXT'")
    new = "\n".join(whole or [*first, body])
    for old, then in zip(olds, news):
        if new.count(old) != 1:
            raise BadEdit(f"the old text stands {new.count(old)} times in its function's body: {old}")
        new = new.replace(old, then)
    if new == body:
        raise BadEdit("it changes nothing")
    return new


def look_at_clause(crate, mutant: Mutant) -> None:
    """Refuses a mutant that doesn't name its clause though its function has several, or names another's."""
    names = {*mutant.of.ensures}
    if mutant.own_clause() and mutant.own_clause() not in names:
        raise BadEdit(f"its function has no clause '{mutant.clause}'")
    folder = f"{crate.folder}/{proof_folders(mutant.of.path())[0]}"
    files = os.listdir(folder) if mutant.has_proofs and os.path.isdir(folder) else []
    # (an answer may be to all clauses at once)
    whole = re.compile(r"(?m)^pub returns(?:(?!-clause-)[\w-])* :")
    is_answered_whole = any(whole.search(read_file(f"{folder}/{it}")) for it in files)
    if mutant.own_clause() and is_answered_whole:
        raise BadEdit(f"no answer is to '{mutant.clause}' alone, so that no line has to name it")
    if len(names - {""}) > 1 and not mutant.clause and not is_answered_whole:
        raise BadEdit("its function has several clauses: a line 'clause: NAME' has to say which of them kills it")


def read_mutants(crate) -> tuple[list[Mutant], dict[str, str]]:
    """Reads a crate's mutants, and says of those that can't be tried why."""
    folder, mutants, bad = f"{crate.folder}/{FOLDER}", [], {}
    for file in sorted(os.listdir(folder)) if os.path.isdir(folder) else []:
        name, ending = os.path.splitext(file)
        try:
            if ending != ".edit":
                raise BadEdit("its name doesn't end in .edit")
            mutant = mutant_of(crate, name, read_edit(f"{folder}/{file}"))
            if mutant.can_be_twin:
                look_at_clause(crate, mutant)
            mutants.append(mutant)
        except (BadEdit, OSError, UnicodeDecodeError) as why:
            bad[name] = str(why)
    return mutants, bad


def in_batches(mutants: list[Mutant]) -> list[list[Mutant]]:
    """Puts each mutant into the first batch in which it can be judged: two that can't be twins don't share one where
    they are of one function."""
    batches: list[list[Mutant]] = []
    for mutant in sorted(mutants, key=lambda it: it.can_be_twin):
        for batch in batches:
            if mutant.can_be_twin or all(it.of is not mutant.of or it.ending for it in batch):
                break
        else:
            batch = []
            batches.append(batch)
        mutant.ending = f"_mutant{len(batch)}" if mutant.can_be_twin else ""
        batch.append(mutant)
    return batches
