"""Tries mutants: wrong bodies of functions, each of which the prover has to kill at a clause.

usage: python3 tests/mutants [--above] [--beside] [--jobs N] [--said] [--dry] [--by-tests] [CRATE | CRATE/MUTANT ..]

A mutant is a file crates/NAME/mutants/*.edit. A line 'function: channel::Channel::vote' names the one function whose
body it changes, as the prover names it but for the crate. A line 'body: TEXT' is the new body, and 'first: TEXT'
stands before the one that there is; or pairs of lines 'old: TEXT' and 'new: TEXT' change that, in which each old text
stands once. Where the function ensures several clauses, a line 'clause: NAME' says which of them has to kill it;
'clause: invariant', that the invariant of a type has to; 'clause: what NAME requires', that what a call of this
function requires has to. 'promise: NAME' marks one that tests this promise of docs/guarantees.md.

A mutant stands in a twin of its function: one of another name, with the same proof files (none where all of its body
is new), that ensures this clause and no other. All other functions are stubbed: taken by their contracts, without their
proofs. A method of a trait can have no twin; its mutant takes its place, with all clauses of the trait.

- It is killed where the prover doesn't prove the clause's goal and proves all else: so it would get through without
  this clause. The goal isn't proved where the search for it fails, or the tactic that is its whole answer.
- It was refused elsewhere where something else fails: another goal, as of a loop's invariant or of what a call
  requires, or a step of a proof file, which may not fit the new text though the clause is true of it. That shows
  nothing.
- It survived where all is proved.
- An edit that can't be applied, or that the prover can't read, is a bad one.

A check takes 10 to 25 seconds to load what it stands on, and each mutant 1 to 15. One costs little whose body calls
the function itself, which in a twin is the true one, and changes an argument or the result, or else changes a value, a
comparison or a branch and keeps the names that proof files use; and whose goal one tactic answers. Two mutants of one
method of a trait need two checks.

All but the first are failures. --above also takes the crates that stand on those named, --said prints what the prover
said of each mutant, and --dry reads the edits and proves nothing. The libraries that rt ci leaves are built where
their sources are newer; with --beside checks don't wait until that rt ci ends. A whole run also tries itself, on a
small crate of its own, and looks whether each promise and each public function has a mutant. --by-tests tries the
mutants that no clause kills but a test (by_tests.py), or those of them that are named. The last line is 'N passed, M
failed'.
"""

from __future__ import annotations

import argparse
import os
import sys
import tempfile
import threading
from concurrent.futures import ThreadPoolExecutor, as_completed
from dataclasses import dataclass

from by_tests import read_trials, try_by_tests
from coverage import faults_of_repository
from edits import FOLDER, TOP, Mutant, in_batches, read_mutants, rt, rtlib
from trial import try_itself
from verdicts import BAD_EDIT, KILLED, Outcome, Tally, try_batch

# What a check may take of memory, in bytes.
MEMORY = 3_000_000_000


@dataclass
class Task:
    """A crate, its mutants that are to be tried, and what came of those that were or can't be."""

    crate: object
    mutants: list[Mutant]
    tally: Tally
    # How many batches of them are still to be tried.
    left: int = 0

    def report(self, has_said: bool) -> tuple[int, int]:
        """Prints what came of its mutants, and returns how many were killed and how many weren't."""
        name, outcomes = self.crate.name, self.tally.outcomes
        killed = sum(it.verdict == KILLED for it in outcomes)
        print(f"{name}: {killed} of {len(outcomes)} mutants are killed; ", end="")
        print(f"{self.tally.checks} checks, {self.tally.seconds:.0f} processor seconds")
        for it in outcomes:
            if has_said or it.verdict != KILLED:
                print(f"{name}/{it.mutant}: {it.verdict}: {it.said[:500]}")
        sys.stdout.flush()
        return killed, len(outcomes) - killed


def task_of(crate, asked: set[str]) -> Task:
    mutants, bad = read_mutants(crate)
    named = {it.partition("/")[2] for it in asked if it.startswith(f"{crate.name}/")}
    missing = named - {it.name for it in mutants} - {*bad}
    if missing:
        sys.exit(f"mutants: {crate.name} has no mutant {min(missing)}")
    is_part = bool(named) and crate.name not in asked
    bad = [Outcome(name, BAD_EDIT, why) for name, why in bad.items() if not is_part or name in named]
    return Task(crate, [it for it in mutants if not is_part or it.name in named], Tally(bad))


def tasks_of(asked: set[str], has_above: bool) -> list[Task]:
    """The crates with mutants that are asked for, or all, lowest first."""
    crates = rtlib.crates_below(TOP)
    names = {it.partition("/")[0] for it in asked}
    missing = names - {it.name for it in crates}
    if missing:
        sys.exit(f"mutants: there is no crate {min(missing)}")
    if has_above:
        names |= {it.name for it in crates if names & {below.name for below in it.below()}}
    chosen = [it for it in crates if not names or it.name in names]
    return [task_of(it, asked) for it in chosen if os.path.isdir(f"{it.folder}/{FOLDER}")]


def built_by_ci(libraries) -> bool:
    """Whether all libraries are as rt ci leaves them, of the sources that stand: it writes no stamp, and one of its
    libraries fits no other build of those below it."""
    for library in libraries:
        stamp = f"{os.path.dirname(library.rlib)}/stamp"
        if not os.path.isdir(library.rlib) or os.path.exists(stamp):
            return False
        newest = max(os.path.getmtime(it) for it in rtlib.files_of(library.folder))
        if os.path.getmtime(library.rlib) < newest:
            return False
    return True


def hold(crates, libraries, is_beside: bool) -> None:
    """Keeps other runs of rt out of these crates and libraries, until this one ends. Beside an rt ci that has built the
    libraries and holds them, from its end on."""
    held = [*libraries, *crates]
    if is_beside and built_by_ci(libraries):
        threading.Thread(target=rtlib.lock, args=(held,), daemon=True).start()
    else:
        rtlib.lock(held)


def build_libraries(libraries) -> bool:
    """Builds these libraries, lowest first, where need be, and returns whether all is well."""
    if built_by_ci(libraries):
        return True
    for library in libraries:
        with tempfile.TemporaryFile("w+", errors="replace") as library.out:
            if library.build_rlib(["--jobs", "1"], anew=False):
                library.out.seek(0)
                print(f"{library.out.read()}mutants: the library {library.name} can't be built")
                return False
    return True


def print_faults(faults: list[str]) -> tuple[int, int]:
    print(*faults, sep="\n", end="\n" if faults else "")
    return (0, len(faults)) if faults else (1, 0)


def try_all(tasks: list[Task], words: argparse.Namespace, jobs: int) -> int:
    """Tries the crates' mutants, those checks first that have most, and returns the status."""
    batches = [(task, batch) for task in tasks for batch in in_batches(task.mutants)]
    with ThreadPoolExecutor(jobs) as pool:
        running = {}
        for task, batch in sorted(batches, key=lambda it: -len(it[1])):
            running[pool.submit(try_batch, task.crate, batch)] = task
            task.left += 1
        itself = [] if words.asked else [pool.submit(try_itself)]
        counts = [it.report(words.said) for it in tasks if not it.left]
        for ended in as_completed([*running]):
            task = running[ended]
            task.tally.add(ended.result())
            task.left -= 1
            if not task.left:
                counts.append(task.report(words.said))
        counts += [print_faults(it.result()) for it in itself]
    counts += [] if words.asked else [print_faults([*faults_of_repository(), *read_trials([])[1]])]
    passed, failed = (sum(it) for it in zip(*counts))
    print(f"{passed} passed, {failed} failed")
    return 1 if failed else 0


def read_only(tasks: list[Task]) -> int:
    """Says of each edit that can't be tried why, and what the repository lacks."""
    for task in tasks:
        print(f"{task.crate.name}: {len(task.mutants)} mutants, {len(in_batches(task.mutants))} checks")
        for it in task.tally.outcomes:
            print(f"{task.crate.name}/{it.mutant}: {it.verdict}: {it.said}")
    _, failed = print_faults([*faults_of_repository(), *read_trials([])[1]])
    return 1 if failed or any(it.tally.outcomes for it in tasks) else 0


def read_words() -> argparse.Namespace:
    lines = __doc__.splitlines()
    words = argparse.ArgumentParser(usage=lines[2].removeprefix("usage: "), description=lines[0])
    words.add_argument("--above", action="store_true", help="try those of the crates that stand on these, too")
    words.add_argument("--beside", action="store_true", help="don't wait for an rt ci that has built all libraries")
    words.add_argument("--jobs", type=int, help="how many checks to make at a time")
    words.add_argument("--said", action="store_true", help="print what the prover said of each mutant")
    words.add_argument("--dry", action="store_true", help="read the edits and prove nothing")
    words.add_argument("--by-tests", action="store_true", help="try those that a test has to kill, and no others")
    words.add_argument("asked", nargs="*", metavar="CRATE")
    return words.parse_args()


def main() -> int:
    words = read_words()
    if words.by_tests and not words.dry:
        return try_by_tests(words.asked)
    tasks = tasks_of({*words.asked}, words.above)
    if words.dry:
        return read_only(tasks)
    # (its first call sets a signal's handler, which only the main thread may)
    rtlib.guarded()
    tried = [it.crate for it in tasks]
    libraries = list(dict.fromkeys(below for crate in tried for below in crate.below()))
    hold(tried, libraries, words.beside)
    if not build_libraries(libraries):
        print("0 passed, 1 failed")
        return 1
    jobs = words.jobs or max(1, min(rt.processors(), int(0.85 * rt.free() / MEMORY)))
    return try_all(tasks, words, jobs)


if __name__ == "__main__":
    sys.exit(main())
