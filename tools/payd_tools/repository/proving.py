"""Proves and builds the program, which ./payd then runs. Where these sources were proved, there is nothing to do.

usage: ./payd-prove

Crates that don't need one another are proved side by side. Standard error tells how far it is, and where it fails what
the prover said. The status is 1 where the prover refuses, and 70 where there is no verdict or no program for another
cause.
"""

from __future__ import annotations

import contextlib
import os
import re
import subprocess
import tempfile
import time
from typing import Any

from payd_tools import usage
from payd_tools.repository import building, toolchain
from payd_tools.repository.building import PROVED, REFUSED, Record, Refused, say
from payd_tools.repository.toolchain import TOP, BuildError

PROGRAM = "payd"
# More jobs seldom help one check.
MOST_JOBS = 4
# How a check ends, by its last lines and by its status.
VERDICT = re.compile(r"^logic=(proved|not-proved)", re.MULTILINE)
NO_VERDICT = re.compile(r"^rattle: no verdict", re.MULTILINE)
COULD_NOT_TELL = 3


class Proof:
    """A proof of the program under way."""

    def __init__(self, rt: Any) -> None:
        self.rt = rt
        self.crate = next(it for it in rt.rtlib.crates_below(TOP) if it.name == PROGRAM)
        self.done, self.running, self.began = 0, 0, time.monotonic()

    def end(self, crate: Any, status: int, said: str) -> BuildError | None:
        """Tells how a crate's check ended, and returns why it could not be built where it failed."""
        if status:
            say(said.rstrip(), of="")
            return error_of(crate, status, said)
        self.done += 1
        seconds = int(time.monotonic() - self.began)
        say(f"{crate.name} proved, {self.done} of {len(self.crate.below()) + 1}, {seconds} s")
        return None

    def build_library(self, crate: Any, given: dict[tuple[str, str], Any], jobs: int) -> BuildError | bool | None:
        """Proves and builds a crate, if its libraries are built, and returns why it can't be."""
        if any(given[it.name, "proof"] is not None for it in crate.below()):
            # (what keeps a crate below from being built is said once, there)
            return False
        self.running += 1
        # what most others wait for comes first, and gets the processors of those that come after it and are short
        jobs = max(jobs, min(MOST_JOBS, len(os.sched_getaffinity(0)) // self.running))
        with tempfile.TemporaryFile("w+", errors="replace") as crate.out:
            status = crate.build_rlib(["--jobs", str(jobs)], anew=False)
            crate.out.seek(0)
            said = crate.out.read()
        self.running -= 1
        return self.end(crate, status, said)

    def build_libraries(self) -> None:
        """Builds each crate once its libraries are built, as many side by side as processors and memory allow."""

        def task(crate: Any) -> tuple:
            waits = [(it.name, "proof") for it in crate.below()]
            return waits, crate.count(b"\n"), self.rt.need(crate), lambda *given: self.build_library(crate, *given)

        tasks = {(it.name, "proof"): task(it) for it in self.crate.below()}
        errors = [it for it in self.rt.in_lanes(tasks).values() if it]
        if errors:
            kind = Refused if any(isinstance(it, Refused) for it in errors) else BuildError
            raise kind("; ".join(str(it) for it in errors))

    def build(self) -> None:
        say("proving the program, which may take half an hour")
        held = self.rt.rtlib.lock([*self.crate.below(), self.crate])
        self.build_libraries()
        for it in held:
            os.close(it)
        # it is run once, on nothing
        how = {"stdin": subprocess.DEVNULL, "stdout": subprocess.PIPE, "stderr": subprocess.STDOUT, "errors": "replace"}
        ran = subprocess.run([*self.rt.rtlib.guarded(), "rt", "run"], cwd=self.crate.folder, **how)
        error = self.end(self.crate, ran.returncode, ran.stdout)
        if error:
            raise error

    def forget(self) -> None:
        """Has rt build all again: it compares the text before a build with that after it, and not with one between."""
        for it in [*self.crate.below(), self.crate]:
            for stamp in ("rlib/stamp", f"{it.name}.stamp"):
                with contextlib.suppress(FileNotFoundError):
                    os.remove(os.path.join(it.folder, "out", stamp))


def error_of(crate: Any, status: int, said: str) -> BuildError:
    """Why a crate could not be built, by its check's status and what it said.

    A check that was stopped or could not tell has refused nothing. (rt hands a signal on as a negative status, of
    which a process ends with the lowest byte.)
    """
    verdict = VERDICT.search(said)
    if verdict is None and (status < 0 or status > 128):
        why = "whose check was stopped, most likely for memory: prove it again"
        return BuildError(f"no verdict on {crate.name}, {why}")
    if verdict is None and (status == COULD_NOT_TELL or NO_VERDICT.search(said)):
        return BuildError(f"no verdict on {crate.name}, of which the prover could not tell")
    if verdict and verdict[1] == "not-proved":
        return Refused(f"the prover refuses {crate.name}")
    return BuildError(f"{crate.name} could not be built")


def keep(whole: str) -> None:
    """Keeps the program that the toolchain left as proved of these sources."""
    building.keep(PROVED, whole, os.path.join(TOP, "crates", PROGRAM, "out", PROGRAM), **{REFUSED: None})
    say(building.find()[1])


def prove() -> None:
    """Proves and keeps the program, or returns at once where it is kept."""
    with building.alone(PROVED, "another run is proving the program"):
        made_by, begun, whole = toolchain.identity(), building.now(), building.sums().whole
        record = building.read_records().get(PROVED)
        if building.is_kept(record, whole, made_by) and building.is_whole(PROVED, record):
            return say(f"proved before, {building.find()[1].partition(', ')[2]}")
        rt = toolchain.load_needed()
        # its first call sets a signal's handler, which only the main thread may, and ends the provers when this ends
        rt.rtlib.guarded()
        proof, error = Proof(rt), None
        try:
            proof.build()
        except BuildError as it:
            error = it
        changed = building.changed_since(begun)
        if changed or building.sums().whole != whole:
            proof.forget()
            raise BuildError(f"{changed or 'a source'} was changed meanwhile, so nothing is kept: prove it again")
        if isinstance(error, Refused):
            building.write_state(**{REFUSED: Record(whole, "-", made_by)})
        if error:
            raise error
        return keep(whole)


def main() -> None:
    usage.read_words(__doc__)
    building.run_script(prove)
