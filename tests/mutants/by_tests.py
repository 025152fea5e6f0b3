"""Tries the mutants that no clause kills, but a test: those of what a lock keeps, of threads, and of memory at hand.

Each is a file tests/mutants/by_tests/*.edit: a line 'crate: NAME', a line 'test: CRATE::PATH' with the test that has to
fail, and then as for others. It is applied to a copy of all crates, which is compiled without proofs. The tests have to
pass first in such a copy without a mutant.
"""

from __future__ import annotations

import os
import shutil
import subprocess
import tempfile

from copies import write_files
from edits import MARKS, TOP, BadEdit, lines_of, mutant_of, read_edit, rtlib

FOLDER = os.path.join(TOP, "tests", "mutants", "by_tests")


def read_trial(name: str) -> tuple[str, dict[str, str]]:
    """Returns the test that has to kill a mutant, and the file of a crate that this changes with what it becomes."""
    edit = read_edit(os.path.join(FOLDER, f"{name}.edit"), (*MARKS, "crate", "test"))
    crate = next((it for it in rtlib.crates_below(TOP) if [it.name] == edit["crate"]), None)
    if crate is None or len(edit["test"]) != 1:
        raise BadEdit("it has to name one crate and one test")
    mutant = mutant_of(crate, name, edit)
    lines = [*lines_of(crate, mutant.of.file)]
    lines[mutant.of.body.start : mutant.of.body.stop] = [mutant.body]
    return edit["test"][0], {f"crates/{crate.name}/src/{mutant.of.file}": "\n".join(lines) + "\n"}


def passes_in_copy(texts: dict[str, str], test: str) -> bool | None:
    """Whether a test passes in a copy with these files, or None where that can't be compiled."""
    with tempfile.TemporaryDirectory(prefix="mutants-") as room:
        shutil.copytree(f"{TOP}/crates", f"{room}/crates", ignore=shutil.ignore_patterns("out", "mutants"))
        for it in ("crates.txt", "HANDLES"):
            shutil.copy(f"{TOP}/{it}", room)
        write_files(room, texts)
        crate, _, path = test.partition("::")
        words = [*rtlib.guarded(), "rt", "try", "--test", "--", path]
        how = {"stdin": subprocess.DEVNULL, "stdout": subprocess.PIPE, "stderr": subprocess.STDOUT}
        said = subprocess.run(words, cwd=f"{room}/crates/{crate}", errors="replace", **how).stdout.splitlines()
    return f"test {path} ... ok" in said if any(it.startswith("tests: ") for it in said) else None


def read_trials(asked: list[str]) -> tuple[dict[str, tuple[str, dict[str, str]]], list[str]]:
    """Returns those that are asked for, or all, by name, and what is wrong with those that can't be read."""
    faults, trials = [], {}
    names = sorted(it.removesuffix(".edit") for it in os.listdir(FOLDER))
    for name in (it for it in names if not asked or it in asked):
        try:
            trials[name] = read_trial(name)
        except (BadEdit, OSError, UnicodeDecodeError) as why:
            faults.append(f"{name}: BAD EDIT: {why}")
    return trials, faults


def try_by_tests(asked: list[str]) -> int:
    """Tries those that are asked for, or all, and returns the status."""
    trials, faults = read_trials(asked)
    passed = 0
    failing = {it for it in sorted({test for test, _ in trials.values()}) if not passes_in_copy({}, it)}
    faults += [f"{it} fails without a mutant" for it in sorted(failing)]
    for name, (test, texts) in trials.items():
        if test in failing:
            continue
        came = passes_in_copy(texts, test)
        if came is False:
            passed += 1
            print(f"{name}: killed by {test}", flush=True)
        else:
            faults.append(f"{name}: {'SURVIVED' if came else 'BAD EDIT: the tests can not be compiled'}")
    print(*faults, sep="\n", end="\n" if faults else "")
    print(f"{passed} passed, {len(faults)} failed")
    return 1 if faults or not trials else 0
