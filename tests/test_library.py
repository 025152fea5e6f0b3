"""Black-box tests of libraries' calls that the program doesn't make, each growth of memory refused in its turn.

The program is what `rt ci` made of the crate of tests; it runs the test that it is given the name of.
"""

import os
import re
import subprocess

import pytest

from support.hostile import MOST_CALLS
from support.runs import SECONDS, TOP, in_gate, same

TESTS = "pay_library_tests"
CALLS = (
    "members::members_answer_and_export",
    "runs::events_are_run",
    "streams::frames_cut_anywhere",
)
# What ends a test where memory is refused to what it sets up.
SET_UP = re.compile("error: (Memory|OutOfMemory|AllocError|AllocFailed .*)\nthe test failed: .*\n")


def each(library, name):
    """Status and errors of the runs of a test, from the first growth refused to the last."""
    program = os.path.join(TOP, "crates", TESTS, "out", f"{TESTS}_tests")
    if not os.path.isfile(program) and not in_gate():
        pytest.skip("rt ci didn't run here, which builds the tests in Rattle")
    if not os.path.isfile(program):
        raise AssertionError(f"there is no {program}: 'rt ci {TESTS}' makes it")
    found = []
    for place in range(1, MOST_CALLS):
        how = {"env": {**os.environ, **library.given(growth=place)}, "cwd": library.place.name, "timeout": SECONDS}
        done = subprocess.run([program, name], capture_output=True, text=True, **how)
        if not library.was_refused():
            same((done.returncode, place > 1), (0, True), f"{name} with ample memory: {done}")
            return found
        found.append((done.returncode, done.stderr))
    raise AssertionError(f"{name}: no end of growths")


def test_each_growth_of_a_call_refused_once(library):
    """A call that was refused memory has the answer with ample memory when it is made again."""
    for name in CALLS:
        runs = each(library, name)
        for place, (status, errors) in enumerate(runs, 1):
            is_right = (status, errors) == (0, "") or (status == 101 and SET_UP.fullmatch(errors) is not None)
            same(is_right, True, f"{name}, growth {place}: {status} {errors}")
        again = sum(status == 0 for status, _ in runs)
        same(again > 30, True, f"{name}: {again} calls made again")
        print(f"{name}: growths refused: {len(runs)}, calls made again: {again}")


def test_each_growth_of_a_nodes_calls_refused_once(library):
    """So has a call at a node, of which no receipt is left where it was refused, and the node's making and closing."""
    runs = each(library, "node::plays::calls_leave_receipts")
    for place, run in enumerate(runs, 1):
        same(run, (0, ""), f"growth {place}")
    same(len(runs) > 30, True, f"{len(runs)} growths")
    print(f"a node's calls: growths refused: {len(runs)}, each call made again")
