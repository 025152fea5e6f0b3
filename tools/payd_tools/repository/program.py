"""Which program ./payd runs: prints its kind, proved or compiled, and what is to be said of it. Where there is none of
the sources that stand, it is compiled.

usage: tools/program
       tools/program kept        prints the same, or nothing where there is none
       tools/program sum         before rt ci: prints what 'keep' compares
       tools/program keep SUM    after it: keeps the program that it made as proved, if no source was changed since, and
                                 prints its path
"""

from __future__ import annotations

import ctypes
import os
import signal
import sys

from payd_tools import usage
from payd_tools.repository import building, proving, toolchain
from payd_tools.repository.toolchain import BuildError

TRIES = 3
DIES_WITH_ITS_PARENT = 1


def find_kept() -> None:
    print(*building.find() or (), sep="\n", end="")


def choose() -> None:
    # (the script that asks is killed alone)
    ctypes.CDLL(None).prctl(DIES_WITH_ITS_PARENT, signal.SIGTERM)
    for _ in range(TRIES):
        found = building.find()
        if found:
            print(*found, sep="\n")
            return
        toolchain.load_needed()
        building.compile_program()
    raise BuildError("the sources change too fast to be compiled")


def note_sources() -> None:
    os.makedirs(building.STORE, exist_ok=True)
    print(building.sums().whole, building.now())


def keep_proved() -> None:
    whole, begun = sys.argv[2].split()
    of = building.sums()
    if of.whole != whole or building.changed_since(int(begun)):
        raise BuildError("a source was changed since, so the program isn't kept")
    proving.keep(of.whole)
    print(building.path_of(building.PROVED))


ALONE = {"": choose, "kept": find_kept, "sum": note_sources}


def are_taken(words: list[str]) -> bool:
    return [*words, ""][0] in ALONE and len(words) < 2 or words[:-1] == ["keep"]


def main() -> None:
    words = usage.read_words(__doc__, are_taken)
    building.run_script({**ALONE, "keep": keep_proved}[words[0] if words else ""])
