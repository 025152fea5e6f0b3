"""What the benches share: the words that they are called with, programs, and what a run of one uses."""

import argparse
import functools
import os
import subprocess
import sys
import time

from payd_tools.repository import building

TOP = os.path.dirname(os.path.dirname(os.path.realpath(__file__)))


def read_numbers(text, usual, quick):
    """The whole numbers that a bench is called with; those left out are the usual ones, by --quick the quick ones."""
    words = argparse.ArgumentParser(description=text, formatter_class=argparse.RawDescriptionHelpFormatter)
    words.add_argument("--quick", action="store_true", help=f"as with the numbers {' '.join(map(str, quick))}")
    words.add_argument("numbers", type=int, nargs="*", help=f"left out: {' '.join(map(str, usual))}")
    given = words.parse_args()
    left_out = quick if given.quick else usual
    return given.numbers + list(left_out[len(given.numbers) :])


def payd():
    """The path of the proved program, which is proved first where it isn't, and which nodes run from then on."""
    return os.environ.setdefault("PAYD_PROGRAM", building.proved_program())


def chosen():
    """The path of the program that ./payd runs, which may be one that nothing proved, and what is to be said of it."""
    path, said = building.chosen()
    return os.environ.setdefault("PAYD_PROGRAM", path), said


@functools.lru_cache(None)
def program(name):
    """The path of a crate's program, which is proved and built first."""
    folder = os.path.join(TOP, "crates", name)
    subprocess.run(["rt", "run"], cwd=folder, stdin=subprocess.DEVNULL, stdout=subprocess.DEVNULL, check=True)
    return os.path.join(folder, "out", name)


def processor_seconds(words, source=os.devnull):
    """What a run used of processors."""
    with open(source, "rb") as stream:
        started = subprocess.Popen(words, stdin=stream, stdout=subprocess.DEVNULL)
        _, status, used = os.wait4(started.pid, 0)
    if status != 0:
        sys.exit(f"'{' '.join(words)}' ended with status {os.waitstatus_to_exitcode(status)}")
    return used.ru_utime + used.ru_stime


def least_seconds(runs, programs):
    """The least processor time of each of these programs, by name, which take turns."""
    turns = [{name: processor_seconds(*words) for name, words in programs.items()} for _ in range(runs)]
    return {name: min(turn[name] for turn in turns) for name in programs}


def settled_after(group, own, seq):
    """The seconds from an ask until all nodes say that it has settled, and those of the polls."""
    polls, wanted = [], f"state {own} {seq} settled"
    begun = time.monotonic()
    group.nodes[own].ask(f"PAY {seq} {(own + 1) % group.members} 1")
    for node in group.nodes.values():
        answer = None
        while answer != wanted:
            asked = time.monotonic()
            answer = node.ask(f"STATE {own} {seq}")
            polls.append(time.monotonic() - asked)
    return time.monotonic() - begun, polls


def used_by_nodes(group):
    """What all nodes of a group used of processors so far."""
    return sum(node.processor_seconds() for node in group.nodes.values())
