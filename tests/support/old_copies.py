"""Starts of a member from an older copy of its folder, for tests/kills: each is noticed, or is harmless."""

import json
import os
import random
import re
import shutil
import signal
import time
from collections import Counter

from payd_tools.logs import ASK, Log
from support.nodes import PATIENCE, Ended, audited
from support.restarts import OPENING, Folders, Owner, chosen, end, kill, raise_faults
from support.runs import same

# Every tenth start is from an older copy.
STARTS = 10
# Who gets one: one member alone, for a member that has forgotten is one of those that may lie.
FORGETFUL = 0
EARLY, FORGOTTEN = "refused 6 TooEarly", "refused 7 Forgotten"
NOTICED = re.compile(r"^payd: log (7 Forgotten|12 Known)$", re.MULTILINE)


class Copied(Owner):
    """An owner whose folder is copied between two starts."""

    def __init__(self, *words):
        super().__init__(*words)
        self.copies = []
        self.is_last = False

    def run(self):
        try:
            while not self.is_last and not self.lives():
                self.starts += 1
                # (there is none yet where the node was killed before it made its member)
                if os.path.exists(os.path.join(self.group.place.name, f"data-{self.own}", "log")):
                    self.copies.append(self.copy(f"copy-{len(self.copies)}"))
        except BaseException as error:  # told by whoever waits
            self.fault = error

    def copy(self, name):
        place = os.path.join(self.group.place.name, name)
        folder = os.path.join(self.group.place.name, f"data-{self.own}")
        shutil.copytree(folder, place, ignore=shutil.ignore_patterns("desk*", "status.prom*"))
        return place

    def put_back(self, copy):
        folder = os.path.join(self.group.place.name, f"data-{self.own}")
        shutil.rmtree(folder)
        shutil.copytree(copy, folder)


def started_from_older_copies(members, kills, seed, pause=0.03):
    """Groups in which so many nodes are killed; in each the last of ten starts of a member is from an older copy. What
    came of these starts: how many were refused, how many noticed while the node ran, how many harmless."""
    seeded = random.Random(seed)
    came = Counter()
    for number in range(max(1, kills // STARTS)):
        came[one_of_them(members, seeded, f"{seed} {number}", pause)] += 1
    return came


def one_of_them(members, seeded, seed, pause):
    with Folders([OPENING] * members, running=[]) as group:
        owners = [(Copied if own == FORGETFUL else Owner)(group, own, seed) for own in range(members)]
        forgetful = owners[FORGETFUL]
        for owner in owners:
            owner.start()
        while len(forgetful.copies) < STARTS - 1:
            time.sleep(seeded.random() * 2 * pause)
            kill(group, {FORGETFUL, *chosen(seeded, members)})
            raise_faults(owners)
        # (mostly what was asked for since the copy settles before)
        time.sleep(seeded.choice((0, 0.3, 0.3, 0.3)))
        forgetful.is_last = True
        while forgetful.is_alive():
            kill(group, [FORGETFUL])
            time.sleep(pause)
        raise_faults(owners)
        copy = seeded.choice(forgetful.copies[:-1])
        forgetful.put_back(copy)
        kind, values = judged_start(group, forgetful, asks_in(group, copy))
        others = [owner for owner in owners if owner is not forgetful]
        end(others)
        if values is None:
            values = forgetful.values
        else:
            settles(group, others, len(values))
        judge_lists(group, others, values, is_all=kind == "harmless")
        return kind


def asks_in(group, copy):
    """The values that a copy of the folder was asked for, answered or not."""
    genesis = {"members": group.members, "faults": group.faults, "opening": group.opening}
    with open(os.path.join(copy, "log"), "rb") as log:
        return [what[1] for kind, _, what, *_ in Log(genesis, FORGETFUL).records(log.read()) if kind == ASK]


def judged_start(group, owner, known):
    """How the start from a copy went, that knows these values: noticed, or else the values that its list has then."""
    node = group.start(owner.own)
    order, deadline = len(owner.lines), time.monotonic() + PATIENCE
    owner.make_line(order)
    is_running = False
    try:
        while (answer := node.ask(owner.lines[order])) == EARLY:
            is_running = True
            same(time.monotonic() < deadline, True, f"a payment was too early for {PATIENCE} s")
            time.sleep(0.01)
        if answer == FORGOTTEN:
            is_running = True
            node.write("FRONT\n")
            node.end()
        else:
            same(answer, f"asked {order} seq {len(known)}", "the first payment of an older copy")
            return "harmless", [*known, owner.values[order]]
    except (Ended, BrokenPipeError):
        node.end()
    del group.nodes[owner.own]
    noticed = NOTICED.search(node.said.decode()) is not None
    same((node.child.returncode, noticed), (4, True), f"the end of an older copy: {node.said}")
    owner.lines.pop()
    owner.values.pop()
    return "noticed while it ran" if is_running else "refused at its start", None


def settles(group, others, count):
    """All of the payments in so many values of the forgetful one settle at the others."""
    deadline = time.monotonic() + PATIENCE
    while any(own_lists(group, other.own) < count for other in others):
        same(time.monotonic() < deadline, True, f"{count} values of {FORGETFUL} within {PATIENCE} s")
        time.sleep(0.05)


def own_lists(group, own):
    """How many values of the forgetful one are wholly settled at a node."""
    seqs = {line.split()[1] for line in group.nodes[own].statement(FORGETFUL) if line.startswith("out ")}
    return len(seqs)


def judge_lists(group, others, values, is_all):
    """The others' exports are clean, and have of the forgetful one what it was asked for, in that order, no more."""
    for own in [own for own in group.nodes if own == FORGETFUL]:
        group.nodes[own].child.send_signal(signal.SIGKILL)
        group.nodes[own].end()
        del group.nodes[own]
    exports = {}
    for other in others:
        status, exports[other.own], errors = group.end(other.own)
        same((status, errors), (0, ""), f"the end of node {other.own}")
    audited([json.loads(text) for text in exports.values()])
    wanted = [value.hex() for value in values]
    for own, text in exports.items():
        had = json.loads(text)["lists"][FORGETFUL]
        wrong = [place for place, (was, due) in enumerate(zip(had, wanted)) if was != due]
        is_long = len(had) == len(wanted) if is_all else len(had) <= len(wanted)
        same((wrong[:1], is_long), ([], True), f"{len(had)} of {len(wanted)} values of {FORGETFUL} at {own}")
