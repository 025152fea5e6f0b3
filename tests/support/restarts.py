"""Groups whose members live in folders, are killed at any moment and started again, for the black-box tests and
tests/kills."""

import json
import os
import random
import re
import signal
import threading
import time

from payd_tools.frames import payment, payments
from payd_tools.values import pairs_in
from support.nodes import Ended, Group, Node, audited, started, without_lies
from support.peers import Claimants
from support.runs import read_bytes, same

NEW = "payd: log: new\n"
AGAIN = re.compile(r"payd: log: (\d+) entries of (\d+) payments, started again\n")
FORGOTTEN = "payd: log 7 Forgotten\npayd: the group knows more of this member than its log: look for a newer folder, "
FORGOTTEN += "on another machine or where this one was copied from, and start that one; only if there is none does its "
FORGOTTEN += "balance go on in the next group\n"
KNOWN = "payd: log 12 Known\npayd: others took payments or votes of this member, so a folder of it exists or existed: "
KNOWN += "start that one; only if it is gone does its balance go on in the next group\n"
# How many lines an owner gives at once at most, and how many old ones it gives again after a start.
BURST = 8
OLD_ONES = 5
# No account runs dry: each payment is of another amount, by which it is known, and they sum to less than this.
OPENING = 10**12
# How long the last lines of all owners take at most, in seconds.
LAST_LINES = 120
# How many lines are given at once: their answers fit into a pipe.
MANY = 500


class Folders(Group):
    """A group whose members live in folders. Those that run at first may pay: where they are too few for that, others
    claim in place of their nodes (`claiming`), until these start."""

    was_killed = False

    def __init__(self, opening, running=None, claiming=None, **how):
        super().__init__(opening, running, **how)
        # how many peers have to claim before a member pays
        self.least = (self.members + self.faults) // 2
        if claiming is None:
            absent = [own for own in range(self.members) if own not in self.running]
            claiming = absent[len(absent) - max(0, self.least + 1 - max(1, len(self.running))) :]
        self.claimants = Claimants(self.ports, claiming)

    def __enter__(self):
        self.claimants.__enter__()
        super().__enter__()
        if len(self.running) + len(self.claimants.servers) > self.least:
            for node in self.nodes.values():
                node.meets(self.least)
        return self

    def __exit__(self, *_):
        super().__exit__()
        self.claimants.leave_all()

    def start(self, own, ports="ports", options=(), given=(), folder=None):
        self.claimants.leave(own)
        options = ["--data", folder or f"data-{own}", "--dials", "always", *options]
        node = Node(own, self.place.name, ports, options, given=given)
        node.is_killed = False
        self.nodes[own] = node
        return node

    def kill(self, own):
        self.was_killed = True
        super().kill(own)

    def log(self, own):
        return read_bytes(os.path.join(self.place.name, f"data-{own}", "log"))

    def end(self, own):
        """Ends the input of a node; its status, its export and its errors without what it says of its log."""
        status, output, errors = self.nodes[own].stop()
        del self.nodes[own]
        return status, output, told(errors)[1]

    def stop(self):
        """Ends all that run, and audits their exports, which are handed back as they were written."""
        exports = {}
        for own in list(self.nodes):
            status, exports[own], errors = self.end(own)
            errors = DROPPED.sub("", errors) if self.was_killed else errors
            same((status, without_lies(errors, self.liars)), (0, ""), f"the end of node {own}")
        audited([json.loads(text) for text in exports.values()])
        return exports


# A kill in the midst of a write leaves bytes that are no chunk.
DROPPED = re.compile(r"payd: log: [0-9]+ bytes dropped, kept in log\.dropped\n")


def told(errors):
    """How many entries and payments a node said that its log has, none if it was new, and all else that it said."""
    errors = started(errors)
    if errors.startswith(NEW):
        return (0, 0), errors[len(NEW) :]
    found = AGAIN.match(errors)
    if found is None:
        return None, errors
    return (int(found[1]), int(found[2])), errors[found.end() :]


class Owner(threading.Thread):
    """Pays from one account all the time, through a node that is killed now and then and started again.

    Lines that weren't answered are given again, and some that were: each has the answer that it had, or that is due to
    it. No front that was told goes back.
    """

    def __init__(self, group, own, seed, most=1 << 30):
        super().__init__(daemon=True)
        self.group = group
        self.own = own
        self.seeded = random.Random(f"{seed} {own}")
        self.most = most
        self.values = []
        self.lines = []
        self.answered = 0
        self.front = [0] * group.members
        self.entries = 0
        self.starts = 0
        self.fault = None
        self.is_over = threading.Event()

    def run(self):
        try:
            while not self.lives():
                self.starts += 1
        except BaseException as error:  # told by whoever waits
            self.fault = error

    def lives(self):
        """Runs a node to its death, or until all is paid: then it is left running."""
        node = self.group.start(self.own)
        try:
            self.judge_front(node.ask("FRONT"))
            self.judge_start(node)
            self.give_again(node)
            while not self.is_over.is_set() and self.answered < self.most:
                self.give(node, self.seeded.randrange(1, BURST))
                self.look_around(node)
            self.judge_front(node.ask("FRONT"))
            return True
        except (Ended, BrokenPipeError):
            status, _, errors = node.end()
            same((status, DROPPED.sub("", told(errors)[1])), (-signal.SIGKILL, ""), f"the end of node {self.own}")
            return False

    def judge_start(self, node):
        """A node says what its log has, which never gets less."""
        node.news()
        found, _ = told(node.said.decode())
        if found is None or found[0] < self.entries:
            raise AssertionError(f"node {self.own} began with {node.said!r}, behind {self.entries} entries")
        self.entries = found[0]

    def judge_front(self, answer):
        front = [int(word) for word in answer.split()[1:]]
        if any(new < old for new, old in zip(front, self.front)):
            raise AssertionError(f"node {self.own} told the front {self.front}, and then {front}")
        self.front = front

    def give_again(self, node):
        """What wasn't answered, in its order, and a line more, each until it isn't too early; and some of what was."""
        self.make_line(len(self.lines))
        for order in range(self.answered, len(self.lines)):
            same(node.pay(self.lines[order]), f"asked {order} seq {order}", f"payment {order} by {self.own}")
            self.answered = order + 1
        olds = [self.seeded.randrange(self.answered) for _ in range(OLD_ONES if self.answered else 0)]
        self.answer_to(node, olds)

    def give(self, node, count):
        """New lines, all at once."""
        first = len(self.lines)
        for order in range(first, first + count):
            self.make_line(order)
        self.answer_to(node, range(first, first + count))

    def make_line(self, order):
        peers = [it for it in range(self.group.members) if it != self.own]
        pairs = [(self.seeded.choice(peers), order + 1) for _ in range(1 if self.seeded.random() < 0.9 else 3)]
        words = " ".join(f"{payee} {amount}" for payee, amount in pairs)
        several = len(pairs) > 1
        self.lines.append(f"PAY{'S' if several else ''} {order} {words}")
        self.values.append(payments(pairs) if several else payment(*pairs[0]))

    def answer_to(self, node, orders):
        """Gives these lines at once. The id is the value's number, for an owner asks for one after the other."""
        node.write("".join(f"{self.lines[order]}\n" for order in orders))
        for order in orders:
            same(node.line(), f"asked {order} seq {order}", f"payment {order} by {self.own}")
            self.answered = max(self.answered, order + 1)

    def look_around(self, node):
        """Readings, which are in the history too."""
        kind = self.seeded.random()
        if kind < 0.2:
            self.judge_front(node.ask("FRONT"))
        elif kind < 0.3:
            node.ask(f"BALANCE {self.seeded.randrange(self.group.members)}")
        elif kind < 0.33:
            node.statement(self.own)


def kill(group, owns):
    """Kills those of these nodes that run, one right after the other, and says how many."""
    nodes = [group.nodes[own] for own in owns if own in group.nodes]
    running = [node for node in nodes if not node.is_killed]
    for node in running:
        node.is_killed = group.was_killed = True
        node.child.send_signal(signal.SIGKILL)
    return len(running)


def chosen(seeded, members):
    """Who is killed: mostly one, now and then several, or all."""
    kind = seeded.random()
    count = 1 if kind < 0.6 else members if kind > 0.85 else seeded.randrange(2, members)
    return seeded.sample(range(members), count)


def killed_and_started_again(members, kills, seed, pause=0.03):
    """A group of which so many nodes are killed at random moments, while all pay. How many payments stand at the end,
    each once, and how often a node was started again."""
    seeded = random.Random(seed)
    with Folders([OPENING] * members, running=[]) as group:
        owners = [Owner(group, own, seed) for own in range(members)]
        for owner in owners:
            owner.start()
        killed = 0
        while killed < kills:
            time.sleep(seeded.random() * 2 * pause)
            killed += kill(group, chosen(seeded, members))
            raise_faults(owners)
        # (who was killed last has ended by then)
        time.sleep(0.2)
        end(owners)
        judge_end(group, owners)
        return sum(len(owner.lines) for owner in owners), sum(owner.starts for owner in owners)


def raise_faults(owners):
    for owner in owners:
        if owner.fault is not None:
            raise owner.fault


def end(owners):
    """Has all owners give their last lines, while nobody is killed."""
    for owner in owners:
        owner.is_over.set()
    for owner in owners:
        owner.join(LAST_LINES)
        same(owner.is_alive(), False, f"whether owner {owner.own} waits still")
    raise_faults(owners)


def judge_end(group, owners):
    """All that was asked for is paid once, all fronts are equal, and the exports are clean."""
    entries = [[pair for value in owner.values for pair in pairs_in(value)] for owner in owners]
    balances = [OPENING] * group.members
    for own, pairs in enumerate(entries):
        for payee, amount in pairs:
            balances[own] -= amount
            balances[payee] += amount
    group.settle([len(pairs) for pairs in entries], balances)
    for owner in owners:
        for first in range(0, len(owner.lines), MANY):
            owner.answer_to(group.nodes[owner.own], range(first, min(first + MANY, len(owner.lines))))
    lists = [[value.hex() for value in owner.values] for owner in owners]
    for own, text in group.stop().items():
        same(json.loads(text)["lists"], lists, f"the lists of {own}")
