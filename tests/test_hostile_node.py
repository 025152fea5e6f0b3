"""Black-box tests of a node among peers to which the system is hostile: each growth of memory refused, each receipt
from a socket and each sending failed, one in each run.

The node meets two correct members in Python, which answer its WANTs and ask WANTs of it; the fourth member is silent.
Threads grow, read and write in any order, so which call is refused differs from run to run; that each number has its
run, from the first to the last, doesn't.
"""

import json
import time

from models import audits
from payd_tools.frames import payment
from support.hostile import MEMORY
from support.many_peers import Crowd
from support.nodes import PATIENCE, Ended, Node, audited, compact, free_ports, write_json
from support.runs import GENESIS, key_texts, same

OWN, PEERS = 0, (1, 2)
PAID, PAID_BACK = payment(payee=1, amount=30), payment(payee=0, amount=10)
# What the desk is told once member 1's payment has come too.
ANSWERS = {
    "STATEMENT 0": ["out 0 to 1 30", "in 1 0 10", "end 0 balance 80"],
    "STATE 1 0": ["state 1 0 settled"],
    "BALANCE 1": ["balance 1 20"],
}
ASKED = {"PAY 7 1 30": ["asked 7 seq 0"]}
LISTS = [[PAID.hex()], [PAID_BACK.hex()], [], []]
EXPORT = audits.export(GENESIS["opening"], LISTS, [1, 1, 0, 0], [80, 20, 0, 50], member=OWN)
TEXT = f"{compact(EXPORT)}\n"
REFUSED = ["refused 0 Memory"]

CLOSE_REFUSED = (3, TEXT, "payd: close 0 Memory\n")

# How many seconds nothing settles before it counts that a node lacks threads, as one does to which memory was refused
# while they were made; and of how many runs that may be said, for a slow machine makes them late.
SHORT = 1
MOST_STARVED = 16
# How many of the connections that were broken off the peers see at least: what fails as a node ends cuts nothing.
LEAST_CUTS = 4
# Where more calls than these are refused, no run ever has so few.
MOST_CALLS = 2_000


class Run:
    """What a node did from which one call was withheld: it settled or not, and ended so."""

    def __init__(self, library, threads=None, **wanted):
        self.threads = threads
        self.is_settled = False
        self.answered = 0
        self.refusals = 0
        ports = free_ports(4)
        write_json(library.place.name, "ports", {"ports": ports})
        with Crowd(OWN, ports, GENESIS["opening"], PEERS) as crowd:
            crowd.pay(1, PAID_BACK)
            self.node = Node(OWN, library.place.name, "ports", given=library.given(**wanted))
            try:
                self.has_begun = self.play()
                crowd.end()
                self.ended = self.node.stop()
            finally:
                self.node.kill()
            self.of = f"{wanted}: settled {self.is_settled}, {self.ended}"
            same(crowd.faults, [], f"{self.of}: frames that no correct member sends")
            self.cuts, self.exports = crowd.cuts, crowd.exports()
        self.was_refused = library.was_refused()

    def play(self):
        """Whether the node lives until its input ends. Each answer is the right one, perhaps after a refusal."""
        try:
            self.ask(ASKED)
            self.is_settled = self.settles()
            if self.is_settled:
                self.ask(ANSWERS)
            return True
        except (Ended, BrokenPipeError):
            return False

    def ask(self, rows):
        for line, wanted in rows.items():
            same(self.answer(line), wanted, line)

    def answer(self, line):
        """The answer to a line, which is given again where memory was refused for the first time."""
        self.node.write(f"{line}\n")
        lines = [self.node.line()]
        while lines[-1].split()[0] in ("out", "in", "void"):
            lines.append(self.node.line())
        if lines != REFUSED or self.refusals:
            self.answered += 1
            return lines
        self.refusals += 1
        return self.answer(line)

    def settles(self):
        """Whether both payments settle. A node that has fewer threads than it should isn't waited for."""
        begun = time.monotonic()
        while time.monotonic() < begun + PATIENCE:
            if self.answer("FRONT") == ["front 1 1 0 0"]:
                self.threads = self.threads or self.node.threads()
                return True
            if time.monotonic() > begun + SHORT and self.threads and self.node.threads() < self.threads:
                return False
            time.sleep(0.005)
        raise AssertionError(f"nothing settles in {PATIENCE} s")


def write_files(library):
    write_json(library.place.name, "genesis", GENESIS)
    write_json(library.place.name, f"keys-{OWN}", {"own": OWN, "keys": key_texts(OWN)})


def each(library, name, **more):
    """A run for each call of this kind that a node has while it settles and ends, each with one refused."""
    write_files(library)
    ample = Run(library)
    same((ample.is_settled, ample.refusals, ample.cuts, ample.ended), (True, 0, 0, (0, TEXT, "")), "nothing refused")
    found = []
    # (runs differ by some calls, so one without a refusal is no end)
    for place in range(1, MOST_CALLS):
        found.append(Run(library, ample.threads, **{name: place}, **more))
        if not any(one.was_refused for one in found[-20:]):
            return [one for one in found if one.was_refused]
    raise AssertionError(f"no end of {name}")


def audit_all(runs):
    """What these nodes exported is clean beside what their peers took, whose payments are the same in each run."""
    texts = {one.ended[1] for one in runs} | {compact(export) for one in runs for export in one.exports}
    audited([json.loads(text) for text in sorted(texts - {""})])


def test_each_growth_of_a_node_among_peers_refused(library):
    """Payments settle all the same, and are in the export, or a fault is named."""
    runs = each(library, "growth")
    counts = {name: 0 for name in ("first", "none", "desk", "peers", "close", "threads")}
    for one in runs:
        if not one.has_begun:
            kind = "first"
            same((one.ended[:2], MEMORY.fullmatch(one.ended[2]) is not None), ((3, ""), True), one.of)
            same(one.answered, 0, f"{one.of}: lines answered by a node that ends then")
        elif not one.is_settled:
            kind = "threads"
            same((one.ended[0], one.ended[2]), (0, ""), one.of)
        else:
            kinds = {(0, TEXT, ""): "none", CLOSE_REFUSED: "close"}
            same(one.ended in kinds, True, one.of)
            kind = kinds[one.ended]
            if kind == "none":
                kind = "desk" if one.refusals else "peers" if one.cuts else "none"
        if one.has_begun:
            same(one.refusals + one.cuts <= 1, True, f"{one.of}: {one.refusals} lines refused, {one.cuts} cuts")
        counts[kind] += 1
    same(counts["threads"] <= MOST_STARVED, True, f"{counts}")
    same(min(counts[it] for it in ("first", "desk", "peers", "close")) > 0, True, f"{counts}")
    audit_all(runs)
    print(f"growths refused: {', '.join(f'{count} {kind}' for kind, count in counts.items())}")


def ends_one_connection(library, name, **more):
    """With each of these calls failed in its turn at most one connection ends, and all goes on as ever. How many calls
    there were, and how many connections ended."""
    runs = each(library, name, **more)
    for one in runs:
        was = one.has_begun, one.is_settled, one.refusals, one.ended
        same(was, (True, True, 0, (0, TEXT, "")), f"{name} {more}: {one.of}")
        same(one.cuts <= 1, True, f"{name} {more}: {one.of}: {one.cuts} connections ended")
    audit_all(runs)
    return len(runs), sum(one.cuts for one in runs)


def test_each_read_of_a_socket_fails(library):
    calls, cuts = ends_one_connection(library, "receive")
    same(cuts >= LEAST_CUTS, True, f"of {calls} reads that failed {cuts} ended a connection")
    print(f"reads that failed: {calls}, connections that ended: {cuts}")


def test_each_write_to_a_socket_fails_or_takes_little(library):
    """One that takes nothing is one that fails; after one that takes a byte the others go out."""
    for way, more in (("failed", {}), ("took nothing", {"send_size": 0}), ("took a byte", {"send_size": 1})):
        calls, cuts = ends_one_connection(library, "send", **more)
        is_right = cuts == 0 if way == "took a byte" else cuts >= LEAST_CUTS
        same((calls > 10, is_right), (True, True), f"of {calls} writes that {way} {cuts} ended a connection")
        print(f"writes that {way}: {calls}, connections that ended: {cuts}")
