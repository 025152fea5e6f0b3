"""Black-box tests of how much memory runs take, and of a node to which it stays refused."""

import contextlib
import os
import subprocess
import sys
import tempfile
import time

from payd_tools.frames import SEND, frame
from support.nodes import PATIENCE, Group, Node, write_json
from support.peers import Claimants, Server
from support.runs import GENESIS, SECONDS, payd, same

# Of each kind of file how it goes on, so that it has more and more parts, and whether it is read.
PARTS = {
    "objects": ('{"a":1},', False),
    "objects of one list": ('{"":[]},', False),
    "lists of one number": ("[0],", False),
    "empty lists": ("[],", False),
    "numbers": ("0,", False),
    "numbers of twenty digits": ("18446744073709551615,", True),
    "empty texts": ('"",', True),
    "texts of a byte": ('"ff",', True),
    "texts of a payment": ('"0100010000000000000001",', True),
}
# What a file takes at most, by its size, and what the program takes of its own, and whoever starts it before that.
MOST_TIMES, OWN = 16, 16 << 20
# Runs a program, and prints its status and how much memory it had at most: as much as whoever started it, at least.
MEASURE = """import os, sys
to_nobody = os.POSIX_SPAWN_OPEN, 1, os.devnull, os.O_WRONLY, 0
child = os.posix_spawn(sys.argv[1], sys.argv[1:], {}, file_actions=[to_nobody])
_, status, used = os.wait4(child, 0)
print(status >> 8, used.ru_maxrss * 1024)
"""


def peak(words):
    """Status and errors of a run of the program, and how many bytes of memory it had at most."""
    measured = [sys.executable, "-S", "-E", "-c", MEASURE, payd(), *words]
    done = subprocess.run(measured, capture_output=True, text=True, timeout=SECONDS, check=True)
    status, most = done.stdout.split()
    return int(status), done.stderr, int(most)


def test_a_file_takes_no_more_memory_than_16_times_its_size():
    """Whatever JSON it is: else it is refused before any of it is read."""
    with tempfile.TemporaryDirectory() as folder:
        path = os.path.join(folder, "file")
        for kind, (part, is_read) in PARTS.items():
            text = f"[{part * ((6 << 20) // len(part))}0]"
            with open(path, "w", encoding="ascii") as file:
                file.write(text)
            for words in (["audit", path], ["check", "--genesis", path]):
                status, errors, most = peak(words)
                refused = f"payd: file {path}: it has so many parts that they would take more than 16 times its size\n"
                same((status, errors == refused), (2, not is_read), f"{words[0]} of {kind}: {errors}")
                times = MOST_TIMES if is_read else 2
                same((most <= times * len(text) + OWN, most), (True, most), f"what {words[0]} takes of {kind}")


def test_what_liars_fill_their_lists_with_keeps_no_export_from_an_audit():
    """As many values as they have numbers, each of no bytes or of one, which each correct member's export lists."""
    members, liars = 128, 42
    parts = {"members": members, "faults": liars, "opening": members * [1], "member": 127}
    for value in ("", "ff"):
        lists = [65_536 * [value] for _ in range(liars)] + [[] for _ in range(members - liars)]
        front = [65_536] * liars + [0] * (members - liars)
        with tempfile.TemporaryDirectory() as folder:
            write_json(folder, "export", {**parts, "lists": lists, "front": front, "balances": members * [1]})
            path = os.path.join(folder, "export")
            status, errors, most = peak(["audit", path])
            same((status, errors), (0, ""), f"an audit of values {value!r}")
            size = os.path.getsize(path)
            same((most <= MOST_TIMES * size + OWN, most // size), (True, most // size), f"what values {value!r} take")


class Filling(Server):
    """A member that sends long values as fast as they are taken."""

    MOST, AT_ONCE = 65536, 256

    def meet(self, stream, peer, number):
        for first in range(number, self.MOST, self.AT_ONCE):
            some, value = range(first, first + self.AT_ONCE), bytes(1024)
            words = {"owner": self.own, "value": value}
            stream.sendall(b"".join(frame(SEND, self.own, peer, it, seq=it % self.MOST, **words) for it in some))
            with contextlib.suppress(BlockingIOError):
                stream.setblocking(False)
                while stream.recv(65536):
                    pass
            stream.settimeout(60)


def limited(group, limit):
    """The node of member 0, which stays, behind the words that limit it."""
    options = ["--data", "kept", "--stay", "--dials", "always"]
    node = Node(0, group.place.name, options=options, prefix=limit)
    node.end_input()
    return node


def test_memory_that_stays_refused_ends_a_node():
    """It can take nothing more, perhaps not even dial anew: it says so, and ends by itself."""
    limit = ["sh", "-c", 'ulimit -v 220000 && exec "$@"', "sh"]
    with Group(GENESIS["opening"], running=[]) as group, Filling(1, group.ports[1]), Claimants(group.ports, [2, 3]):
        begun = time.monotonic()
        group.nodes[0] = node = limited(group, limit)
        status, output, errors = node.end()
        took = time.monotonic() - begun
        same((status, output), (3, ""), f"its end with {errors!r}")
        same("payd: memory was refused for 5 seconds on end\n" in errors, True, f"what it says: {errors!r}")
        same(errors.endswith("payd: engine 0 Memory\n"), True, f"how it ends: {errors!r}")
        same(5 <= took < PATIENCE, True, f"it ended after {took} s")
