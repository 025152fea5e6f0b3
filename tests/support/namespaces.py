"""Machines of a test's own making: network namespaces whose only way to one another is a bridge in a further one; and a
group's nodes on them, with slow tunnels between."""

import contextlib
import os
import subprocess
import sys
import tempfile

from support.nodes import Node, until, write_json
from support.relay import address
from support.runs import TOP, key_texts, same

OPENING = 1_000_000
FIRST_PORT = 11_000

HUB = f"payd-{os.getpid()}"


def ip(*words):
    subprocess.run(["ip", *words], check=True, capture_output=True, text=True)


def machine(own):
    return f"{HUB}-{own}"


def inside(own):
    """The words before a command that has it run on a machine."""
    return ["ip", "netns", "exec", machine(own)]


def refusal():
    """Why the system makes no namespaces, or None where it does."""
    try:
        ip("netns", "add", f"{HUB}-try")
        ip("netns", "delete", f"{HUB}-try")
    except (OSError, subprocess.CalledProcessError) as error:
        return f"no network namespaces here: {error}"
    return None


@contextlib.contextmanager
def machines(members):
    try:
        ip("netns", "add", HUB)
        ip("-n", HUB, "link", "add", "bridge", "type", "bridge")
        ip("-n", HUB, "link", "set", "bridge", "up")
        for own in range(members):
            ip("netns", "add", machine(own))
            ip("-n", HUB, "link", "add", f"to-{own}", "type", "veth", "peer", "name", "out", "netns", machine(own))
            ip("-n", HUB, "link", "set", f"to-{own}", "master", "bridge", "up")
            ip("-n", machine(own), "link", "set", "lo", "up")
            ip("-n", machine(own), "address", "add", f"{address(own)}/24", "dev", "out")
            ip("-n", machine(own), "link", "set", "out", "up")
        yield
    finally:
        for name in [HUB, *map(machine, range(members))]:
            subprocess.run(["ip", "netns", "delete", name], capture_output=True, check=False)


class Trial:
    """The files of a group, its relays, and those of its nodes that run, each member on a machine of its number."""

    def __init__(self, stack, members, delay):
        self.stack, self.members, self.delay = stack, members, delay
        self.folder = stack.enter_context(tempfile.TemporaryDirectory())
        self.ports = [FIRST_PORT + own for own in range(members)]
        self.asked = members * [0]
        self.nodes, self.relays = {}, {}
        genesis = {"members": members, "faults": (members - 1) // 3, "opening": members * [OPENING]}
        write_json(self.folder, "genesis", genesis)
        write_json(self.folder, "ports", {"ports": self.ports})
        for own in range(members):
            write_json(self.folder, f"keys-{own}", {"own": own, "keys": key_texts(own, members)})
            self.join(own)

    def join(self, own, at=None):
        """Joins a member to the others by tunnels from its machine, or from this one."""
        words = [*inside(own if at is None else at), sys.executable, os.path.join(TOP, "tests", "support", "relay.py")]
        relay = subprocess.Popen([*words, f"{own}", f"{self.delay}", *map(str, self.ports)])
        self.stack.callback(lambda: (relay.kill(), relay.wait()))
        self.relays[own] = relay

    def move(self, own, at):
        """Moves a member's address and tunnels to another machine."""
        self.relays[own].kill()
        self.relays[own].wait()
        for machine_of, word in ((own, "delete"), (at, "add")):
            ip("-n", machine(machine_of), "address", word, f"{address(own)}/24", "dev", "out")
        for peer in range(self.members):
            ip("-n", machine(peer), "neighbour", "flush", "dev", "out")
        self.join(own, at)

    def start(self, own, data=None, at=None):
        options = ("--data", data or f"data-{own}", "--dials", "always")
        self.nodes[own] = Node(own, self.folder, "ports", options=options, prefix=inside(own if at is None else at))
        self.stack.callback(self.nodes[own].kill)
        self.nodes[own].front()

    def pay(self, own, count):
        """Has a member pay 1 to the next one, so many times."""
        for order in range(self.asked[own], self.asked[own] + count):
            answer = self.nodes[own].pay(f"PAY {order} {(own + 1) % self.members} 1")
            same(answer, f"asked {order} seq {order}", f"payment by {own}")
        self.asked[own] += count

    def settle(self, among):
        """Waits until these members have settled all that was asked."""
        for own in among:
            until(self.nodes[own].front, self.asked, of=f"the front at {own}")
