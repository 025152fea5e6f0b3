"""Black-box tests of standard streams that are closed: their numbers may not become those of files or sockets."""

import os

from support.nodes import PATIENCE, Node, until
from support.restarts import Folders
from support.runs import TOP, call, same

OPENING = [100, 0, 0, 50]
CLOSED = "2>&-", "1>&-", "1>&- 2>&-", "<&- 1>&- 2>&-"


def closing(closed, *words):
    return ["sh", "-c", f'exec "$@" {closed}', "sh", *words]


def sends(place, line):
    """Gives a line to the node of member 0 once it listens, again and again while it comes too early."""
    folder = os.path.join(place, "data-0")
    until(lambda: os.path.exists(os.path.join(folder, "desk")), True, of="the desk's socket")
    same(call([os.path.join(TOP, "tools", "send"), "--data", folder, line])[0], 0, line)


def test_a_node_writes_none_into_its_log():
    """What it says reaches neither its log nor a socket, and the member goes on."""
    for closed in CLOSED:
        with Folders(OPENING, running=[]) as group:
            node = Node(0, group.place.name, options=["--data", "data-0"], prefix=closing(closed))
            paid = closed[0] != "<"
            if paid:
                sends(group.place.name, "PAY 7 1 30")
            try:
                node.child.communicate(b"PAY 7 1 30\nFLY\n" * 100, timeout=PATIENCE)
            except BrokenPipeError:
                node.child.wait(PATIENCE)
            same(node.child.returncode, 0, f"the status with {closed}")
            node = group.start(0)
            same(node.ask("STATE 0 0"), f"state 0 0 {'asked' if paid else 'unknown'}", closed)
            same(group.end(0)[::2], (0, ""), f"the end of the member that was started with {closed}")


def test_tools_take_none_for_a_socket():
    """A desk hears what it is asked, and nothing that is meant for a stream."""
    with Folders(OPENING, running=[0]) as group:
        folder = os.path.join(group.place.name, "data-0")
        tool = os.path.join(TOP, "tools", "send")
        for at, closed in enumerate(CLOSED):
            status, _, errors = call(closing(closed, tool, "--data", folder, f"PAY {at} 1 1", f"PAY {at} 2 1"))
            told = f"payd send: refused {at}: 4 IdUsed\n" if "2>" not in closed else ""
            same((status, errors), (1, told), f"a tool with {closed}")
            same(group.nodes[0].ask(f"PAY {at} 1 1"), f"asked {at} seq {at}", "the payment")
        same(group.nodes[0].ask("BALANCE 0"), "balance 0 100", "the desk after it")
        same(group.end(0)[::2], (0, ""), "the node's end")
