"""Black-box tests of members that lie to running nodes, and of members that don't but are killed and cut off."""

import json
import os
import random
import time

from payd_tools import logs
from payd_tools.frames import ECHO, READY, SEND, frame, payment, read_frame
from support.nodes import free_ports, until, write_json
from support.peers import Cuts, Liar
from support.restarts import Folders
from support.runs import TOP, call, same
from test_figures import shown

OPENING = [100, 0, 0, 50]
A, B = payment(payee=0, amount=5), payment(payee=1, amount=5)
# What would come behind a lie: more of the like, and votes that nobody else sends.
REST = [(ECHO, 0, 7, A), *((READY, 2, seq, B) for seq in range(50))]
# What member 3 tells all others, on one connection after the other. The last frame but for the rest is a lie, of which
# this is said; with the frames that show it, and how many payments of member 3 settle.
LIES = [
    ([100 * [(ECHO, 0, 7, A)]], 2, "a second ECHO about value 7 of account 0", (0, 1), 0),
    (
        [[(SEND, 3, 0, A), (ECHO, 3, 0, A), (SEND, 3, 0, B), *REST]],
        3,
        "a second SEND about value 0 of account 3",
        (0, 2),
        1,
    ),
    (
        [[(READY, 1, 9, A)], [(READY, 1, 9, A), (READY, 1, 9, B), *REST]],
        2,
        "a second READY about value 9 of account 1",
        (0, 1),
        0,
    ),
    ([[(READY, 1, 9, A), (SEND, 0, 7, A), *REST]], 2, "a SEND about account 0, which isn't its own", (1,), 0),
]


class Dialed(Liar):
    """Counts how often each of the others dialed it."""

    def __init__(self, own, port, stories):
        super().__init__(own, port, stories)
        self.dials = dict.fromkeys(stories, 0)

    def meet(self, stream, peer, number):
        self.dials[peer] += 1
        super().meet(stream, peer, number)


def taken(group, own):
    """The bodies that a node took of member 3, by its log, which has all that came before an answer."""
    group.nodes[own].front()
    records = logs.Log(group.genesis(), own).records(group.log(own))
    found = [read_frame(what) for kind, _, what, *_ in records if kind == logs.FRAME]
    return [it[4] for it in found if it[1] == 3]


def tool(group, name, own, *words):
    return call([os.path.join(TOP, "tools", name), "--data", f"data-{own}", *words], folder=group.place.name)


def judge_lie(group, own, lie, bodies, shows):
    """What a node says and shows of member 3, whose last body is a lie."""
    node = group.nodes[own]
    until(node.lies, [(3, lie)], of=f"the lies that {own} was told")
    until(lambda: shown(group, own)["payd_peer_lied"], [0, 0, 1], of=f"the liars at {own}")
    figures = shown(group, own)
    same((figures["payd_peer_met"][2], figures["payd_peers_lost"]), (0, [1]), f"the liar at {own}")
    same(taken(group, own), bodies, f"what {own} took of the liar")
    status, output, errors = tool(group, "evidence", own)
    parts = json.loads(output)
    same((status, parts["accused"], len(parts["findings"]), errors), (1, [3], 1, ""), f"the evidence of {own}")
    wanted = [frame(kind, 3, own, at, owner, seq, value) for at, (kind, owner, seq, value) in enumerate(bodies)]
    same([it["frame"] for it in parts["frames"]], [wanted[at].hex() for at in shows], f"the frames that {own} shows")


def test_nothing_more_is_read_of_a_liar():
    """All that the others pay settles, also behind a start from the log, by which the lie is still known."""
    for row in LIES:
        judge_liar(*row)


def judge_liar(stories, count, lie, shows, settled):
    bodies = stories[-1][:count]
    told = {own: stories for own in range(3)}
    with Folders(OPENING, running=[0, 1, 2]) as group, Dialed(3, group.ports[3], told) as liar:
        group.liars = (3,)
        for own in group.nodes:
            judge_lie(group, own, lie, bodies, shows)
        group.pay(0, 1, payee=1, amount=30, seq=0)
        group.settle([1, 0, 0, settled])
        dials = dict(liar.dials)
        group.kill(0)
        group.start(0)
        judge_lie(group, 0, lie, bodies, shows)
        group.pay(1, 1, payee=2, amount=10, seq=0)
        group.settle([1, 1, 0, settled])
        for own, node in group.nodes.items():
            same((taken(group, own), node.lies()), (bodies, [(3, lie)]), f"what {own} took and said in the end")
        same(liar.dials, dials, "how often the liar was dialed")
        group.stop()


def test_a_lie_is_told_with_the_frame_that_shows_it():
    """Nothing comes from the peer after its second READY, and its connection stays."""
    stories = {own: [[(READY, 1, 9, A), (READY, 1, 9, B)]] for own in range(3)}
    with Folders(OPENING, running=[0, 1, 2]) as group, Liar(3, group.ports[3], stories) as liar:
        group.liars = (3,)
        until(liar.all_taken, True, of="whether all took the lie")
        begun = time.monotonic()
        for own, node in group.nodes.items():
            until(node.lies, [(3, "a second READY about value 9 of account 1")], of=f"the lies that {own} was told")
        seconds = time.monotonic() - begun
        same(seconds < 20, True, f"the lie was told after {seconds:.0f} s")
        group.stop()


def test_a_lie_wants_attention():
    stories = {own: [100 * [(ECHO, 0, 7, A)]] for own in range(3)}
    with Folders(OPENING, running=[0, 1, 2]) as group, Liar(3, group.ports[3], stories):
        group.liars = (3,)
        until(lambda: shown(group, 0)["payd_peer_lied"], [0, 0, 1], of="the liars")
        status, output, errors = tool(group, "status", 0)
        why = "peer 3 lied, and nothing more is read from it: payd evidence shows it"
        same((status, why in output.splitlines()[0], errors), (1, True, ""), f"the attention in {output!r}")
        same("  peer 3: lied" in output, True, f"the liar in {output!r}")
        told = json.loads(tool(group, "status", 0, "--json")[1])
        same([it["lied"] for it in told["peers"]], [False, False, True], "who lied")
        group.stop()


# ---- members that are no liars


def through_cuts(group, ports):
    """Files of ports by which each member reaches the others through a third party; whereto each of its ports leads."""
    routes = {}
    for own in range(group.members):
        through = [*ports[group.members * own : group.members * (own + 1)]]
        routes.update({port: group.ports[peer] for peer, port in enumerate(through) if peer != own})
        through[own] = group.ports[own]
        write_json(group.place.name, f"ports-{own}", {"ports": through})
    return routes


def test_no_correct_member_is_accused():
    """Each connection is cut sooner or later, and members are killed and started again from their folders."""
    rounds, seeded = 12, random.Random(7)
    ports = free_ports(20)
    with Folders(4 * [rounds], running=[], ports=ports[:4]) as group:
        with Cuts(seeded, through_cuts(group, ports[4:])) as cuts:
            for own in range(4):
                group.start(own, f"ports-{own}")
            for order in range(rounds):
                for own in range(4):
                    group.pay(own, order, payee=(own + 1) % 4, amount=1, seq=order)
                dies = order % 4
                same(group.nodes[dies].lies(), [], f"the lies that {dies} was told before it is killed")
                group.kill(dies)
                group.start(dies, f"ports-{dies}")
            group.settle(4 * [rounds], 4 * [rounds])
            same(cuts.count > 0, True, "whether connections were cut")
            for own in range(4):
                same(shown(group, own)["payd_peer_lied"], [0, 0, 0], f"the liars at {own}")
            group.stop()
