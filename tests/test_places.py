"""Black-box tests of places: which of the connections that others dialed stand at a node, and which are given up."""

import contextlib
import os
import select
import threading
import time

from payd_tools.frames import WANT, frame
from support.clients import Client
from support.nodes import PATIENCE, UNOPENED, Group, Node, free_ports, until
from support.peers import Replays, Strangers, connected, has_ended, received
from support.relay import Relayed, relays_at
from support.runs import same

# How many connections stand at a node at once.
MOST_CONNECTIONS = 256

OPENING = [1000, 1000, 1000, 0]
# How many seconds each byte takes by a tunnel, and how many replays come in one.
DELAY = 0.03
REPLAYS = 100


def ended(streams):
    """The places in a list of those that were ended."""
    return [place for place, stream in enumerate(streams) if has_ended(stream)]


def has_closed(stream):
    """Whether the other ended a connection, whatever it sent before."""
    try:
        while select.select([stream], [], [], 0)[0]:
            if not stream.recv(4096):
                return True
    except ConnectionResetError:
        return True
    return False


def answered(strangers, stream, number):
    """Whether a WANT is answered by a frame."""
    stream.sendall(strangers.want(number))
    return received(stream) is not None


def paid_node(group):
    """Node 0, which sent two frames: so WANTs of 0 and 1 are answered."""
    group.pay(0, 0, payee=1, amount=1, seq=0)
    return group.nodes[0]


def test_no_old_want_ends_a_current_connection():
    """However many come: of those that play one back the oldest go. One of a number that is new ends none at once."""
    count = 400
    with Group(OPENING, running=[0]) as group, Strangers(3, 0, group.ports[0]) as strangers:
        paid_node(group)
        current = strangers.dial()
        same(answered(strangers, current, 0), True, "the first")
        for _ in range(count):
            strangers.say(strangers.want(0))
        others, left = strangers.streams[1:], count - (MOST_CONNECTIONS - 1)
        until(lambda: sum(map(has_closed, others)), left, of="how many are ended of those that play back")
        same(answered(strangers, current, 1), True, "the first, afterwards")
        group.stop()


def limited(descriptors):
    """Has a node be run with so many descriptors."""
    return ["sh", "-c", f'ulimit -n {descriptors} && exec "$@"', "sh"]


class Limited(Group):
    """A group whose member 0 may have few descriptors."""

    descriptors = 256

    def start(self, own, ports="ports", options=()):
        options = [*self.options, *options, "--dials", "always"]
        if own == 0:
            options += ["--socket", "desk"]
        prefix = limited(self.descriptors) if own == 0 else ()
        self.nodes[own] = Node(own, self.place.name, ports, options, prefix=prefix)
        return self.nodes[own]


class Least(Limited):
    # of four members: 64 beside connections, three for each member and four for each one's two places
    descriptors = 64 + 4 * 3 + 4 * 4


def answers_all_but_strangers(kind):
    """Peers that come behind many strangers are answered, and so are the owner and all clients of the desk, within what
    the system lets the node have."""
    with kind(OPENING, running=[0]) as group, Strangers(3, 0, group.ports[0]) as strangers:
        for _ in range(300):
            strangers.dial()
        clients = [Client(os.path.join(group.place.name, "desk")) for _ in range(16)]
        for own in (1, 2):
            group.start(own)
        group.pay(0, 7, payee=1, amount=30, seq=0)
        group.settle([1, 0, 0, 0], [970, 1030, 1000, 0])
        for client in clients:
            same(client.ask("FRONT"), "front 1 0 0 0", "a client of the desk")
        node = group.nodes[0]
        same((node.open_files() <= kind.descriptors, node.open_files()), (True, node.open_files()), "descriptors")
        for client in clients:
            client.stream.close()
        group.stop()


def test_strangers_shut_out_nobody_where_descriptors_are_few():
    answers_all_but_strangers(Limited)


def test_strangers_shut_out_nobody_with_the_least_descriptors():
    answers_all_but_strangers(Least)


def test_a_start_with_too_few_descriptors_says_so():
    """It names the limit, and what the group needs; nothing else has changed."""
    with Group(OPENING, running=[]) as group:
        for descriptors in (40, Least.descriptors - 1):
            options = ["--data", "data-0"]
            node = Node(0, group.place.name, options=options, prefix=limited(descriptors))
            output, errors = node.child.communicate(timeout=PATIENCE)
            said = f"payd: descriptors {descriptors}: a node of this group needs {Least.descriptors}: "
            said += f"ulimit -n {Least.descriptors}\n"
            same((node.child.returncode, output, errors.decode()), (3, b"", said), f"with {descriptors}")
            same(os.path.exists(os.path.join(group.place.name, "data-0")), False, "whether it made a member")


# For how many seconds a connection may ask for nothing new, and how many more a busy machine may take.
QUIET, LATER = 120, 40


def test_quiet_connections_are_given_up_for_others_of_their_peers():
    """A peer that hears nothing for a minute dials anew, and the node can't see that the former connection is over. The
    current one stays, and the last of the others; so of those that are nobody's."""
    with Group(OPENING, running=[0]) as group, Strangers(3, 0, group.ports[0]) as strangers:
        paid_node(group)
        begun = time.monotonic()
        for _ in range(4):
            same(answered(strangers, strangers.dial(), 0), True, "a WANT")
        for _ in range(3):
            strangers.dial()
        while len(ended(strangers.streams)) < 4 and time.monotonic() < begun + QUIET + LATER:
            time.sleep(1)
        took = time.monotonic() - begun
        same((ended(strangers.streams), took > QUIET), ([1, 2, 4, 5], True), f"who is ended, after {took} s")
        same(answered(strangers, strangers.streams[0], 1), True, "the current one, afterwards")
        same(answered(strangers, strangers.streams[3], 1), True, "the other one, afterwards")
        group.stop()


def test_frames_that_do_not_open_are_told_of_once():
    """In the name of a peer whose WANTs open as well; nothing is told of a frame that opens, or that is for another."""
    with Group(OPENING, running=[0]) as group, Strangers(3, 0, group.ports[0]) as strangers:
        node = paid_node(group)
        stream = strangers.dial()
        stream.sendall(frame(WANT, 2, 1, 0))
        same(answered(strangers, stream, 0), True, "a WANT that opens, behind one for another")
        for key in (32 * b"x", 32 * b"y"):
            stream = strangers.dial()
            stream.sendall(strangers.want(0))
            stream.sendall(strangers.want(1, key=key) + strangers.want(1))
            same(received(stream) is not None, True, "what comes before a wrong tag")
            same(received(stream), None, "what comes behind it")
        until(lambda: [it for it in node.news() if it[0] == 3], [(3, UNOPENED)], of="what is said of 3")
        group.stop()
        same([it for it in node.news() if it[0] != 3 and it[1] == UNOPENED], [], "what is said of the others")
        same(node.news().count((3, UNOPENED)), 1, "how often")


def test_wrong_tags_cost_little():
    """Four strangers send nothing else for two seconds: each is ended at its first, so no processor is busy with it."""
    with Group(OPENING, running=[0]) as group, Strangers(3, 0, group.ports[0]) as strangers:
        text, until_then = 500 * strangers.want(0, key=bytes(32)), time.monotonic() + 2
        threads = [threading.Thread(target=sent_for_long, args=(strangers.dial(), text, until_then)) for _ in range(4)]
        used = -group.nodes[0].processor_seconds()
        for thread in threads:
            thread.start()
        for thread in threads:
            thread.join()
        used += group.nodes[0].processor_seconds()
        same((used < 0.5, used), (True, used), "whether that many seconds of a processor are few")
        same(ended(strangers.streams), list(range(4)), "who is ended")
        group.stop()


def sent_for_long(stream, text, until_then):
    """Sends a text over and over as long as somebody takes it."""
    with contextlib.suppress(OSError):
        while time.monotonic() < until_then:
            stream.sendall(text)


def test_a_peer_dials_again_and_again():
    """One that is gone leaves no name behind, and one that another dialed for keeps its place."""
    with Group(OPENING, running=[0]) as group:
        paid_node(group)
        with Strangers(1, 0, group.ports[0]) as other, Strangers(3, 0, group.ports[0]) as strangers:
            stays = other.dial()
            same(answered(other, stays, 0), True, "another peer")
            for again in range(300):
                stream = strangers.dial()
                same(answered(strangers, stream, again % 2), True, f"time {again}")
                if again % 3 == 0:
                    strangers.streams.pop().close()
            same(answered(other, stays, 1), True, "another peer, afterwards")
        group.stop()


def test_strangers_make_place_first():
    """Those of whom no WANT opened go, the oldest first; a peer keeps its current one and another."""
    count = 400
    with Group(OPENING, running=[0]) as group, Strangers(3, 0, group.ports[0]) as strangers:
        paid_node(group)
        peers = [strangers.dial(), strangers.dial()]
        for stream in peers:
            same(answered(strangers, stream, 0), True, "a peer")
        others = [strangers.dial() for _ in range(count)]
        left = count - (MOST_CONNECTIONS - len(peers))
        until(lambda: ended(others), list(range(left)), of="the oldest strangers are ended")
        for stream in peers:
            same(answered(strangers, stream, 1), True, "a peer, afterwards")
        # one of them turns out to be that peer's: then two wait of it, of which the older goes
        same(answered(strangers, others[-1], 0), True, "one that was a stranger")
        strangers.dial()
        until(lambda: ended(peers), [1], of="the older one is ended that isn't current")
        group.stop()


@contextlib.contextmanager
def beside_all():
    """A group of which member 3 lies, and its connections to each of the others."""
    with contextlib.ExitStack() as stack, Group(OPENING, running=[0, 1, 2]) as group:
        liars = [stack.enter_context(Strangers(3, own, group.ports[own])) for own in group.nodes]
        group.pay_around(range(1), paying=3)
        yield group, liars
        group.stop()


def test_a_liar_that_waits_120_times():
    """All stand, for nobody else needs their places, and the others settle and stop as ever."""
    with beside_all() as (group, liars):
        for liar in liars:
            liar.wait_for_ever(120)
        group.pay_around(range(1, 21), paying=3)
        for liar in liars:
            same(ended(liar.streams), [], f"those that node {liar.peer} gave up")


def test_strangers_120_times():
    """They send nothing or half a WANT, and keep their places, and nobody waits for them; or one that doesn't open."""
    with beside_all() as (group, strangers):
        for one in strangers:
            for place in range(120):
                one.say((b"", one.want(0)[:20], one.want(0, key=bytes(32)))[place % 3])
        group.pay_around(range(1, 21), paying=3)
        for one in strangers:
            until(lambda it=one: ended(it.streams), list(range(2, 120, 3)), of=f"whom node {one.peer} ended")


# ---- WANTs that are played back


class Tunneled(Relayed, Group):
    """A group whose members dial each other by tunnels in which each byte takes a while."""

    def __init__(self):
        ports = free_ports(len(OPENING))
        super().__init__(OPENING, ports=ports)
        self.relays = relays_at(free_ports(len(OPENING)), ports, DELAY)


def test_replays_lose_no_payment():
    """Of the first WANTs of each peer, at each node: payments that are asked for one after the other settle."""
    count = 15
    with contextlib.ExitStack() as stack, Tunneled() as group:
        for own, port in enumerate(group.ports):
            texts = [frame(WANT, peer, own, number) for number in range(4) for peer in range(4) if peer != own]
            replays = stack.enter_context(Replays(texts, port, REPLAYS))
        # (long enough that all places are taken)
        until(lambda: replays.count > 1.2 * MOST_CONNECTIONS, True, of="whether enough came")
        for seq in range(count):
            group.pay(0, seq, payee=1, amount=1, seq=seq)
            until(lambda: group.nodes[0].front()[0], seq + 1, of="payments that have settled")
        group.settle([count, 0, 0, 0])
        group.stop()


def test_a_peer_gets_through_replays():
    """Of its own WANTs: each time that it dials anew, by a tunnel, it has two frames, one after the other."""
    with Group(OPENING, running=[0]) as group:
        paid_node(group)
        [tunnel] = relays_at(free_ports(1), group.ports[:1], DELAY)
        strangers = Strangers(3, 0, tunnel)
        with Replays([strangers.want(number) for number in (0, 1)], group.ports[0], REPLAYS):
            for again in range(100):
                with connected(tunnel) as stream:
                    same([answered(strangers, stream, number) for number in (0, 1)], [True, True], f"time {again}")
        group.stop()
