"""Black-box tests of how often a node dials its peers, for how long, and what it says of them."""

import contextlib
import os
import select
import socket
import statistics
import subprocess
import tempfile
import time

from payd_tools.frames import SEND, WANT, frame, payment, read_frame
from support.nodes import PATIENCE, Group, free_ports, judges_words_of, news_in, told_apart, until, write_member
from support.peers import Strangers, claims, received
from support.runs import GENESIS, SECONDS, payd, same

OPENING = GENESIS["opening"]

# How many seconds after the others a peer starts: by then they dial it once a second.
LATE = 3

PAIR = {"members": 2, "faults": 0, "opening": [5, 5]}


ALWAYS = ["--dials", "always"]


class Said:
    """What a node writes to standard error, also while it runs."""

    def __init__(self, child):
        self.child, self.text = child, b""

    def hear(self):
        piece = os.read(self.child.stderr.fileno(), 65536)
        same(piece != b"", True, f"whether the node runs behind {self.text!r}")
        self.text += piece
        return news_in(self.text.decode())

    def at_end(self):
        """Ends the node by the end of its input: all that it said."""
        try:
            return (self.text + self.child.communicate(timeout=SECONDS)[1]).decode()
        except subprocess.TimeoutExpired:
            self.child.kill()
            raise


@contextlib.contextmanager
def dialing(options, wanted):
    """A node of two, whose peer's port is held here, and what it says; in the end that is to be this of its peer."""
    peer = socket.create_server(("127.0.0.1", 0))
    peer.settimeout(PATIENCE)
    ports = [*free_ports(1), peer.getsockname()[1]]
    with tempfile.TemporaryDirectory() as folder, peer:
        words = [payd(), *write_member(folder, genesis=PAIR, ports=ports), *options]
        pipe = subprocess.PIPE
        with subprocess.Popen(words, cwd=folder, stdin=pipe, stdout=subprocess.DEVNULL, stderr=pipe) as child:
            said = Said(child)
            try:
                yield peer, said
            except AssertionError as fault:
                raise AssertionError(f"{fault}, and standard error has {said.at_end()!r}") from fault
            same(told_apart(said.at_end())[0], wanted, f"what is said with {options}")


def dials(peer, said, most):
    """When a node dialed: each connection is ended at once, until so many came or it has given its peer up."""
    times, is_over = [], False
    while len(times) < most:
        # (of those that came before it gave up each is there by then)
        there = select.select([peer, *[said.child.stderr] * (not is_over)], [], [], 0 if is_over else PATIENCE)[0]
        if peer in there:
            peer.accept()[0].close()
            times.append(time.monotonic())
        elif there:
            is_over = (1, "given up") in said.hear()
        else:
            break
    return times


def pauses(times):
    return [after - before for before, after in zip(times, times[1:])]


def test_a_peer_is_given_up_behind_so_many_dials():
    for count in (1, 2, 5):
        with dialing(["--dials", f"{count}"], [(1, "given up")]) as (peer, said):
            same(len(dials(peer, said, most=9)), count, f"dials of {count}")


def has_pauses(times, least):
    """Whether the last pauses are as long as they should be: none is shorter, but for what the peer saw too late of the
    dial before, and none a second longer."""
    late = 0.02
    last = list(zip(pauses(times)[-len(least) :], least))
    return len(last) == len(least) and all(wanted - late <= pause < wanted + 1 for pause, wanted in last)


def shows_pauses(dialed, said, least):
    """Whether a node dials with these pauses, in one of three tries: a busy machine may see dials too late."""
    tries = []
    while len(tries) < 3 and not any(has_pauses(times, least) for times in tries):
        with dialing(ALWAYS, said) as (peer, heard):
            tries.append(dialed(peer, heard))
    same(any(has_pauses(times, least) for times in tries), True, f"pauses {list(map(pauses, tries))}")


def test_pauses_between_dials_grow():
    # (of the first two, of 10 and 20 ms, nothing could be said)
    least = [0.04, 0.08, 0.16, 0.32, 0.64, 1, 1, 1]
    shows_pauses(lambda peer, said: dials(peer, said, most=11), [], least)


def test_a_thousand_dials_unless_said():
    with dialing([], [(1, "given up")]) as (peer, said):
        times = dials(peer, said, most=1100)
        same(len(times), 1000, "dials without the option")
        same(statistics.median(pauses(times)) < 0.3, True, "no pause grows")


def old_frames(peer, _, most=8):
    """When a node dialed: on each connection a claim and the same frame come, the first time as a new one, and then the
    end."""
    text = frame(SEND, 1, 0, 0, 1)
    times = []
    for _ in range(most):
        stream = peer.accept()[0]
        times.append(time.monotonic())
        with stream:
            claims(stream, 1, 0)
            stream.sendall(text)
            stream.shutdown(socket.SHUT_WR)
            while stream.recv(65536):
                pass
    return times


def test_old_frames_do_not_shorten_the_pauses():
    # (the first pause is behind the new frame; of the two behind that one, of 10 and 20 ms, see above)
    shows_pauses(old_frames, [(1, "met")], [0.04, 0.08, 0.16, 0.32])


# For how many seconds a connection may bring nothing, and how many more a busy machine may take.
QUIET, LATER = 60, 20


def number_wanted(stream):
    """The number of the first frame that a node wants on a connection, once a claim was made."""
    claims(stream, 1, 0)
    kind, sender, receiver, number, _, _ = read_frame(received(stream))
    same((kind, sender, receiver), (WANT, 0, 1), "what comes first on a connection")
    return number


def waits_for_another(peer, former, begun):
    """The connection that a node makes once another has brought nothing for a minute, which it ends."""
    peer.settimeout(QUIET + LATER)
    stream = peer.accept()[0]
    waited = time.monotonic() - begun
    same(QUIET - 1 < waited, True, f"it isn't dialed anew within a minute, but after {waited} s")
    former.settimeout(PATIENCE)
    with contextlib.suppress(ConnectionResetError):
        while former.recv(65536):
            pass
    return stream


def test_a_quiet_connection_is_dialed_anew():
    """As where it leads to nobody any more. It asks for the next frame that is missing, and is no dial for nothing. Of
    two nodes, which wait at once, one had a frame before."""
    with contextlib.ExitStack() as stack:
        nodes = [stack.enter_context(dialing(["--dials", "1"], [(1, "met"), (1, "given up")])) for _ in range(2)]
        firsts = [stack.enter_context(peer.accept()[0]) for peer, _ in nodes]
        for first in firsts:
            same(number_wanted(first), 0, "what is wanted first")
        firsts[1].sendall(frame(SEND, 1, 0, 0, 1))
        begun = time.monotonic()
        for number, ((peer, said), first) in enumerate(zip(nodes, firsts)):
            with waits_for_another(peer, first, begun) as second:
                same(number_wanted(second), number, f"what is wanted where {number} frames came")
            # (that connection is over)
            same(len(dials(peer, said, most=2)), 1, "dials behind the last one with a claim")


# ---- what is said of peers


def said_of(node, peer):
    """What a node said of a peer so far."""
    return [word for of, word in node.news() if of == peer]


def test_late_peer_is_met():
    """It starts long after the others, and all that it and they have paid settles."""
    with Group(OPENING, running=[]) as group:
        for own in range(3):
            group.start(own, options=ALWAYS)
        group.pay(0, 7, payee=1, amount=30, seq=0)
        group.settle([1, 0, 0, 0], [70, 30, 0, 50])
        time.sleep(LATE)
        for own, node in group.nodes.items():
            same(sorted(node.news()), [(peer, "met") for peer in range(3) if peer != own], f"said by {own} before")
        late = group.start(3, options=ALWAYS)
        group.pay(3, 7, payee=0, amount=20, seq=0)
        group.settle([1, 0, 0, 1], [90, 30, 0, 30])
        for own in range(3):
            until(lambda: said_of(group.nodes[own], 3), ["met"], of=f"said by {own} of the late one")
        until(lambda: sorted(late.news()), [(peer, "met") for peer in range(3)], of="said by the late one")
        group.stop()


def test_peer_that_goes_and_comes_back():
    """Each says once that it is lost and once that it is met again, before anything was paid."""
    with Group(OPENING, running=[]) as group:
        for own in range(4):
            group.start(own, options=ALWAYS)
        words = ["met"]
        for _ in range(2):
            for own in range(3):
                until(lambda: said_of(group.nodes[own], 3), words, of=f"said by {own}")
            group.kill(3)
            words += ["lost"]
            for own in range(3):
                until(lambda: said_of(group.nodes[own], 3), words, of=f"said by {own}")
            group.start(3, options=ALWAYS)
            words += ["met"]
        group.pay(3, 7, payee=0, amount=20, seq=0)
        group.settle([0, 0, 0, 1], [120, 0, 0, 30])
        for own in range(3):
            until(lambda: said_of(group.nodes[own], 3), words, of=f"said by {own} in the end")
            for peer in set(range(3)) - {own}:
                same(said_of(group.nodes[own], peer), ["met"], f"said by {own} of {peer}")
        group.stop()


def test_peer_that_never_comes():
    with Group([7, 7], running=[]) as group:
        node = group.start(0, options=["--dials", "3"])
        until(node.news, [(1, "given up")], of="said of nobody")
        time.sleep(1)
        same(node.ask("FRONT"), "front 0 0", "its desk")
        same(node.stop()[0], 0, "its end")
        same(node.news(), [(1, "given up")], "all that it said")


def test_peer_that_comes_and_goes_in_haste():
    """It answers a challenge, again and again, and nothing else: it is met and lost once a second at most."""
    with Group([7, 7], running=[]) as group, socket.create_server(("127.0.0.1", group.ports[1])) as peer:
        peer.settimeout(PATIENCE)
        node = group.start(0, options=ALWAYS)
        begun = time.monotonic()
        while time.monotonic() < begun + 5:
            for answers in (True, False, False):
                with peer.accept()[0] as stream:
                    stream.settimeout(PATIENCE)
                    if answers:
                        claims(stream, 1, 0)
        until(lambda: node.news()[-1:], [(1, "lost")], of="said in the end")
        pairs = len(node.news()) // 2
        same(node.news(), pairs * [(1, "met"), (1, "lost")], "what is said, in turns")
        same(1 <= pairs <= 1 + time.monotonic() - begun, True, f"{pairs} times in {time.monotonic() - begun} s")
        group.stop()


def test_wants_alone_meet_nobody():
    """Anyone can play back the WANT of a peer that is dead."""
    with Group([7, 7], running=[]) as group, Strangers(1, 0, group.ports[0]) as strangers:
        node = group.start(0, options=ALWAYS)
        group.pay(0, 7, payee=1, amount=1, seq=0)
        stream = strangers.dial()
        stream.sendall(strangers.want(0))
        same(received(stream), frame(SEND, 0, 1, 0, value=payment(1, 1)), "what the WANT is answered")
        time.sleep(2)
        same(node.news(), [], "what is said of the peer")
        group.stop()


def test_what_cannot_be_said_stops_nothing():
    """Standard error is full: no peer can be spoken of, and all settles."""
    with Group([7, 7], running=[1]) as group, open("/dev/full", "w", encoding="ascii") as full:
        words = [payd(), "node", "--genesis", "genesis", "--keys", "keys-0", "--ports", "ports"]
        pipe = subprocess.PIPE
        child = subprocess.Popen(words, cwd=group.place.name, stdin=pipe, stdout=pipe, stderr=full)
        try:
            until(lambda: said_of(group.nodes[1], 0), ["met"], of="said by the other")
            group.pay(1, 7, payee=0, amount=5, seq=0)
            group.settle([0, 1], [12, 2])
            output = child.communicate(b"FRONT\n", timeout=SECONDS)[0].decode()
        finally:
            child.kill()
            child.wait()
        same((child.returncode, output.split("\n")[0]), (0, "front 0 1"), "the end of the silent one")


def test_words_that_say_no_dials():
    wrong, right = ("0", "1e3", "Always", "always "), ("1", "1000", "always", f"{2**64 - 1}")
    judges_words_of("dials", "neither a count from 1 on nor always", wrong, [["5", "5"]], right)
