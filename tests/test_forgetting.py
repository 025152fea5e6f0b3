"""Black-box tests of members that have forgotten what they sent, since an older copy of their folder was put back or
another folder was made, and of what a node with a folder asks of its peers before it pays."""

import contextlib
import os
import random
import shutil
import socket
import time

from payd_tools.frames import WANT, claim_on, frame, is_challenge
from support.nodes import EARLY, PATIENCE, Ended, Group, until
from support.peers import Replays, Server, next_want
from support.restarts import FORGOTTEN, KNOWN, Folders, told
from support.runs import TOP, call, same, shows

OPENING = [100, 0, 0, 50]
SEND = os.path.join(TOP, "tools", "send")
LOST = "refused 7 Forgotten"
# What a member has sent that paid once among peers that aren't there: its SEND and its ECHO.
SENT = 2


def put_back(group, name):
    """An older copy in place of the folder of member 0."""
    folder = os.path.join(group.place.name, "data-0")
    shutil.rmtree(folder)
    shutil.copytree(os.path.join(group.place.name, name), folder)


def copied(group, name):
    """Keeps a copy of the folder of member 0 as it is."""
    ignored = shutil.ignore_patterns("desk", "status.prom*")
    shutil.copytree(os.path.join(group.place.name, "data-0"), os.path.join(group.place.name, name), ignore=ignored)


def refuses(node):
    """A payment is refused as forgotten, if the node still reads it: once it noticed, it reads no more and ends."""
    try:
        same(node.pay("PAY 9 2 5"), LOST, "a payment by a member that has forgotten")
    except (Ended, BrokenPipeError):
        pass


def ends_forgotten(node):
    status, output, errors = node.end()
    same((status, told(errors)[1]), (4, FORGOTTEN), "the end of a member that has forgotten")
    return output


def paid_and_put_back(group):
    """A group in which member 0 paid twice, and then was killed and has the folder from between."""
    group.pay(0, 6, payee=1, amount=10, seq=0)
    group.settle([1, 0, 0, 0], [90, 10, 0, 50])
    copied(group, "old")
    group.pay(0, 7, payee=1, amount=20, seq=1)
    group.settle([2, 0, 0, 0], [70, 30, 0, 50])
    group.kill(0)
    put_back(group, "old")


# ---- an older copy of the folder


def test_an_old_copy_never_pays():
    """Asked at once and again and again: each payment is refused, and at last as forgotten."""
    with Folders(OPENING) as group:
        paid_and_put_back(group)
        node = group.start(0)
        refuses(node)
        node.end_input()
        same(ends_forgotten(node), "", "what it still writes")
        del group.nodes[0]
        # nobody has heard of the payment
        group.settle([2, 0, 0, 0], [70, 30, 0, 50])


def test_an_old_copy_tells_nothing_of_its_account():
    """Asked later: neither what became of its payments nor its entries, and then it ends. Others' accounts it tells."""
    with Folders(OPENING) as group:
        paid_and_put_back(group)
        node = group.start(0)
        lines = ["STATE 0 1", "ENTRIES 0 0", "WAITING 0", "PAYS 9 1 1 2 1", "FRONT"]
        refuses(node)
        try:
            node.write("".join(f"{line}\n" for line in lines))
            answers = [node.line() for _ in lines]
        except (Ended, BrokenPipeError):
            answers = None
        if answers is not None:
            same(answers[:4], 4 * [LOST], "questions of the own account")
        node.end_input()
        ends_forgotten(node)
        del group.nodes[0]


def test_an_old_copy_that_stays_ends_by_itself():
    """It reads nothing, and its log stays as it is."""
    with Folders(OPENING) as group:
        paid_and_put_back(group)
        before = group.log(0)
        node = group.start(0, options=["--stay"])
        node.end_input()
        same(ends_forgotten(node), "", "what it writes")
        same(group.log(0), before, "the log")
        del group.nodes[0]


def test_older_copies_are_noticed_whoever_starts_with_them():
    """Copies of several ages, while the others run, or with all of them killed and started again."""
    for seed in range(6):
        seeded = random.Random(seed)
        before, more = seeded.randrange(3), seeded.randrange(1, 4)
        with Folders(OPENING) as group:
            for order in range(before):
                group.pay(0, order, payee=1, amount=1, seq=order)
            group.settle([before, 0, 0, 0])
            copied(group, "old")
            for order in range(before, before + more):
                group.pay(0, order, payee=1, amount=1, seq=order)
            group.settle([before + more, 0, 0, 0])
            killed = [0, *(own for own in range(1, 4) if seed % 2)]
            for own in killed:
                group.kill(own)
            put_back(group, "old")
            for own in killed:
                group.start(own)
            refuses(group.nodes[0])
            status, _, errors = group.end(0)
            same((status, errors), (4, FORGOTTEN if before else KNOWN), f"seed {seed}: the end")
            group.settle([before + more, 0, 0, 0])


def test_a_copy_of_now_goes_on():
    """A folder as it was when the node ended is no older one: the member pays once enough peers were heard."""
    with Folders(OPENING) as group:
        group.pay(0, 7, payee=1, amount=30, seq=0)
        group.settle([1, 0, 0, 0], [70, 30, 0, 50])
        group.end(0)
        copied(group, "now")
        put_back(group, "now")
        group.start(0)
        group.pay(0, 8, payee=2, amount=5, seq=1)
        group.settle([2, 0, 0, 0], [65, 30, 5, 50])
        group.stop()


# ---- what peers claim


class Telling:
    """A node of member 0 that paid once and was started again, and peers that claim how far they got."""

    def __init__(self, opening=None):
        self.group = Folders(opening or OPENING, running=[0])
        self.peers = contextlib.ExitStack()
        self.taken = {}

    def __enter__(self):
        self.group.__enter__()
        self.group.pay(0, 7, payee=1, amount=30, seq=0)
        self.group.kill(0)
        self.group.claimants.leave_all()
        self.node = self.group.start(0)
        self.node.front()
        return self

    def __exit__(self, *words):
        self.peers.close()
        self.group.__exit__(*words)

    def claims(self, peer, taken):
        """A peer, from now on, answers each challenge so. The node says that it was met once it has its claim."""
        is_new = peer not in self.taken
        self.taken[peer] = taken
        if is_new:
            port, taken = self.group.ports[peer], lambda _: self.taken[peer]
            self.peers.enter_context(Server(peer, port, ends, taken))
            until(lambda: (peer, "met") in self.node.news(), True, of=f"whether {peer} is met")

    def asks(self, wanted):
        same(self.node.ask("PAY 8 2 5"), wanted, "a payment")


def ends(stream, peer, number):
    """A connection on which nothing is answered but a challenge."""


def test_a_quorum_that_knows_no_more_frees():
    """Three of four, itself among them; one that begins anew knows no more too."""
    with Telling() as it:
        it.asks(EARLY)
        it.claims(1, 0)
        it.asks(EARLY)
        same(it.node.ask("PAY 7 1 30"), "asked 7 seq 0", "the payment of before")
        it.claims(2, SENT)
        it.asks("asked 8 seq 1")


def test_one_liar_hinders_nobody():
    with Telling() as it:
        it.claims(3, SENT + 1000)
        it.claims(1, SENT)
        it.asks(EARLY)
        it.claims(2, SENT)
        it.asks("asked 8 seq 1")


def test_more_than_may_lie_know_more():
    """Two of four."""
    with Telling() as it:
        it.claims(3, SENT + 1)
        it.claims(1, SENT)
        it.asks(EARLY)
        it.claims(2, SENT + 1)
        refuses(it.node)
        it.node.end_input()
        ends_forgotten(it.node)
        del it.group.nodes[0]


def test_a_later_claim_takes_the_place_of_a_former_one():
    """A peer that seemed to know more knows no more: a node that waits asks it again."""
    with Telling() as it:
        it.claims(3, SENT + 1)
        it.claims(1, SENT)
        it.asks(EARLY)
        it.claims(3, SENT)
        until(lambda: it.node.ask("PAY 8 2 5"), "asked 8 seq 1", of="a payment")


# ---- what a stranger plays back


def test_no_recorded_want_is_evidence():
    """Somebody without keys listened at member 0's port while its node was down, and plays back what its peers asked
    for. The healthy member pays as without him, and nobody is met that is dead."""
    with Folders(OPENING) as group:
        group.pay(0, 7, payee=1, amount=30, seq=0)
        group.settle([1, 0, 0, 0], [70, 30, 0, 50])
        group.end(0)
        texts = [frame(WANT, peer, 0, number) for peer in range(1, 4) for number in range(SENT + 4)]
        group.kill(3)
        with Replays(texts, group.ports[0], 200):
            node = group.start(0)
            group.pay(0, 8, payee=2, amount=5, seq=1)
            group.settle([2, 0, 0, 0], [65, 30, 5, 50])
            time.sleep(2)
            same((3, "met") in node.news(), False, "whether a dead peer is met")
        group.stop()


def test_no_recorded_want_frees_an_old_copy():
    """Old WANTs of peers that the node itself can't reach: it waits, and pays nothing under a used number."""
    with Folders(OPENING) as group:
        paid_and_put_back(group)
        for own in range(1, 4):
            group.kill(own)
        texts = [frame(WANT, peer, 0, 0) for peer in range(1, 4)]
        with Replays(texts, group.ports[0], 200) as replays:
            node = group.start(0)
            node.front()
            until(lambda: replays.count > 100, True, of="whether enough came")
            same(node.ask("PAY 8 2 5"), EARLY, "a payment")
        group.end(0)


def challenge_on(listener):
    """A connection that a node dialed, and the number of the challenge that comes first on it."""
    stream = listener.accept()[0]
    stream.settimeout(PATIENCE)
    number = next_want(stream, 0)
    same(is_challenge(number), True, f"whether {number} is a challenge")
    return stream, number


def test_no_recorded_claim_answers_another_start():
    """A stranger listens at a peer's port. He recorded the claim on a challenge of the start before, and one of now."""
    with contextlib.ExitStack() as stack, Folders(OPENING, running=[0]) as group:
        group.pay(0, 7, payee=1, amount=30, seq=0)
        group.kill(0)
        group.claimants.leave_all()
        listener = stack.enter_context(socket.create_server(("127.0.0.1", group.ports[1])))
        listener.settimeout(PATIENCE)
        group.start(0)
        stream, number = challenge_on(listener)
        stream.close()
        recorded = frame(WANT, 1, 0, claim_on(number, SENT))
        group.kill(0)
        node = group.start(0)
        numbers = set()
        for _ in range(5):
            stream, number = challenge_on(listener)
            with stream:
                stream.sendall(recorded)
                recorded = frame(WANT, 1, 0, claim_on(number, SENT))
            numbers.add(number)
        same(len(numbers), 5, "how many challenges came")
        same((node.ask("PAY 8 2 5"), node.news()), (EARLY, []), "a payment, and who is met")


def test_a_member_in_memory_waits_for_nobody():
    with Group(OPENING, running=[0]) as group:
        same(group.nodes[0].ask("PAY 7 1 30"), "asked 7 seq 0", "its payment")


# ---- one life a member


def is_known(group, own):
    """The member is made in another folder, while its own is away, and started there once more: it pays nothing, and
    ends. Its own folder goes on."""
    for place in range(2):
        node = group.start(own, options=["--stay"], folder="another")
        try:
            while (answer := node.ask("PAY 9 2 5")) == EARLY:
                time.sleep(0.01)
            same(answer, LOST, "a payment in a second folder")
        except (Ended, BrokenPipeError):
            pass
        node.end_input()
        status, output, errors = node.end()
        same((status, output, told(errors)), (4, "", ((0, 0), KNOWN)), f"start {place} in a second folder")
    group.start(own)


def test_a_member_that_only_voted_has_no_second_life():
    with Folders(OPENING) as group:
        group.pay(0, 7, payee=1, amount=30, seq=0)
        group.settle([1, 0, 0, 0], [70, 30, 0, 50])
        group.kill(3)
        is_known(group, 3)
        group.pay(3, 7, payee=0, amount=20, seq=0)
        group.settle([1, 0, 0, 1], [90, 30, 0, 30])
        group.stop()


def test_a_member_that_paid_has_no_second_life():
    with Folders(OPENING) as group:
        group.pay(0, 7, payee=1, amount=30, seq=0)
        group.settle([1, 0, 0, 0], [70, 30, 0, 50])
        group.end(0)
        is_known(group, 0)
        group.pay(0, 8, payee=2, amount=5, seq=1)
        group.settle([2, 0, 0, 0], [65, 30, 5, 50])
        group.stop()


def test_a_group_that_starts_at_once_pays():
    """All members are made at the same moment, of four and of seven, and each pays before a person grows impatient."""
    for members in (4, 7):
        with Folders(members * [100], running=[]) as group:
            group.claimants.leave_all()
            begun = time.monotonic()
            for own in range(members):
                group.start(own)
            for own in range(members):
                group.pay(own, 7, payee=(own + 1) % members, amount=30, seq=0)
            took = time.monotonic() - begun
            group.settle(members * [1], members * [100])
            same(took < 10, True, f"{took} s until each of {members} members paid")
            group.stop()


def test_as_many_as_may_lie_can_be_down():
    """The others are made and pay. One fewer wait."""
    for members in (4, 7):
        faults = (members - 1) // 3
        with Folders(members * [100], running=[]) as group:
            group.claimants.leave_all()
            for own in range(members - faults - 1):
                group.start(own)
            for own in range(1, members - faults - 1):
                group.nodes[0].meets(own)
            same(group.nodes[0].ask("PAY 7 1 30"), EARLY, "a payment among too few")
            group.start(members - faults - 1)
            group.pay(0, 7, payee=1, amount=30, seq=0)
            group.settle([1, *(members - 1) * [0]], [70, 130, *(members - 2) * [100]])
            group.stop()


def test_a_member_that_comes_late_pays():
    with Folders(OPENING, running=[0, 1, 2]) as group:
        group.pay(0, 7, payee=3, amount=30, seq=0)
        group.settle([1, 0, 0, 0], [70, 0, 0, 80])
        group.start(3)
        group.pay(3, 7, payee=0, amount=80, seq=0)
        group.settle([1, 0, 0, 1], [150, 0, 0, 0])
        group.stop()


def test_a_start_says_where_the_folder_is():
    """By its absolute path, also where it is named by a link."""
    with Folders([100], running=[]) as group:
        place = os.path.realpath(group.place.name)
        os.symlink("data-0", os.path.join(place, "link"))
        for folder in ("data-0", os.path.join(place, "data-0"), "./data-0/", "link"):
            node = group.start(0, folder=folder)
            node.front()
            same(f"payd: folder {place}/data-0\n" in node.heard(), True, f"what is said of {folder}: {node.said}")
            group.end(0)


# ---- a client that waits


def test_send_waits():
    """It gives a payment again while it comes too early, and what follows it in its order."""
    with Folders(OPENING) as group:
        group.pay(0, 7, payee=1, amount=30, seq=0)
        group.settle([1, 0, 0, 0], [70, 30, 0, 50])
        group.end(0)
        group.start(0).front()
        lines = ["BALANCE 1", "PAY 8 2 5", "PAY 9 2 6", "PAY 7 1 30"]
        wanted = "balance 1 30\nasked 8 seq 1\nasked 9 seq 2\nasked 7 seq 0\n"
        shows(call([SEND, "--data", os.path.join(group.place.name, "data-0"), *lines]), 0, wanted, of="lines")
        group.settle([3, 0, 0, 0], [59, 30, 11, 50])
        group.stop()


def test_send_gives_up():
    """After ten seconds the refusal is passed on."""
    with Telling() as it:
        folder = os.path.join(it.group.place.name, "data-0")
        begun = time.monotonic()
        status, output, errors = call([SEND, "--data", folder, "PAY 8 2 5", "BALANCE 0"])
        took = time.monotonic() - begun
        same((status, output), (1, f"{EARLY}\nbalance 0 100\n"), "what is sent too early")
        same(errors, "payd send: refused 8: 6 TooEarly\n", "what is said")
        same(9 < took < 30, True, f"{took} s")
