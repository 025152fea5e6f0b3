"""Black-box tests of how many frames a node asks its peers for ahead, and of what it answers to many WANTs at once."""

import contextlib
import os
import random
import socket
import subprocess
import time
import unittest

from payd_tools.frames import ECHO, SEND, WANT, frame, payment, read_frame
from support.nodes import Group, Node, judges_words_of
from support.peers import claims, connected, received
from support.runs import SECONDS, same


def test_words_that_say_no_number_ahead():
    wrong = "0", "1025", "1e1", "always"
    judges_words_of("ahead", "no number from 1 to 1024", wrong, [], ("1", "2", "1023", "1024"))


def wanted(ahead, frames):
    """The numbers of the WANTs that node 0 writes to member 1, in Python, where these frames and nothing else come."""
    with Group([5, 5, 5, 5], running=[]) as group, socket.create_server(("127.0.0.1", group.ports[1])) as listener:
        listener.settimeout(SECONDS)
        group.start(0, options=["--ahead", f"{ahead}"])
        with listener.accept()[0] as stream:
            stream.settimeout(SECONDS)
            claims(stream, 1, 0)
            stream.sendall(frames)
            stream.shutdown(socket.SHUT_WR)
            numbers = []
            while text := received(stream):
                kind, sender, receiver, number, _, is_right = read_frame(text)
                same((kind, sender, receiver, is_right), (WANT, 0, 1, True), "a WANT")
                numbers.append(number)
        group.stop()
    return numbers


def test_a_window_opens_with_each_frame():
    sends = [frame(SEND, 1, 0, number, owner=1, seq=number) for number in range(3)]
    for ahead, frames, numbers in (
        (1, [], [0]),
        (2, [], [0, 1]),
        (1024, [], [0, 1, 2, 3]),
        (1, sends[:1], [0, 1]),
        (1024, sends[:1], [*range(6)]),
        (1, sends, [0, 1, 2, 3]),
        (2, sends, [0, 1, 2, 3, 4]),
        (5, sends, [*range(8)]),
        # the frame again is out of turn, and what comes after it isn't read
        (1024, [sends[0], *sends], [*range(6)]),
        # so is another member's
        (1024, [frame(SEND, 2, 0, 0, owner=2), *sends], [0, 1, 2, 3]),
    ):
        same(wanted(ahead, b"".join(frames)), numbers, f"{ahead} ahead, {len(frames)} frames")


def test_nodes_of_different_numbers_ahead():
    """Two nodes ask for 1,024 frames ahead and two for one; all that is asked settles at all."""
    with Group([1000, 1000, 1000, 1000], running=[]) as group:
        for own in range(4):
            group.start(own, options=["--ahead", "1024" if own < 2 else "1"])
        for seq in range(200):
            for own in range(4):
                group.nodes[own].write(f"PAY {seq} {(own + 1) % 4} 1\n")
        for seq in range(200):
            for own in range(4):
                same(group.nodes[own].line(), f"asked {seq} seq {seq}", f"payment {seq} by {own}")
        group.settle([200, 200, 200, 200], [1000, 1000, 1000, 1000])
        group.stop()


def test_a_peer_that_is_killed_and_started_anew():
    """Member 3 asks for nothing itself: it is killed twice among 10,008 payments, and catches up. It has forgotten what
    it said by then, so others may hear that again."""
    each = 1112
    with Group([5000, 5000, 5000, 0], running=[]) as group:
        group.liars = (3,)
        for own in range(4):
            group.start(own, options=["--dials", "always"])
        for turn in range(3):
            seqs = range(turn * each, turn * each + each)
            for own in range(3):
                group.nodes[own].write("".join(f"PAY {seq} {(own + 1) % 3} 1\n" for seq in seqs))
            if turn < 2:
                time.sleep(random.Random(turn).random() / 10)
                group.kill(3)
                group.start(3, options=["--dials", "always"])
            for own in range(3):
                for seq in seqs:
                    same(group.nodes[own].line(), f"asked {seq} seq {seq}", f"payment {seq} by {own}")
        group.settle([3 * each, 3 * each, 3 * each, 0], [5000, 5000, 5000, 0])
        group.stop()


@contextlib.contextmanager
def small_sockets():
    """The words before a command that has it run where a socket holds no more than Linux promises to each."""
    name = f"payd-{os.getpid()}"
    inside, how = ["ip", "netns", "exec", name], {"check": True, "capture_output": True}
    try:
        subprocess.run(["ip", "netns", "add", name], **how)
    except (OSError, subprocess.CalledProcessError) as error:
        raise unittest.SkipTest(f"no network namespace: {error}") from error
    try:
        subprocess.run(["ip", "-n", name, "link", "set", "lo", "up"], **how)
        for buffer in ("tcp_rmem", "tcp_wmem"):
            subprocess.run([*inside, "sysctl", "-w", f"net.ipv4.{buffer}=4096 4096 4096"], **how)
        yield inside
    finally:
        subprocess.run(["ip", "netns", "delete", name], **how)


class Inside(Group):
    """A group whose nodes run behind some words."""

    def __init__(self, prefix, *words, **more):
        super().__init__(*words, **more)
        self.prefix = prefix

    def start(self, own, ports="ports", options=()):
        self.nodes[own] = Node(own, self.place.name, ports, [*self.options, *options], self.prefix)
        return self.nodes[own]


def test_a_window_of_more_than_the_sockets_hold():
    """Two sockets hold some 100 WANTs and a few frames of 32 payments: a node that catches up goes on by new ones."""
    values, options = 300, ["--ahead", "1024", "--dials", "always"]
    with small_sockets() as prefix, Inside(prefix, [32 * values, 0], running=[0], options=options) as group:
        for order in range(values):
            line = f"PAYS {order} {' '.join(32 * ['1 1'])}"
            same(group.nodes[0].ask(line), f"asked {order} seq {order}", f"value {order}")
        group.start(1)
        group.settle([32 * values, 0], [0, 32 * values])
        group.stop()


def wants(numbers):
    """WANTs of member 3 to member 0, one after the other."""
    return b"".join(frame(WANT, 3, 0, number) for number in numbers)


def frames_of_payments(count):
    """What member 0 sends member 3 of its own payments of 1 to member 1, while nobody answers."""
    value = payment(1, 1)
    kinds = count * [SEND, ECHO]
    return [frame(kind, 0, 3, number, seq=number // 2, value=value) for number, kind in enumerate(kinds)]


def test_no_frame_is_held_back_while_another_is_waited_for():
    """What is there of one text of WANTs comes at once, and what is after one that is waited for comes with that."""
    with Group([9, 0, 0, 0], running=[0]) as group, connected(group.ports[0]) as stream:
        for seq in range(3):
            group.pay(0, seq, payee=1, amount=1, seq=seq)
        there = frames_of_payments(4)
        for turn in range(2):
            stream.sendall(wants([turn]))
            same(received(stream), there[turn], f"the WANT of {turn} alone")
        stream.sendall(wants([*range(6), 7, *range(6)]))
        same([received(stream) for _ in range(6)], there[:6], "what is there")
        group.pay(0, 3, payee=1, amount=1, seq=3)
        same([received(stream) for _ in range(7)], [there[7], *there[:6]], "what was waited for, and what is behind it")
        group.stop()


def test_repeats_of_a_want_are_not_kept():
    """However often a member asks for the same frames, a node keeps one receipt of each."""
    with Group([9, 0, 0, 0], running=[0]) as group, connected(group.ports[0]) as stream:
        for seq in range(4):
            group.pay(0, seq, payee=1, amount=1, seq=seq)
        there, kept = frames_of_payments(4), []
        for _ in range(2):
            for _ in range(1_000):
                stream.sendall(wants([*range(8), 7, 0]))
                same([received(stream) for _ in range(10)], [*there, there[7], there[0]], "what is asked for again")
            kept.append(group.nodes[0].status("VmRSS"))
        same(kept[1] - kept[0] < 500, True, f"{kept[0]} kibibytes, and {kept[1]} behind 10,000 repeats more")
        group.stop()
