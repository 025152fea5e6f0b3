"""Correct members in Python beside one running node: each is played by the slow model, and met over sockets.

They answer the node's WANTs, and ask WANTs of it; what they send one another is brought at once.
"""

import threading
import time

from models import audits
from payd_tools.frames import WANT, frame, read_frame
from payd_tools.model import Member
from support.nodes import PATIENCE
from support.peers import Server, connected, next_want, received

PAUSE = 0.005


class Crowd:
    """The members of a group beside a node that run. After its `with` none of their threads is left."""

    def __init__(self, node, ports, opening, running):
        self.node = node
        self.port = ports[node]
        self.opening = opening
        self.members = {it: Member(len(opening), (len(opening) - 1) // 3, it, opening) for it in running}
        self.changed = threading.Condition()
        # each body that the node sent, by number, and what it sent that a correct member doesn't
        self.bodies = {}
        self.faults = []
        # how many connections ended while all were to stand
        self.cuts = 0
        self.is_over = threading.Event()
        self.servers = [Server(it, ports[it], self.serving(it), self.members[it].next) for it in running]
        self.askers = [threading.Thread(target=self.ask_all, args=(it,), daemon=True) for it in running]

    def __enter__(self):
        for one in self.servers:
            one.__enter__()
        for one in self.askers:
            one.start()
        return self

    def __exit__(self, *_):
        self.end()
        for one in self.servers:
            one.__exit__()
        for one in self.askers:
            one.join(PATIENCE)

    def end(self):
        """From here on connections may end."""
        with self.changed:
            self.is_over.set()
            self.changed.notify_all()

    def pay(self, own, value):
        with self.changed:
            self.members[own].ask(value)
            self.exchange()

    def exports(self):
        with self.changed:
            return [self.export(own, one) for own, one in self.members.items()]

    def export(self, own, one):
        lists = [[value.hex() for value in values] for values in one.lists()]
        return audits.export(self.opening, lists, *one.book(), member=own)

    def exchange(self):
        """Brings what they sent one another, until nobody sends more."""
        pairs = [(one, to) for one in self.members.values() for to in self.members.values() if one is not to]
        while any(to.next(one.own) < len(one.sent()) for one, to in pairs):
            for one, to in pairs:
                for body in one.sent()[to.next(one.own) :]:
                    to.take(one.own, body)
        self.changed.notify_all()

    # ---- WANTs of the node

    def serving(self, own):
        return lambda stream, peer, number: self.serve(own, stream, peer, number)

    def serve(self, own, stream, peer, number):
        try:
            while number is not None and (body := self.body(own, number)) is not None:
                kind, owner, seq, value = body
                stream.sendall(frame(kind, own, peer, number, owner=owner, seq=seq, value=value))
                number = next_want(stream, peer)
        finally:
            self.note_end()

    def body(self, own, number):
        """What a member sent under a number, once it did, or None at the end."""
        one = self.members[own]
        with self.changed:
            self.changed.wait_for(lambda: self.is_over.is_set() or number < len(one.sent()))
            return None if self.is_over.is_set() else one.sent()[number]

    def note_end(self):
        with self.changed:
            self.cuts += not self.is_over.is_set()

    # ---- WANTs of their own

    def ask_all(self, own):
        while not self.is_over.is_set():
            try:
                stream = connected(self.port)
            except OSError:
                time.sleep(PAUSE)
                continue
            with stream:
                self.ask_on(own, stream)
            self.note_end()

    def ask_on(self, own, stream):
        """Asks for one frame after the other, as long as the connection stands."""
        try:
            text = b""
            while text is not None and not self.is_over.is_set():
                number = self.members[own].next(self.node)
                stream.sendall(frame(WANT, own, self.node, number))
                text = received(stream)
                if text is not None:
                    self.take(own, number, text)
        except OSError:
            pass

    def take(self, own, number, text):
        found = read_frame(text)
        with self.changed:
            is_right = isinstance(found, tuple) and found[1:4] == (self.node, own, number) and found[5]
            if not is_right or self.bodies.setdefault(number, found[4]) != found[4]:
                self.faults.append((own, number, text))
                return
            self.members[own].take(self.node, found[4])
            self.exchange()
