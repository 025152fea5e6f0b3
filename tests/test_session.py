"""A running node has the sessions of vectors/sessions.json with members that are played here."""

import socket
from contextlib import ExitStack

from support.nodes import Group
from support.peers import claims, connected, has_ended, received
from support.runs import SECONDS, same
from test_vector import vectors


class Session:
    """A node, and the connections that it has in the order in which they began, of which one is the present one."""

    def __init__(self, row, stack):
        self.what = row["for"]
        self.own = row["own"]
        self.stack = stack
        self.group = stack.enter_context(Group(row["opening"], running=[]))
        dialed = {step["dialed"] for step in row["steps"] if "dialed" in step}
        self.listeners = {peer: self.listener(peer) for peer in dialed}
        self.group.start(self.own, options=["--ahead", f"{row['ahead']}", "--dials", "always"])
        self.connections = []
        self.stream = None

    def listener(self, peer):
        listener = self.stack.enter_context(socket.create_server(("127.0.0.1", self.group.ports[peer])))
        listener.settimeout(SECONDS)
        return listener

    def play(self, step):
        (kind, value), *more = step.items()
        getattr(self, kind)(value, *(it for _, it in more))

    def line(self, line, answer):
        same(self.group.nodes[self.own].ask(line), answer, self.what)

    def begin(self, stream):
        self.stream = self.stack.enter_context(stream)
        self.stream.settimeout(SECONDS)
        self.connections.append(self.stream)

    def dialed(self, peer):
        self.begin(self.listeners[peer].accept()[0])
        claims(self.stream, peer, self.own)

    def dials(self, _peer):
        # a node answers its desk once it listens
        self.group.nodes[self.own].ask("FRONT")
        self.begin(connected(self.group.ports[self.own]))

    def connection(self, place):
        self.stream = self.connections[place]

    def write(self, text, answered):
        self.stream.sendall(bytes.fromhex(text))
        same([(received(self.stream) or b"").hex() for _ in answered], answered, self.what)

    def end(self, who):
        """The node ended it, where it is the one, with no more frames; else the member ends it."""
        if who == "node":
            same(received(self.stream), None, self.what)
        self.stream.close()

    def stop(self):
        """Nothing more came on a connection that stands."""
        for place, stream in enumerate(self.connections):
            is_open = stream.fileno() >= 0
            same(is_open and has_ended(stream), False, f"{self.what}: whether connection {place} ended")
        self.group.stop()


def test_sessions_are_had():
    for row in vectors("sessions", 21):
        with ExitStack() as stack:
            session = Session(row, stack)
            for step in row["steps"]:
                session.play(step)
            session.stop()
