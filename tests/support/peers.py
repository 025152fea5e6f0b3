"""Peers in Python that meet running nodes over sockets: liars that speak the protocol, and strangers that don't.

They share no code with the crates. None outlives its `with`.
"""

import collections
import contextlib
import random
import select
import socket
import threading
import time

from payd_tools.frames import HEAD, SEND, WANT, claim_on, frame, is_challenge, read_frame

SECONDS = 60
GREATEST = 2**64 - 1


def connected(port, address="127.0.0.1"):
    """A connection to a port of the loopback."""
    return socket.create_connection((address, port), timeout=SECONDS)


def received(stream):
    """The next frame that a stream has, or None at its end, which a peer that ends with unread bytes makes a reset."""
    text = b""
    while len(text) < 2 or len(text) < 2 + int.from_bytes(text[:2], "big"):
        missing = 2 - len(text) if len(text) < 2 else 2 + int.from_bytes(text[:2], "big") - len(text)
        try:
            piece = stream.recv(missing)
        except ConnectionResetError:
            piece = b""
        if piece == b"":
            return None
        text += piece
    return text


def has_ended(stream):
    """Whether the other ended a connection on which nothing is left to read."""
    if not select.select([stream], [], [], 0)[0]:
        return False
    try:
        return stream.recv(1) == b""
    except ConnectionResetError:
        return True


def next_want(stream, peer):
    """The number that a peer wants next, or None where the connection is of no more use."""
    text = received(stream)
    found = text and read_frame(text)
    return found[3] if isinstance(found, tuple) and found[:2] == (WANT, peer) and found[5] else None


def claims(stream, own, peer):
    """Answers the challenge that comes first on a connection that a peer dialed: nothing was taken."""
    number = next_want(stream, peer)
    if number is None or not is_challenge(number):
        raise AssertionError(f"{number} is no challenge")
    stream.sendall(frame(WANT, own, peer, claim_on(number, 0)))


def poured(stream, text):
    """Sends as much of a text as the other takes while nobody reads its answers."""
    stream.setblocking(False)
    left = memoryview(text)
    deadline = time.monotonic() + SECONDS
    # a second without room for a byte says that the other waits for its own words to be read
    while left and time.monotonic() < deadline and select.select([], [stream], [], 1)[1]:
        left = left[stream.send(left[:65536]) :]


class Server:
    """Listens on a port, answers challenges, and hands each connection with the first WANT for a place on it to `meet`,
    which is given or a method. `taken` says how many of a peer's frames it claims to have taken."""

    def __init__(self, own, port, meet=None, taken=lambda peer: 0):
        self.own = own
        self.meet = meet or self.meet
        self.taken = taken
        self.streams = []
        self.threads = []
        self.is_over = threading.Event()
        self.lock = threading.Lock()
        self.listener = socket.create_server(("127.0.0.1", port))

    def __enter__(self):
        self.start(self.accept)
        return self

    def __exit__(self, *_):
        self.is_over.set()
        with self.lock:
            for stream in [self.listener, *self.streams]:
                ended(stream)
        for thread in self.threads:
            thread.join(SECONDS)

    def start(self, work, *words):
        thread = threading.Thread(target=work, args=words, daemon=True)
        self.threads.append(thread)
        thread.start()

    def accept(self):
        while True:
            try:
                stream, _ = self.listener.accept()
            except OSError:
                return
            with self.lock:
                if self.is_over.is_set():
                    ended(stream)
                    return
                self.streams.append(stream)
            stream.settimeout(SECONDS)
            self.start(self.serve, stream)

    def serve(self, stream):
        try:
            text = received(stream)
            found = text and read_frame(text)
            if isinstance(found, tuple) and found[0] == WANT and found[5]:
                peer, number = found[1], found[3]
                while number is not None and is_challenge(number):
                    stream.sendall(frame(WANT, self.own, peer, claim_on(number, self.taken(peer))))
                    number = next_want(stream, peer)
                if number is not None:
                    self.meet(stream, peer, number)
        except OSError:
            pass
        finally:
            with self.lock:
                if stream in self.streams:
                    self.streams.remove(stream)
            ended(stream)


class Claimants:
    """Peers that claim to have taken nothing, and say nothing else. By enough of them a lone node may pay.

    Each gives its port free once its member is to start there.
    """

    def __init__(self, ports, owns):
        self.servers = {own: Server(own, ports[own], says_nothing) for own in owns}

    def __enter__(self):
        for server in self.servers.values():
            server.__enter__()
        return self

    def __exit__(self, *_):
        self.leave_all()

    def leave_all(self):
        for own in list(self.servers):
            self.leave(own)

    def leave(self, own):
        if own in self.servers:
            self.servers.pop(own).__exit__()


def says_nothing(stream, peer, number):
    """A connection on which a peer asks for frames that never come."""
    while stream.recv(4096):
        pass


def ended(stream):
    try:
        stream.shutdown(socket.SHUT_RDWR)
    except OSError:
        pass
    stream.close()


class Liar(Server):
    """A member that tells each of the others another story, and another one on each connection.

    A story is a list of bodies, from which WANTs are answered. After the end of a story the connection ends, after
    that of the last one nothing more comes.
    """

    def __init__(self, own, port, stories):
        super().__init__(own, port)
        self.stories = stories
        self.turns = {peer: 0 for peer in stories}
        self.heard = set()

    def meet(self, stream, peer, number):
        stories = self.stories[peer]
        turn = self.turns[peer]
        self.turns[peer] = min(turn + 1, len(stories) - 1)
        while number is not None:
            if number >= len(stories[turn]):
                if turn + 1 < len(stories):
                    return
                self.heard.add(peer)
            else:
                kind, owner, seq, value = stories[turn][number]
                stream.sendall(frame(kind, self.own, peer, number, owner=owner, seq=seq, value=value))
            number = next_want(stream, peer)

    def all_taken(self):
        """Whether each of the others took its last story to the end."""
        return self.heard == set(self.stories)


class Running:
    """What a thread of its own does until the end of its `with`."""

    def __init__(self):
        self.count = 0
        self.is_over = threading.Event()
        self.thread = threading.Thread(target=self.run, daemon=True)

    def __enter__(self):
        self.thread.start()
        return self

    def __exit__(self, *_):
        self.is_over.set()
        self.thread.join(SECONDS)


class Cuts(Running):
    """Carries all that comes on some ports to others and back, and cuts each connection somewhere."""

    def __init__(self, seeded, routes):
        super().__init__()
        self.seeded = seeded
        self.routes = {socket.create_server(("127.0.0.1", port)): target for port, target in routes.items()}
        self.others = {}
        self.left = {}

    def __exit__(self, *_):
        super().__exit__()
        for stream in [*self.routes, *self.others]:
            stream.close()

    def run(self):
        while not self.is_over.is_set():
            for stream in select.select([*self.routes, *self.others], [], [], 0.05)[0]:
                if stream in self.routes:
                    self.join(stream.accept()[0], self.routes[stream])
                elif stream in self.others:
                    self.carry(stream, self.others[stream])

    def join(self, near, target):
        try:
            far = connected(target)
        except OSError:
            near.close()
            return
        self.others[near], self.others[far] = far, near
        # a frame and its WANT have 123 bytes
        self.left[near] = self.left[far] = [self.seeded.randrange(1, 5000)]

    def carry(self, stream, other):
        left = self.left[stream]
        try:
            piece = stream.recv(left[0])
            other.sendall(piece)
        except OSError:
            piece = b""
        left[0] -= len(piece)
        if piece == b"" or left[0] == 0:
            self.count += 1
            for one in (stream, other):
                del self.others[one], self.left[one]
                ended(one)


# ---- what a hostile member answers to those that dial it


def noise(seed, size):
    seeded = random.Random(seed)
    return bytes(seeded.randrange(256) for _ in range(size))


def closes(stream, own, peer):
    pass


def random_bytes(stream, own, peer):
    stream.sendall(noise(peer, 5000))


def frame_fault(stream, own, peer):
    stream.sendall(b"\x05")


def fault_behind_a_frame(stream, own, peer):
    stream.sendall(frame(SEND, own, peer, 0, owner=own, seq=9) + b"\x00\x36\x01\x05")


def cut_frame(stream, own, peer):
    stream.sendall(frame(SEND, own, peer, 0, owner=own, seq=9)[:30])


def wrong_tags(stream, own, peer):
    text = frame(SEND, own, peer, 0, owner=own, seq=9, key=bytes(32))
    stream.sendall(500 * text)


def out_of_turn(stream, own, peer):
    for seq, number in enumerate((1, 7, GREATEST), 10):
        stream.sendall(frame(SEND, own, peer, number, owner=own, seq=seq))


def wants_in_place_of_frames(stream, own, peer):
    stream.sendall(100 * frame(WANT, own, peer, 0))


def other_members_frames(stream, own, peer):
    other = next(it for it in range(own) if it != peer)
    stream.sendall(frame(SEND, other, peer, 0, owner=other, key=bytes(32)) + frame(SEND, own, other, 0, owner=own))


def flood_of_repeats(stream, own, peer):
    """The first frame over and over, to a reader whose WANTs nobody reads."""
    poured(stream, 50_000 * frame(SEND, own, peer, 0, owner=own, seq=9))


def byte_by_byte(stream, own, peer):
    for byte in frame(SEND, own, peer, 0, owner=own, seq=9):
        stream.sendall(bytes([byte]))


def silence(stream, own, peer):
    """Half a frame, and nothing after it for as long as the other stays."""
    stream.sendall(frame(SEND, own, peer, 0, owner=own, seq=9)[: HEAD.size + 5])
    while stream.recv(4096):
        pass


HOSTILE = (
    closes,
    random_bytes,
    frame_fault,
    fault_behind_a_frame,
    cut_frame,
    wrong_tags,
    out_of_turn,
    wants_in_place_of_frames,
    other_members_frames,
    flood_of_repeats,
    byte_by_byte,
    silence,
)


class Hostile(Server):
    """A member that answers the first connection of each other with the first of these ways, and so on; with the
    last one for good."""

    def __init__(self, own, port, ways=HOSTILE):
        super().__init__(own, port)
        self.ways = ways
        self.met = {}

    def meet(self, stream, peer, _):
        turn = self.met.get(peer, 0)
        self.met[peer] = turn + 1
        self.ways[min(turn, len(self.ways) - 1)](stream, self.own, peer)

    def all_met(self, peers):
        return all(self.met.get(peer, 0) >= len(self.ways) for peer in peers)


# ---- those who dial a node


class Strangers:
    """Connections to a node by a hostile member, all held open until the end."""

    def __init__(self, own, peer, port):
        self.own = own
        self.peer = peer
        self.port = port
        self.streams = []

    def __enter__(self):
        return self

    def __exit__(self, *_):
        for stream in self.streams:
            stream.close()

    def dial(self):
        self.streams.append(connected(self.port))
        return self.streams[-1]

    def want(self, number, key=None):
        return frame(WANT, self.own, self.peer, number, key=key)

    def say(self, text):
        """Says something, to a node that may end the connection meanwhile."""
        try:
            self.dial().sendall(text)
        except (BrokenPipeError, ConnectionResetError):
            pass

    def say_all(self):
        """One connection for each thing that is out of place."""
        for text in (
            b"",
            noise(self.peer, 5000),
            b"\x05",
            self.want(0)[:30],
            self.want(0) + b"\x00\x36\x01\x05",
            500 * self.want(0, key=bytes(32)),
            frame(SEND, self.own, self.peer, 0, owner=self.own, seq=9),
            frame(WANT, self.peer, self.own, 0),
            frame(WANT, self.own, self.own, 0),
            frame(WANT, 65535, self.peer, 0, key=bytes(32)),
            frame(WANT, self.peer, self.peer, 0, key=bytes(32)),
        ):
            self.say(text)

    def crowd(self, count):
        """So many connections at once, with half a WANT, a whole one, or nothing."""
        for place in range(count):
            self.say((b"", self.want(0)[:20], self.want(0))[place % 3])

    def wait_for_ever(self, count):
        """So many connections on which a frame is wanted that never comes."""
        for _ in range(count):
            self.say(self.want(GREATEST) + self.want(0))

    def flood(self, count):
        """WANTs of the first frame, of which no answer is read, as many as go out."""
        try:
            poured(self.dial(), count * self.want(0))
        except (BrokenPipeError, ConnectionResetError):
            pass


class Replays(Running):
    """Connections to a node by somebody without a key, who plays back what was recorded: so many a second, one text on
    each in turn, held open as long as the node lets them."""

    # more than stand at a node at once
    MOST = 300

    def __init__(self, texts, port, a_second):
        super().__init__()
        self.texts = texts
        self.port = port
        self.pause = 1 / a_second

    def run(self):
        streams, due = collections.deque(), time.monotonic()
        while not self.is_over.wait(max(0, due - time.monotonic())):
            due += self.pause
            # (a node may end one, or end itself)
            with contextlib.suppress(OSError):
                streams.append(connected(self.port))
                streams[-1].sendall(self.texts[self.count % len(self.texts)])
            self.count += 1
            if len(streams) > self.MOST:
                streams.popleft().close()
        for stream in streams:
            stream.close()
