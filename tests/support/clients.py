"""Clients of a node's socket, for the black-box tests."""

import os
import socket

from support.nodes import PATIENCE
from support.runs import same


class Client:
    """A connection to a node's socket, of which nothing is said that didn't come."""

    def __init__(self, path):
        self.stream = socket.socket(socket.AF_UNIX)
        self.stream.settimeout(PATIENCE)
        self.stream.connect(path)
        self.held = b""

    def write(self, text):
        self.stream.sendall(text.encode())

    def line(self):
        while b"\n" not in self.held:
            piece = self.stream.recv(65536)
            if not piece:
                raise AssertionError(f"the node ended the connection behind {self.held!r}")
            self.held += piece
        line, _, self.held = self.held.partition(b"\n")
        return line.decode()

    def ask(self, line):
        self.write(f"{line}\n")
        return self.line()

    def rest(self):
        """Ends the sending half; all that still comes, up to the end."""
        self.stream.shutdown(socket.SHUT_WR)
        pieces = [self.held]
        while piece := self.stream.recv(65536):
            pieces.append(piece)
        return b"".join(pieces).decode()

    def is_silent(self, seconds):
        """Whether nothing comes for so long."""
        self.stream.settimeout(seconds)
        try:
            same(self.stream.recv(1) == b"", False, "whether the node ended the connection")
            return False
        except (socket.timeout, BlockingIOError):
            return True
        finally:
            self.stream.settimeout(PATIENCE)

    def is_ended(self):
        """Whether the node ended the connection, and nothing comes before that."""
        return self.stream.recv(1) == b""

    def close(self):
        self.stream.close()


def socket_of(group, own):
    return os.path.join(group.place.name, f"data-{own}", "desk")
