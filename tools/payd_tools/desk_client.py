"""A client of a node's desk: its lines and answers on the socket `desk` in the folder of a member.

It stands alone, to be copied into an application. A line that was written and not answered may be given again: queries
change nothing, and a payment under the same id is made once.
"""

from __future__ import annotations

import os
import socket
import struct
import time
from typing import Iterator

# How long an answer may take.
SECONDS = 20
# How a node refuses a payment before enough of its peers were heard, and after how long it is given again.
EARLY, PAUSE = "refused 6 TooEarly", 0.1
# Lines that are written at once: their bytes fit between the two, whatever the answers are.
AT_ONCE = 64
# What the kernel tells of the process that listens: its number, its user and its group.
CREDENTIALS = struct.Struct("3i")
# Those whose answer has several lines: they end with `end`, or the answer is a refusal.
OF_SEVERAL = ("STATEMENT", "ENTRIES", "WAITING")


class NoAnswer(Exception):
    """Why a line has no answer."""


def place() -> str:
    """Returns the folder of the member where none is named."""
    return os.environ.get("PAYD_DATA") or "member"


def socket_in(folder: str) -> str:
    return os.path.join(folder, "desk")


class Desk:
    """The desk behind a socket. It is dialed at the first question, and again once a connection has ended."""

    def __init__(self, path: str, seconds: int = SECONDS) -> None:
        self.path, self.seconds = path, seconds
        self.stream = self.lines = None
        self.has_paid = False

    def ask(self, line: str) -> list[str]:
        """Returns the lines that answer this one."""
        return self.ask_all([line])[0]

    def pay(self, line: str) -> list[str]:
        """Returns the lines that answer this one, which is given again while it comes too early after its node's start,
        for as long as an answer may take."""
        deadline = time.monotonic() + self.seconds
        while (answer := self.ask(line)) == [EARLY] and time.monotonic() < deadline:
            time.sleep(PAUSE)
        return answer

    def ask_in_turn(self, lines: list[str]) -> Iterator[list[str] | None]:
        """Yields the lines that answer each of these. Each waits for the answer before it until a payment was taken,
        since a payment may come too early."""
        at = 0
        while at < len(lines) and not self.has_paid:
            answer = self.pay(lines[at])
            self.has_paid = answer[0].startswith("asked ")
            at += 1
            yield answer
        for first in range(at, len(lines), AT_ONCE):
            yield from self.ask_all(lines[first : first + AT_ONCE])

    def ask_all(self, lines: list[str]) -> list[list[str]]:
        """Returns the lines that answer each of these, a hundred or so. They are written at once."""
        if self.stream is not None:
            try:
                return self.exchange(lines)
            except NoAnswer as why:
                # (else the node ended it, or another node is there by now)
                if isinstance(why.__cause__, socket.timeout):
                    raise
        self.dial()
        return self.exchange(lines)

    def dial(self) -> None:
        try:
            self.stream = socket.socket(socket.AF_UNIX)
            self.stream.settimeout(self.seconds)
            self.stream.connect(self.path)
        except OSError as error:
            self.close()
            raise NoAnswer(f"nobody listens at {self.path} ({error.strerror or error})") from error
        self.lines = self.stream.makefile("r", encoding="utf-8", newline="\n")

    def process(self) -> int | None:
        """Returns the number of the process that listens, where a connection stands."""
        known = self.stream and self.stream.getsockopt(socket.SOL_SOCKET, socket.SO_PEERCRED, CREDENTIALS.size)
        return known and CREDENTIALS.unpack(known)[0]

    def exchange(self, lines: list[str]) -> list[list[str]]:
        try:
            self.stream.sendall("".join(f"{it}\n" for it in lines).encode(errors="surrogateescape"))
            return [self.answer(it) for it in lines]
        except OSError as error:
            self.close()
            raise NoAnswer(f"the node at {self.path} doesn't answer ({error.strerror or error})") from error

    def answer(self, line: str) -> list[str]:
        answer = [self.read()]
        if line.split(" ")[0] in OF_SEVERAL and not answer[0].startswith("refused "):
            while not answer[-1].startswith("end "):
                answer.append(self.read())
        return answer

    def read(self) -> str:
        line = self.lines.readline()
        if not line.endswith("\n"):
            raise ConnectionError("it ended the connection")
        return line[:-1]

    def close(self) -> None:
        if self.stream is not None:
            self.stream.close()
        self.stream = self.lines = None
