"""In which order a node wrote its log, had it synced, and let out what follows from it, by the notes of hostile.c.

What is demanded here is what a power cut needs: nothing leaves the node before the bytes of its log that hold it are
synced, and the log's name too, in its folder, and that of the folder.
"""

import os
import re
from collections import Counter

from payd_tools.frames import WANT, read_frame
from payd_tools.logs import ASK, QUERY

ASKED = re.compile(rb"asked \d+ seq (\d+)")


class OutOfOrder(AssertionError):
    """Something left a node before all that it follows from was on the disk."""


def noted(text):
    """(word, number, place, bytes) of each note."""
    while text:
        line, _, text = text.partition(b"\n")
        word, number, place, size = line.split()
        yield word.decode(), int(number), int(place), text[: int(size)]
        text = text[int(size) :]


def needs(log, file):
    """How many bytes of a log each answer to a payment needs, by its seq, and each frame, by its number."""
    answers, frames = [], []
    member, _ = log.member(file)
    history, member.history = member.history, []
    payloads, _ = log.payloads(file)
    for payload, end in zip(payloads, log.ends(file)[1:]):
        for kind, *_ in log.records_in(payload):
            if kind != QUERY:
                member.history.append(history[len(member.history)])
                frames += [end] * (len(member.sent()) - len(frames))
            if kind == ASK:
                answers.append(end)
    return answers, frames


class Order:
    """What a node whose folder this is did so far, and how much of it left the node rightly."""

    def __init__(self, folder, log, file):
        self.parents = {os.stat(it).st_ino for it in (folder, os.path.dirname(folder))}
        self.answers, self.frames = needs(log, file)
        self.log = None
        self.unnamed = set(self.parents)
        self.written = Counter()
        self.synced = Counter()
        self.syncing = {}
        self.held = {}
        self.left = Counter()

    def judge(self, notes):
        for word, number, place, text in notes:
            getattr(self, f"take_{word}")(number, place, text)
        return self

    def take_placed(self, file, end, _):
        # (a file that gets shorter is another one under an old number)
        if end <= self.written[file]:
            self.synced[file] = 0
        self.written[file] = end

    def take_syncing(self, file, thread, _):
        self.syncing[thread] = self.written[file]

    def take_synced(self, file, thread, _):
        self.synced[file] = max(self.synced[file], self.syncing[thread])
        self.unnamed.discard(file)

    def take_named(self, file, _, name):
        if self.synced[file] < self.written[file] or not self.written[file]:
            raise OutOfOrder(f"{name} has a name, and {self.synced[file]} of {self.written[file]} bytes are synced")
        self.log, self.unnamed = file, set(self.parents)

    def take_told(self, _, __, text):
        """Answers of the desk, as whole lines."""
        *lines, self.held[None] = (self.held.get(None, b"") + text).split(b"\n")
        for line in lines:
            found = ASKED.match(line)
            if found:
                self.leave(line, self.answers[int(found[1])])

    def take_sent(self, stream, _, text):
        """Frames, of which a part may be left for the next sending."""
        text = self.held.pop(stream, b"") + text
        while len(text) >= 2 and len(text) >= 2 + int.from_bytes(text[:2], "big"):
            frame, text = text[: 2 + int.from_bytes(text[:2], "big")], text[2 + int.from_bytes(text[:2], "big") :]
            kind, sender, _, number, *_ = read_frame(frame)
            if kind != WANT:
                self.leave(f"frame {number} of {sender}", self.frames[number])
        self.held[stream] = text

    def leave(self, what, end):
        if self.unnamed:
            raise OutOfOrder(f"{what} leaves before the log's name is synced")
        if self.synced[self.log] < end:
            raise OutOfOrder(f"{what} leaves with {self.synced[self.log]} of {end} bytes synced")
        self.left["frames" if isinstance(what, str) else "answers"] += 1
