"""A slow model of a member's log: what its file begins with, its chunks and its records, by hand.

It shares no code with the crates. What a record says is played by the model of a member (model.py).
"""

from __future__ import annotations

import hashlib
import hmac
import struct
from typing import Any, Iterable, Iterator

from payd_tools.frames import frame, read_frame, test_key
from payd_tools.model import Member

MAGIC, VERSION = b"payd log", 4
HEADER_LEN, MARK_LEN, PLACE_LEN, LENGTH_LEN, SUM_LEN = 75, 8, 8, 4, 32
MOST_PAYLOAD = 1 << 24
ASK, QUERY, FRAME = 1, 3, 4
# What a frame's record has between its reply and its value: sender, number, kind, owner, seq and the value's length.
FIELDS = struct.Struct(">HQBHIH")


class Fault(Exception):
    """Why no node starts with a log, in the words of the program."""


def genesis_bytes(genesis: dict[str, Any]) -> bytes:
    opening = genesis["opening"]
    return struct.pack(f">HH{len(opening)}Q", genesis["members"], genesis["faults"], *opening)


class Log:
    """The log of a member with the test keys, or with these."""

    def __init__(self, genesis: dict[str, Any], own: int, keys: list[bytes] | None = None) -> None:
        self.genesis = genesis
        self.own = own
        members = genesis["members"]
        self.keys = keys or [bytes(32) if peer == own else test_key(own, peer) for peer in range(members)]
        self.key = hmac.digest(b"".join(self.keys), b"payd log 1", hashlib.sha256)
        self.mark = hmac.digest(self.key, b"payd log mark", hashlib.sha256)[:MARK_LEN]

    def header(self) -> bytes:
        genesis = hashlib.sha256(genesis_bytes(self.genesis)).digest()
        fingerprint = hmac.digest(self.key, b"payd log keys 4", hashlib.sha256)
        return MAGIC + bytes([VERSION]) + genesis + struct.pack(">H", self.own) + fingerprint

    def chunk(self, place: int, payload: bytes) -> bytes:
        text = self.mark + struct.pack(">QI", place, len(payload)) + payload
        return text + hmac.digest(self.key, struct.pack(">Q", place) + text, hashlib.sha256)

    def file(self, payloads: Iterable[bytes]) -> bytes:
        """Returns the log of these payloads."""
        chunks = b""
        for payload in payloads:
            chunks += self.chunk(len(chunks), payload)
        return self.header() + chunks

    # ---- reading

    def judge(self, file: bytes) -> None:
        """Refuses a file that doesn't begin with this log's header."""
        if len(file) < HEADER_LEN:
            raise Fault("3 Foreign NoLog")
        parts = ("NoLog", 0, 8), ("Version", 8, 9), ("Genesis", 9, 41), ("Member", 41, 43), ("Keys", 43, 75)
        for name, start, end in parts:
            if file[start:end] != self.header()[start:end]:
                raise Fault(f"3 Foreign {name}")

    def payload(self, chunks: bytes, at: int, place: int) -> bytes | None:
        """Returns the payload of the chunk for a place whose bytes stand there, if they do."""
        start = at + MARK_LEN + PLACE_LEN + LENGTH_LEN
        length = int.from_bytes(chunks[start - LENGTH_LEN : start], "big")
        if length > MOST_PAYLOAD or len(chunks) < start + length + SUM_LEN:
            return None
        payload = chunks[start : start + length]
        return payload if chunks.startswith(self.chunk(place, payload), at) else None

    def payloads(self, file: bytes) -> tuple[list[bytes], int]:
        """Returns all payloads, and how many bytes stand up to the last chunk's end."""
        self.judge(file)
        chunks, place, found = file[HEADER_LEN:], 0, []
        while (payload := self.payload(chunks, place, place)) is not None:
            found.append(payload)
            place += len(self.chunk(place, payload))
        if any(self.stands(chunks, at) for at in places(chunks, self.mark, place)):
            raise Fault(f"4 Damaged {len(found)}")
        return found, HEADER_LEN + place

    def stands(self, chunks: bytes, at: int | None) -> bool:
        """Returns whether a chunk stands there, made for whatever place it says."""
        place = int.from_bytes(chunks[at + MARK_LEN : at + MARK_LEN + PLACE_LEN], "big")
        return self.payload(chunks, at, place) is not None

    def ends(self, file: bytes) -> list[int]:
        """Returns the lengths of the file up to the end of its header and of each chunk."""
        lengths = [HEADER_LEN]
        for payload in self.payloads(file)[0]:
            lengths.append(lengths[-1] + len(self.chunk(0, payload)))
        return lengths

    # ---- records

    def records(self, file: bytes) -> list[tuple]:
        return [record for payload in self.payloads(file)[0] for record in self.records_in(payload)]

    def records_in(self, payload: bytes) -> Iterator[tuple]:
        """Yields kind, stamp, event and reply of each record of a payload; a frame has its tag there."""
        place = 0
        while place < len(payload):
            kind, stamp = struct.unpack_from(">BH", payload, place)
            place += 3
            if kind == ASK:
                order, seq, length = struct.unpack_from(">QIH", payload, place)
                value = payload[place + 14 : place + 14 + length]
                place += 14 + length
                yield kind, stamp, (order, value), seq
            elif kind == FRAME:
                reply = struct.unpack_from(">BI", payload, place)
                stream, place = self.frame_at(payload, place + 5)
                yield kind, stamp, stream, reply
            elif kind == QUERY:
                yield kind, stamp, *struct.unpack_from(">HQII", payload, place)
                place += 18
            else:
                raise AssertionError(f"no record of the kind {kind}")

    def frame_at(self, payload: bytes, start: int) -> tuple[bytes, int]:
        """Returns the frame of a record, from there on, and where it ends. What doesn't stand there follows from the
        keys."""
        sender, number, vote, owner, seq, length = FIELDS.unpack_from(payload, start)
        end = start + FIELDS.size + length
        value = payload[start + FIELDS.size : end]
        return frame(vote, sender, self.own, number, owner, seq, value, self.keys[sender]), end

    def member(self, file: bytes) -> tuple[Member, list]:
        """Returns the member that the log is of, and the ids of its asks."""
        member = Member(self.genesis["members"], self.genesis["faults"], self.own, self.genesis["opening"])
        orders = []
        for kind, _, what, *_ in self.records(file):
            if kind == ASK:
                orders.append(what[0])
                member.history.append(("ask", what[1]))
            elif kind == FRAME:
                _, sender, _, _, (vote, owner, seq, value), _ = read_frame(what)
                member.history.append(("from", sender, vote, owner, seq, value))
        return member, orders


def places(text: bytes, part: bytes, start: int) -> Iterator[int | None]:
    """Yields the places from one on at which a part stands."""
    while (start := text.find(part, start)) >= 0:
        yield start
        start += 1
