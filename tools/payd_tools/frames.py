"""Frames encoded by hand: the frame table, the test keys and RFC 2104 as Python's own hmac has it.

It shares no code with the crates, so that examples, the benchmark and the black-box tests speak for themselves.
"""

from __future__ import annotations

import hashlib
import hmac
import struct
from typing import Sequence

SEND, ECHO, READY, WANT = 1, 2, 3, 4

HEAD = struct.Struct(">HBBHHQHIH")


def test_key(one: int, other: int) -> bytes:
    """Returns the openly known key of a pair of members: 30 zeros, the lesser number, the greater."""
    return bytes(30) + bytes([min(one, other), max(one, other)])


def frame(
    kind: int,
    sender: int,
    receiver: int,
    number: int,
    owner: int = 0,
    seq: int = 0,
    value: bytes = b"",
    key: bytes | None = None,
) -> bytes:
    """Returns the bytes of a frame, rightly tagged under this key, or the test key of its sender and receiver."""
    text = HEAD.pack(54 + len(value), 1, kind, sender, receiver, number, owner, seq, len(value)) + value
    return text + hmac.digest(key or test_key(sender, receiver), text, hashlib.sha256)


# The numbers of WANTs that ask for no frame: from these on, one stride for each nonce.
CHALLENGE, CLAIM, STRIDE = 2**63, 3 * 2**62, 2**25


def is_challenge(number: int) -> bool:
    """Returns whether the number of a WANT is a challenge's."""
    return CHALLENGE <= number < CLAIM and (number - CHALLENGE) % STRIDE == 0


def claim_on(challenge: int, taken: int) -> int:
    """Returns the number of the claim on a challenge by a member that took so many of the challenger's frames."""
    return CLAIM + (challenge - CHALLENGE) + min(taken, STRIDE - 1)


def payment(payee: int, amount: int) -> bytes:
    """Returns a payment value of one payment."""
    return struct.pack(">BHQ", 1, payee, amount)


def payments(pairs: Sequence[tuple[int, int]]) -> bytes:
    """Returns a payment value of several payments, 1 to 32 of them, each a payee and an amount."""
    return bytes([2, len(pairs)]) + b"".join(struct.pack(">HQ", payee, amount) for payee, amount in pairs)


def fault_at(place: int, byte: int, head: bytes) -> str | None:
    """Returns why no frame has this byte at this place after these bytes, if none has."""
    length = int.from_bytes(head[:2], "big")
    is_want = head[3:4] == bytes([WANT])
    if place == 0:
        return None if byte <= 4 else "1 BadLength"
    if place == 1:
        return None if 54 <= 256 * head[0] + byte <= 1078 else "1 BadLength"
    if place == 2:
        return None if byte == 1 else "2 BadVersion"
    if place == 3:
        if not SEND <= byte <= WANT:
            return "3 BadKind"
        return "6 BadWant" if byte == WANT and length != 54 else None
    if 16 <= place <= 21 and is_want:
        return None if byte == 0 else "6 BadWant"
    if place in (18, 19):
        return None if byte == 0 else "5 BadSeq"
    if place in (22, 23):
        return None if byte == (length - 54).to_bytes(2, "big")[place - 22] else "4 BadValueLength"
    return None


def fault_in_head(stream: bytes) -> str | None:
    """Returns number and name of the first fault of a head, or nothing."""
    head = stream[: HEAD.size]
    return next((it for it in (fault_at(place, byte, head[:place]) for place, byte in enumerate(head)) if it), None)


def read_frame(stream: bytes) -> str | tuple[int, int, int, int, tuple[int, int, int, bytes], bool]:
    """Returns number and name of the fault of bytes that should be one frame; else kind, sender, receiver, number, the
    body (kind, owner, seq, value), and whether the tag is right under the test key."""
    fault = fault_in_head(stream)
    if fault:
        return fault
    size = 2 + int.from_bytes(stream[:2], "big")
    if len(stream) < HEAD.size or len(stream) < size:
        return "7 Truncated"
    if len(stream) > size:
        return "8 Trailing"
    _, _, kind, sender, receiver, number, owner, seq, _ = HEAD.unpack_from(stream)
    value = stream[HEAD.size : size - 32]
    known = max(sender, receiver) < 256
    is_right = known and frame(kind, sender, receiver, number, owner, seq, value) == stream
    return kind, sender, receiver, number, (kind, owner, seq, value), is_right
