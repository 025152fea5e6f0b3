"""Payments and notes in values, read by hand as docs/formats.md has them. It shares no code with the crates."""

from __future__ import annotations

import unicodedata
from typing import Any

MOST_PAYMENTS, MOST_NOTE = 32, 1000


def pairs_in(value: bytes) -> list[tuple[int, int]] | None:
    """Returns payee and amount of each payment that a value's bytes say, or None where they say none."""
    if value[:1] == b"\x01" and len(value) == 11:
        body = value[1:]
    elif value[:1] == b"\x02" and len(value) > 1 and 1 <= value[1] <= MOST_PAYMENTS and len(value) == 2 + 10 * value[1]:
        body = value[2:]
    else:
        return None
    pairs = [body[at : at + 10] for at in range(0, len(body), 10)]
    return [(int.from_bytes(pair[:2], "big"), int.from_bytes(pair[2:], "big")) for pair in pairs]


def note_in(value: bytes) -> str | None:
    """Returns the text of a note, where the value is one, or None."""
    try:
        text = value[1:].decode()
    except UnicodeDecodeError:
        return None
    is_note = value[:1] == b"\x03" and 1 < len(value) <= 1 + MOST_NOTE
    return text if is_note and not any(unicodedata.category(it) == "Cc" for it in text) else None


def entries(value: bytes, owner: int, members: int) -> list[tuple[int, int] | None]:
    """Returns the entries of a value: payee and amount of each, or None where it moves nothing."""
    pairs = pairs_in(value)
    if pairs is None:
        return [None]
    return [None if payee >= members or payee == owner or not amount else (payee, amount) for payee, amount in pairs]


def numbered_entries(given: dict[str, Any], owner: int) -> list[tuple[int, tuple[int, int] | None]]:
    """Returns an owner's entries in an export, each with the number of its value."""
    values = [bytes.fromhex(text) for text in given["lists"][owner]]
    return [(seq, it) for seq, value in enumerate(values) for it in entries(value, owner, given["members"])]
