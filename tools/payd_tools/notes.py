"""Notes of payments: what an owner says of its own payment, as `seq S TEXT` with the payment's number."""

from __future__ import annotations

import re
import unicodedata
from typing import Any, Iterable, Iterator

# A line of 1,024 bytes has room for so many of a note, behind its id and `seq S`.
MOST_BYTES = 989
OF_PAYMENT = re.compile("seq (0|[1-9][0-9]{0,4}) (.+)", re.DOTALL)


class NoNote(ValueError):
    """Why a text is no note."""


def check(text: str) -> None:
    try:
        size = len(text.encode())
    except UnicodeEncodeError:
        size = 0
    if not 0 < size <= MOST_BYTES or any(unicodedata.category(it) == "Cc" for it in text):
        raise NoNote(f"a note is a text of at most {MOST_BYTES} bytes in UTF-8, without control characters")


def line_of(order: int | str, seq: int | str, text: str) -> str:
    """Returns the desk's line that says this of the payment under a number."""
    return f"NOTE {order} seq {seq} {text}"


def of_payment(seq: int, text: str | None) -> tuple[int, str] | None:
    """Returns the number of an earlier payment and what is said of it, by the note under this number, or None."""
    found = OF_PAYMENT.fullmatch(text or "")
    return (int(found[1]), found[2]) if found and int(found[1]) < seq else None


def paired(
    payments: set[tuple[int, int]], notes: Iterable[tuple[int, int, str]]
) -> dict[tuple[int, int], tuple[int, int, str]]:
    """Returns the first note of each payment, by its account and seq: the account and seq of the note, and its text.
    Payments are accounts and seqs, notes those with their texts, in the order in which they came."""
    found = {}
    for account, seq, text in notes:
        said = of_payment(seq, text)
        if said and (account, said[0]) in payments:
            found.setdefault((account, said[0]), (account, seq, said[1]))
    return found


def joined(entries: list[dict[str, Any]]) -> Iterator[dict[str, Any]]:
    """Yields entries as a desk's view has them, in which payments have their notes, and those notes no place of their
    own."""
    payments = {(it["account"], it["seq"]) for it in entries if it["to"] is not None}
    notes = sorted((it["account"], it["seq"], it["note"]) for it in entries if it["note"] is not None)
    found = paired(payments, notes)
    hidden = {it[:2] for it in found.values()}
    for it in entries:
        key = it["account"], it["seq"]
        if it["to"] is not None and key in found:
            yield {**it, "note": found[key][2]}
        elif key not in hidden:
            yield it
