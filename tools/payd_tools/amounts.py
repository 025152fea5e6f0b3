"""Amounts as people read and write them: the one place that makes text of an amount and an amount of text.

Formats, exports and the lines of a desk have whole numbers, and so has every script. A group may give them a unit: of
`EUR` with two decimals the amount 1250 is `12.50 EUR`. Without one an amount is a whole number.
"""

from __future__ import annotations

import re
import unicodedata
from typing import Iterator

# As the desk takes them: 64 bits.
BOUND = 1 << 64
# A unit's name begins with a capital, since some words in small letters are ledger's own, and has letters alone.
NAME, MOST_DECIMALS = re.compile("[A-Z][A-Za-z]{1,31}", re.ASCII), 18
WHOLE = "(0|[1-9][0-9]{0,19})"
# Digits in groups of three. With one point alone they may be a number of too many decimals.
GROUPED = re.compile("[0-9]{1,3}([,.'])[0-9]{3}(?:\\1[0-9]{3})*(?:[,.][0-9]*)?")
NOT_GROUPED = re.compile("[0-9]*[.][0-9]*")


class NoAmount(ValueError):
    """Why a text is no amount, or these are no unit, and what would do."""


class Unit:
    """The unit of a group's amounts, and how many of their digits stand behind the point."""

    def __init__(self, name: str = "", decimals: int = 0) -> None:
        if not (NAME.fullmatch(name) or name == "" and decimals == 0) or not 0 <= decimals <= MOST_DECIMALS:
            raise NoAmount(f"a unit is a capital and letters behind it, with 0 to {MOST_DECIMALS} decimals")
        self.name, self.decimals = name, decimals
        behind = f"(?:\\.([0-9]{{1,{decimals}}}))?" if decimals else "()"
        self.pattern = re.compile(WHOLE + behind, re.ASCII)

    def parts(self) -> dict[str, str | int]:
        """Returns what a group's file says of it: nothing of none."""
        return {"unit": self.name, "decimals": self.decimals} if self.name else {}

    def called(self) -> str:
        return f"{self.name} with {self.decimals} decimals" if self.name else "none"

    # ---- an amount as text

    def digits(self, amount: int) -> str:
        """Returns the digits of an amount, with its point, as `12.50`."""
        text = f"{abs(amount):0{self.decimals + 1}}"
        at = len(text) - self.decimals
        return f"{'-' if amount < 0 else ''}{text[:at]}{'.' if self.decimals else ''}{text[at:]}"

    def text(self, amount: int) -> str:
        """Returns an amount with its unit, as `12.50 EUR`."""
        return f"{self.digits(amount)} {self.name}".rstrip()

    # ---- a text as amount

    def read(self, text: str, least: int = 0) -> int:
        """Returns the amount that a text says, from the least on, in digits with a point before the decimals, as `12`,
        `12.5` or `12.50`; NoAmount where it says none."""
        amount = self.find(text)
        if amount is None:
            raise NoAmount(f"{text}: {self.wanted(least)}: {self.advice(text)}")
        if amount < least:
            raise NoAmount(f"{text}: {self.wanted(least)}")
        return amount

    def find(self, text: str) -> int | None:
        found = self.pattern.fullmatch(text) if isinstance(text, str) else None
        if found is None:
            return None
        amount = int(found[1] + (found[2] or "").ljust(self.decimals, "0"))
        return amount if amount < BOUND else None

    def wanted(self, least: int) -> str:
        digits = f"digits, with at most {self.decimals} behind a point," if self.decimals else "a whole number"
        return f"an amount is {digits} from {self.digits(least)}"

    def advice(self, text: str) -> str:
        """Returns what would do in place of a text that says no amount: what it may mean, or an example."""
        meant = dict.fromkeys(self.digits(it) for it in map(self.find, readings(text)) if it is not None)
        return f"write {' or '.join(meant)}" if meant else f"write digits, as {self.digits(1000 * 10**self.decimals)}"


def readings(text: str) -> Iterator[str]:
    """Yields the texts of plain digits that one may mean, in which digits are grouped, or a comma stands for the point,
    or a sign or a currency stands beside them."""
    plain = "".join(f"{unicodedata.decimal(it, it)}" for it in text)
    plain = re.sub("[\\s_\u2019']", lambda it: "'" if it[0] in "\u2019'" else "", plain)
    plain = re.sub("^[^0-9.,-]*\\+?|[^0-9]*$", "", plain)
    grouped = GROUPED.fullmatch(plain)
    if grouped and not NOT_GROUPED.fullmatch(plain):
        yield without_zeros(plain.replace(grouped[1], "").replace(",", "."))
    yield without_zeros(plain.replace(",", "."))


def without_zeros(text: str) -> str:
    return re.sub("^0+(?=[0-9])", "", re.sub("^(?=[.])", "0", text))
