"""When a node saw entries settle, by the file `times` in its folder.

Each line has the time in UTC and the front of each account then, as `2026-11-29T13:20:09Z 3 0 1 0`. The node appends
one whenever fronts have changed, at most one a second. So an entry settled by the time of the first line whose front is
past it, and since the line before.

A line that is cut, damaged or lost only makes times later. A clock that went back by at most an hour is read as not
earlier than the line before. One that went back further shows that it was wrong: the lines before it that are later are
of a wrong clock, and what settled by them is dated by the next line that isn't, which is unsure. If the clock comes
back to where it was after fewer lines than those, it was wrong meanwhile: then the lines between are the wrong ones.
"""

from __future__ import annotations

import bisect

import contextlib
import datetime
import os
import re

TIMES = "times"
LINE = re.compile(rb"([0-9]{4}-[0-9]{2}-[0-9]{2}T[0-9]{2}:[0-9]{2}:[0-9]{2}Z)((?: (?:0|[1-9][0-9]{0,9}))+)")


# How far a clock may go back and be right, how far it may go ahead without a question, and how long one is asked.
STEP, FAR, DAY = datetime.timedelta(hours=1), datetime.timedelta(days=366), datetime.timedelta(days=1)


class Times:
    """The times of all accounts' entries, as far as lines tell."""

    def __init__(self) -> None:
        # of each account the fronts that rose, and the lines by which they had; each line's moment; and the lines that
        # are of no wrong clock
        self.rises, self.moments, self.right = [], [], []
        # the lines that the last step back showed to be wrong, and the first line behind it
        self.wrong, self.first = [], 0

    @property
    def latest(self) -> datetime.datetime | None:
        """Returns the moment of the last line, if there is one."""
        return self.moments[-1] if self.moments else None

    def take(self, line: bytes) -> None:
        """Takes the next line, without its line feed. One that isn't whole says nothing."""
        parts = LINE.fullmatch(line)
        if parts is None:
            return
        try:
            moment = datetime.datetime.strptime(parts[1].decode(), "%Y-%m-%dT%H:%M:%SZ")
        except ValueError:
            return
        self.add(moment.replace(tzinfo=datetime.timezone.utc))
        for account, word in enumerate(parts[2].split()):
            if account == len(self.rises):
                self.rises.append([])
            rises = self.rises[account]
            if int(word) > (rises[-1][0] if rises else 0):
                rises.append((int(word), len(self.moments) - 1))

    def add(self, moment: datetime.datetime) -> None:
        """Adds a line's moment, and finds which lines are of a wrong clock by it."""
        wrong = []
        while self.right and self.moments[self.right[-1]] > moment + STEP:
            wrong.append(self.right.pop())
        if wrong:
            self.wrong, self.first = wrong[::-1], len(self.moments)
        elif self.wrong and moment >= self.moments[self.wrong[-1]]:
            between = len(self.right) - bisect.bisect_left(self.right, self.first)
            if between < len(self.wrong):
                self.right[len(self.right) - between :] = self.wrong
            self.wrong = []
        if self.right:
            moment = max(moment, self.moments[self.right[-1]])
        self.right.append(len(self.moments))
        self.moments.append(moment)

    def when(self, account: int, index: int) -> datetime.datetime | None:
        """Returns the moment by which this entry of an account, counted from 0, had settled, or None if no line
        tells."""
        line = self.line_of(account, index)
        if line is None:
            return None
        place = bisect.bisect_left(self.right, line)
        return self.moments[self.right[place] if place < len(self.right) else line]

    def is_sure(self, account: int, index: int) -> bool:
        """Returns whether the line that tells of an entry is of no wrong clock, as far as is known."""
        line = self.line_of(account, index)
        place = bisect.bisect_left(self.right, line or 0)
        return line is None or self.right[place : place + 1] == [line]

    def doubt(self, now: datetime.datetime) -> str | None:
        """Returns what is doubtful of a clock that says this, against the last line; or of one that the node had within
        a day, as at a start, against the line before; or None."""
        if self.latest is None:
            return None
        if not now - FAR <= self.latest <= now + STEP:
            where = "ahead of" if self.latest < now else "behind"
            return doubtful("is", now, f"{where} the last time in the folder,", self.latest)
        if self.wrong and self.moments[self.first] > now - DAY:
            return doubtful("went", self.moments[self.first], "back from", self.moments[self.wrong[-1]])
        for line, after in zip(self.right[-2::-1], self.right[:0:-1]):
            if self.moments[after] < now - DAY:
                return None
            if self.moments[after] - self.moments[line] > FAR:
                return doubtful("went", self.moments[after], "ahead of", self.moments[line])
        return None

    def line_of(self, account: int, index: int) -> int | None:
        """Returns the first line whose front is past an entry, or None."""
        if not 0 <= account < len(self.rises):
            return None
        rises = self.rises[account]
        first, end = 0, len(rises)
        while first < end:
            middle = (first + end) // 2
            if rises[middle][0] > index:
                end = middle
            else:
                first = middle + 1
        return rises[first][1] if first < len(rises) else None


def doubtful(verb: str, moment: datetime.datetime, where: str, other: datetime.datetime) -> str:
    days = abs(moment - other).days
    return f"the clock {verb} {days} days {where} {text_of(other)}: is it right?"


class TimesFile:
    """The times in a file to which a node may go on to append."""

    def __init__(self, path: str) -> None:
        self.path, self.times, self.end = path, Times(), 0

    def read(self) -> Times:
        """Returns the times by all whole lines that the file has now. What was read before isn't read again."""
        with open(self.path, "rb") as file:
            if os.fstat(file.fileno()).st_size < self.end:
                # (it is another one)
                self.times, self.end = Times(), 0
            file.seek(self.end)
            for line in file:
                if not line.endswith(b"\n"):
                    break
                self.end += len(line)
                self.times.take(line[:-1])
        return self.times

    def known(self) -> Times:
        """Returns the times of the file, or those that were read before if it can't be read."""
        with contextlib.suppress(OSError):
            self.read()
        return self.times


def read_times(path: str) -> Times:
    """Returns the times in this file. Errors of the system are OSError."""
    return TimesFile(path).read()


def times_path(folder: str) -> str:
    return os.path.join(folder, TIMES)


def text_of(moment: datetime.datetime | None) -> str | None:
    """Returns a moment in words, as `2026-11-29T13:20:09Z`, or None where there is none."""
    return None if moment is None else moment.strftime("%Y-%m-%dT%H:%M:%SZ")
