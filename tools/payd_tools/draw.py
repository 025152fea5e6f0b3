"""Draws a script of `payd sim` as a picture: members as columns, time downwards, frames as arrows.

usage: payd draw SCRIPT > run.svg

A SEND is a full line, an ECHO is dashed and a READY dotted. An arrow begins where its frame was sent and ends where it
was taken; one that a liar sent begins at the liar's column. A dot is a member that is asked to pay, a ring a value
delivered, a square one or more payments settled, a cross what was refused. What is drawn is what the slow model of
the tests makes of the script; the program plays the same script, and nothing is drawn where its text is another.

Where a run ends before its script does, what was played is drawn. The line that ended it, as `bad line 3`, stands below
and on standard error, and the status is that of `payd sim`.
"""

from __future__ import annotations

import subprocess
from typing import Any
from xml.sax.saxutils import escape

from payd_tools import model, nearby_program, usage
from payd_tools.frames import ECHO, READY, SEND, read_frame
from payd_tools.usage import Failure
from payd_tools.values import pairs_in

COLUMN, ROW, TOP_SPACE, SIDE, LEGEND = 150, 16, 64, 70, 105
DASHES = {SEND: "", ECHO: "6 4", READY: "1.5 3.5"}
NAMES = {SEND: "SEND", ECHO: "ECHO", READY: "READY"}
MOST_EVENTS, MOST_LINES = 2_000, 20_000
# How many payments of one value are named.
NAMED = 3


class Recorded(model.World):
    """A world that notes each ask and each frame brought, in turn."""

    def __init__(self, text: str) -> None:
        super().__init__(text)
        # of each event its row, and of each correct member the row of each body that it sent
        self.drawn = []
        self.sent_at = {own: [] for own in self.members}

    def note_sent(self, row: int) -> None:
        for own, member in self.members.items():
            rows = self.sent_at[own]
            rows += [row] * (len(member.sent()) - len(rows))

    def check_room(self) -> None:
        """Refuses an event more than a picture holds, before the model plays it."""
        if len(self.drawn) == MOST_EVENTS:
            raise Failure(f"it has more than {MOST_EVENTS} events, and a picture holds no more: draw a part of it")

    def bring(self, receiver: int, stream: bytes) -> str:
        self.check_room()
        try:
            reply, end = super().bring(receiver, stream), None
        except model.Ended as ended:
            reply, end = ended.line, ended
        found = read_frame(stream)
        row = len(self.drawn)
        sender, kind, begun = None, None, row
        if not isinstance(found, str):
            kind, sender, _, number, _, _ = found
            rows = self.sent_at.get(sender, [])
            begun = rows[number] if number < len(rows) else row
        self.drawn.append(("frame", sender, receiver, kind, begun, reply))
        self.note_sent(row)
        if end is not None:
            raise end
        return reply

    def ask(self, member: int, value: bytes) -> list[str]:
        self.check_room()
        [reply] = super().ask(member, value)
        row = len(self.drawn)
        self.drawn.append(("ask", member, paid(pairs_in(value)), reply))
        self.note_sent(row)
        return [reply]


def paid(pairs: list[tuple[int, int]]) -> str:
    """Returns what a value of these payments pays, the first of them in words."""
    named = [f"{amount} to {payee}" for payee, amount in pairs[:NAMED]]
    more = [f"{len(pairs) - NAMED} more"] if len(pairs) > NAMED else []
    return f"pays {', '.join(named + more)}"


def played(script: bytes) -> tuple[Any, int, str]:
    """Returns the world after a script that the program and the model play alike, the run's status, and the line that
    ended it before the script's end, or nothing."""
    worlds, lines = [], script.count(b"\n")
    if lines > MOST_LINES:
        raise Failure(f"it has {lines} lines, and a picture holds {MOST_EVENTS} events: draw a part of it")

    class Kept(Recorded):
        def __init__(self, text: str) -> None:
            super().__init__(text)
            worlds.append(self)

    model.World, plain = Kept, model.World
    text, status = model.play(script)
    model.World = plain
    done = subprocess.run([nearby_program.program(), "sim"], input=script, capture_output=True, check=False)
    if (done.stdout.decode("ascii"), done.returncode) != (text, status):
        raise Failure("the model and the program don't play this script alike")
    if not worlds:
        raise Failure(text.strip())
    return worlds[0], status, text.splitlines()[-1] if status else ""


# ---- the picture


def line(x1: int, y1: float, x2: int, y2: int, extra: str = "") -> str:
    return f'<line x1="{x1:.1f}" y1="{y1:.1f}" x2="{x2:.1f}" y2="{y2:.1f}" {extra}/>'


def words(x: int, y: int, text: str, extra: str = "") -> str:
    return f'<text x="{x:.1f}" y="{y:.1f}" {extra}>{escape(text)}</text>'


def column(member: int) -> int:
    return SIDE + COLUMN * member


def height(row: int) -> int:
    return TOP_SPACE + ROW * (row + 1)


def arrow(sender: int, receiver: int, begun: int, row: int, kind: int) -> str:
    """Returns an arrow, from the sender's column where the frame was sent to the receiver's where it is taken."""
    dashes = f'stroke-dasharray="{DASHES[kind]}"' if DASHES[kind] else ""
    y = min(height(begun), height(row) - ROW / 2)
    return line(column(sender), y, column(receiver), height(row), f'{dashes} marker-end="url(#tip)"')


def cross(x: int, y: int) -> str:
    return line(x - 4, y - 4, x + 4, y + 4) + line(x - 4, y + 4, x + 4, y - 4)


def marks(receiver: int, row: int, reply: str) -> str:
    """Returns marks beside the receiver's column, which show what came of a frame."""
    x, y = column(receiver), height(row)
    told = reply.split(" ")
    if told[0] in ("refused", "ignored", "forged", "limit"):
        return cross(x, y) + words(x + 8, y + 4, " ".join(told[2:]) if told[0] == "refused" else reply)
    parts = []
    if "deliver" in told:
        parts.append(f'<circle cx="{x}" cy="{y:.1f}" r="7" fill="white"/>')
    if "settle" in told:
        parts.append(f'<rect x="{x - 3}" y="{y - 3:.1f}" width="6" height="6" fill="black"/>')
        parts.append(words(x + 10, y + 4, f"settles {told[-1]}"))
    return "".join(parts)


def asked(row: int, member: int, text: str, reply: str) -> str:
    """Returns the marks of a member that is asked to pay."""
    x, y, told = column(member), height(row), reply.split(" ")
    if told[0] != "asked":
        return cross(x, y) + words(x + 8, y - 3, f"{text}: {' '.join(told[2:] or told)}")
    return f'<circle cx="{x}" cy="{y:.1f}" r="3" fill="black"/>' + words(x + 8, y - 3, text, 'font-weight="bold"')


def event(row: int, drawn: tuple[str | int, ...], count: int) -> tuple[str, str]:
    """Returns what an event is drawn as: its arrow, which lies below all marks, and its marks."""
    kind_of, *told = drawn
    receiver, reply = told[0] if kind_of == "ask" else told[1], told[-1]
    if receiver >= count:
        return "", words(8, height(row) + 4, f"{receiver}: {reply}")
    if kind_of == "ask":
        return "", asked(row, *told)
    sender, receiver, kind, begun, reply = told
    is_arrow = kind in DASHES and sender < count and sender != receiver
    return arrow(sender, receiver, begun, row, kind) if is_arrow else "", marks(receiver, row, reply)


def legend() -> str:
    parts = []
    for place, kind in enumerate(DASHES):
        x = SIDE + LEGEND * place
        dashes = f'stroke-dasharray="{DASHES[kind]}"' if DASHES[kind] else ""
        parts.append(line(x, 14, x + 40, 14, f'{dashes} marker-end="url(#tip)"') + words(x + 48, 18, NAMES[kind]))
    x = SIDE + LEGEND * len(DASHES)
    parts.append(f'<circle cx="{x}" cy="14" r="3" fill="black"/>' + words(x + 8, 18, "asked"))
    parts.append(f'<circle cx="{x + 60}" cy="14" r="7" fill="white"/>' + words(x + 71, 18, "delivered"))
    parts.append(f'<rect x="{x + 136}" y="11" width="6" height="6" fill="black"/>' + words(x + 147, 18, "settled"))
    parts.append(cross(x + 204, 14) + words(x + 213, 18, "refused"))
    return "".join(parts)


def picture(world: Any, ended: str) -> str:
    """Returns the picture, with the line that ended the run below it, if there is one."""
    count, rows = world.count, len(world.drawn)
    width = max(2 * SIDE + COLUMN * (count - 1) + 150, SIDE + 640)
    end = height(rows) + ROW
    bottom = end + 10 + (ROW if ended else 0)
    parts = [
        f'<svg xmlns="http://www.w3.org/2000/svg" viewBox="0 0 {width} {bottom}" font-family="sans-serif"'
        ' font-size="11" stroke="black" fill="none">',
        f'<rect width="{width}" height="{bottom}" fill="white" stroke="none"/>',
        '<style>text{fill:black;stroke:white;stroke-width:3;paint-order:stroke}</style>',
        '<defs><marker id="tip" viewBox="0 0 8 8" refX="8" refY="4" markerWidth="7" markerHeight="7" orient="auto">'
        '<path d="M0 0L8 4L0 8z" fill="black" stroke="none"/></marker></defs>',
        legend(),
    ]
    for member in range(count):
        x, lies = column(member), member in world.liars
        name = f"member {member}" + (", lies" if lies else "")
        parts.append(words(x, 46, name, 'text-anchor="middle" font-weight="bold"'))
        dashes = ' stroke-dasharray="2 4"' if lies else ""
        parts.append(line(x, TOP_SPACE - 10, x, end, 'stroke-width="0.7"' + dashes))
    arrows, all_marks = zip(*(event(row, drawn, count) for row, drawn in enumerate(world.drawn))) if rows else ((), ())
    below = [words(8, end + ROW, ended, 'font-weight="bold"')] if ended else []
    return "\n".join([*parts, *filter(None, arrows), *filter(None, all_marks), *below, "</svg>"])


def draw(script: bytes) -> int:
    """Writes the picture; the status."""
    world, status, ended = played(script)
    drawn = picture(world, ended)
    if ended:
        usage.tell(ended)
    print(drawn, flush=True)
    return status


@usage.tool(unwritten=1)
def main() -> int:
    (name,) = usage.read_words(__doc__, lambda words: len(words) == 1 and usage.are_names(words))
    with open(name, "rb") as file:
        return draw(file.read())
