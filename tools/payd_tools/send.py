"""Has a node that runs answer lines, for an account's owner.

usage: payd send [--data FOLDER | --socket PATH] [--timeout SECONDS] [--json] [LINE ..]

Input: lines as those of payd desk, each a word of the command line, or those on standard input. The node is named by
its folder, which is $PAYD_DATA or else ./member, or by the socket on which it listens.

Output: the answers, in order, each once it is there; with --json each is one object in a line of its own. When a
payment is refused, standard error names its ID, and of another line its number: payd send: refused 7: 4 IdUsed.

Status: 0 if no line was refused, 1 if one was; 2 for words that can't be read; 3 if nobody listens there or the socket
is another user's, if the node ends before it answers or a line has no answer after 10 seconds (--timeout), or if a read
or a write fails. A line that wasn't answered may be given again: under its ID it pays once.

Example: payd send --data member 'PAY 7 1 30' FRONT
"""

from __future__ import annotations

import json
import os
import re
import sys
from typing import Iterator

from payd_tools import usage
from payd_tools.desk_client import Desk, NoAnswer, place, socket_in
from payd_tools.desk_json import object_of

CONTROL, PAYMENT = re.compile("[\0-\x1f\x7f]"), re.compile("PAYS? ([0-9]+)( |$)")


def read_piece() -> bytes:
    with usage.at("standard input"):
        return os.read(sys.stdin.fileno(), 4096)


def batches(lines: list[str]) -> Iterator[list[str] | None]:
    """Yields these lines, or those of standard input, as many at a time as have come."""
    rest = b""
    while not lines and (piece := read_piece()):
        *whole, rest = (rest + piece).split(b"\n")
        yield [it.decode(errors="surrogateescape") for it in whole]
    yield lines or [rest.decode(errors="surrogateescape")] * bool(rest)


def send(desk: Desk, given: list[str], is_json: bool) -> int:
    desk.dial()
    count, status = 0, 0
    for lines in batches(given):
        for line, answer in zip(lines, desk.ask_in_turn(lines)):
            count += 1
            print(*([json.dumps(object_of(line, answer))] if is_json else answer), sep="\n", flush=True)
            if answer[0].startswith("refused "):
                paid, status = PAYMENT.match(line), 1
                usage.tell(f"refused {paid[1] if paid else f'line {count}'}: {answer[0][len('refused ') :]}")
    return status


@usage.tool(status=3)
def main() -> int:
    words = usage.parser(__doc__)
    seconds = usage.number(86_400, 1)
    words.add_argument("--timeout", metavar="SECONDS", type=seconds, default=10, help="how long it waits for an answer")
    words.add_argument("--json", action="store_true", help="prints an answer as one object of JSON")
    words.add_argument("lines", metavar="LINE", nargs="*", help="a line for the desk; without any they are read")
    node = words.add_mutually_exclusive_group()
    node.add_argument("--data", metavar="FOLDER", default=place(), help="the folder of the member")
    node.add_argument("--socket", metavar="PATH", help="its node's socket")
    given = words.parse_intermixed_args()
    if any(map(CONTROL.search, given.lines)):
        words.error("a LINE has no control character")
    try:
        return send(Desk(given.socket or socket_in(given.data), given.timeout), given.lines, given.json)
    except NoAnswer as why:
        raise usage.Failure(f"{why}; a line may be given again, for its ID pays once") from why
