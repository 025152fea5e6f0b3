"""Sessions of one node with its peers, byte by byte, written by hand from the pages in docs/.

Each row is a group, the member that runs, how many frames it asks for ahead, and steps: a line to the desk with its
answer; a connection that the node dials, once its challenge is answered, or that a member dials; bytes that the member
writes on it, with the frames that the node then writes; who ends it. What a member says stands beside it as a frame of
the right tag.
"""

from payd_tools.frames import CHALLENGE, CLAIM, ECHO, READY, SEND, STRIDE, WANT, frame, payment

OPENING = [100, 0, 0, 50]
# the payments of member 0, each with its line, and a value that moves nothing
VALUES = [payment(1, 30), payment(2, 5)]
LINES = ["PAY 7 1 30", "PAY 8 2 5"]
ANSWERS = ["asked 7 seq 0", "asked 8 seq 1"]
OTHER = bytes(32)


def want(sender, receiver, number, **more):
    return frame(WANT, sender, receiver, number, **more)


def sent(number, to=3, seq=None):
    """Frame `number` of member 0 while it meets nobody: SEND and ECHO of each payment in turn."""
    seq = number // 2 if seq is None else seq
    return frame([SEND, ECHO][number % 2], 0, to, number, seq=seq, value=VALUES[seq])


def echo(number, seq, sender=1, receiver=0):
    """Frame `number` of a member: an ECHO about account 2, of no value."""
    return frame(ECHO, sender, receiver, number, owner=2, seq=seq)


def line(place):
    return {"line": LINES[place], "answer": ANSWERS[place]}


def says(*frames, answered=()):
    return {"write": b"".join(frames).hex(), "read": [it.hex() for it in answered]}


def row(what, ahead, *steps):
    return {"for": what, "opening": OPENING, "own": 0, "ahead": ahead, "steps": list(steps)}


DIALED, DIALS, ENDED, ENDS = {"dialed": 1}, {"dials": 3}, {"end": "node"}, {"end": "member"}
FIRST = says(answered=[want(0, 1, 0)])
# with four frames ahead, or more
FIRST_FOUR = says(answered=[want(0, 1, it) for it in range(4)])

ROWS = [
    # what a node asks of a member that it dialed
    row("a node asks the member that it dialed for its first four frames", 64, DIALED, FIRST_FOUR),
    row("or for as many as it asks for ahead", 3, DIALED, says(answered=[want(0, 1, it) for it in range(3)])),
    row(
        "with one frame ahead, each that comes has the next asked for", 1, DIALED, FIRST,
        *(says(echo(it, it), answered=[want(0, 1, it + 1)]) for it in range(3)),
    ),
    row(
        "each frame that comes lets one more be under way", 64, DIALED, FIRST_FOUR,
        *(says(echo(it, it), answered=[want(0, 1, 2 * it + 4), want(0, 1, 2 * it + 5)]) for it in range(4)),
    ),
    row(
        "never more are under way than it asks for ahead", 6, DIALED, FIRST_FOUR,
        says(echo(0, 0), answered=[want(0, 1, 4), want(0, 1, 5)]),
        says(echo(1, 1), answered=[want(0, 1, 6), want(0, 1, 7)]),
        says(echo(2, 2), answered=[want(0, 1, 8)]),
        says(echo(3, 3), answered=[want(0, 1, 9)]),
    ),
    row(
        "a new connection goes on with the frame that is next", 1, DIALED, FIRST,
        *(says(echo(it, it), answered=[want(0, 1, it + 1)]) for it in range(3)),
        ENDS, DIALED,
        says(answered=[want(0, 1, 3)]),
        says(echo(3, 3), answered=[want(0, 1, 4)]),
    ),
    row(
        "with more ahead it begins with the next four", 64, DIALED, FIRST_FOUR,
        *(says(echo(it, it), answered=[want(0, 1, 2 * it + 4), want(0, 1, 2 * it + 5)]) for it in range(6)),
        ENDS, DIALED,
        says(answered=[want(0, 1, it) for it in range(6, 10)]),
        says(echo(6, 6), answered=[want(0, 1, 10), want(0, 1, 11)]),
    ),
    row("a frame that wasn't asked for next ends it", 64, DIALED, FIRST_FOUR, says(echo(1, 1)), ENDED),
    row(
        "so does one that came before", 64, DIALED, FIRST_FOUR,
        says(echo(0, 0), answered=[want(0, 1, 4), want(0, 1, 5)]),
        says(echo(0, 0)),
        ENDED,
    ),
    row("and one in another member's name", 64, DIALED, FIRST_FOUR, says(echo(0, 0, sender=2)), ENDED),
    row("and bytes that no frame begins with", 64, DIALED, FIRST_FOUR, says(b"\0\0"), ENDED),
    row(
        "a frame that doesn't open is passed over, and the one asked for may still come", 1, DIALED, FIRST,
        says(frame(ECHO, 1, 0, 0, owner=2, key=OTHER), echo(0, 0), answered=[want(0, 1, 1)]),
    ),
    row(
        "a frame is taken of whomever it tells: votes of two members, and a READY", 1, DIALED, FIRST,
        says(frame(READY, 1, 0, 0, owner=3, seq=65535), answered=[want(0, 1, 1)]),
    ),
    # what it answers to a member that dialed it
    row(
        "what stands in its outbound list is answered at once, in the order of the WANTs", 64, line(0), line(1),
        DIALS,
        says(want(3, 0, 0), answered=[sent(0)]),
        says(*(want(3, 0, it) for it in (3, 1, 1, 2)), answered=[sent(it) for it in (3, 1, 1, 2)]),
    ),
    row(
        "a WANT beyond the end waits, and those after it wait with it", 64, line(0), DIALS,
        says(want(3, 0, 0), want(3, 0, 2), want(3, 0, 1), answered=[sent(0)]),
        line(1),
        says(answered=[sent(2), sent(1)]),
    ),
    row(
        "frames that are no WANT, or are for another member, have no answer", 64, line(0), DIALS,
        says(echo(0, 0, sender=3), want(2, 1, 0), want(3, 0, 1), answered=[sent(1)]),
    ),
    row(
        "a frame with another tag than its sender's key gives ends it, behind what was asked for before", 64, line(0),
        DIALS,
        says(want(3, 0, 0), want(3, 0, 1, key=OTHER), want(3, 0, 1), answered=[sent(0)]),
        ENDED,
    ),
    row(
        "a WANT is answered to its sender, whoever asked first on the connection", 64, line(0), DIALS,
        says(want(3, 0, 0), want(2, 0, 1), answered=[sent(0), sent(1, to=2)]),
    ),
    row(
        "a challenge is answered by the claim on its nonce, from the least to the greatest", 64, line(0), DIALS,
        *(
            says(want(3, 0, CHALLENGE + it * STRIDE), answered=[want(0, 3, CLAIM + it * STRIDE)])
            for it in (0, 5, 2**37 - 1)
        ),
        says(want(3, 0, 1), answered=[sent(1)]),
    ),
    row(
        "a claim says how many frames the node took", 64, DIALED, FIRST_FOUR,
        says(echo(0, 0), answered=[want(0, 1, 4), want(0, 1, 5)]),
        DIALS,
        says(want(1, 0, CHALLENGE + STRIDE), answered=[want(0, 1, CLAIM + STRIDE + 1)]),
    ),
    row(
        "a WANT of another number from 2^63 on has no answer", 64, line(0), DIALS,
        says(*(want(3, 0, it) for it in (CHALLENGE + 1, CLAIM, 2**64 - 1)), want(3, 0, 1), answered=[sent(1)]),
    ),
    row("bytes that no frame begins with end it", 64, DIALS, says(want(3, 0, 0)[:2] + b"\2"), ENDED),
    row(
        "several connections of one member stand beside each other", 64, line(0), DIALS,
        says(want(3, 0, 0), answered=[sent(0)]),
        DIALS,
        says(want(3, 0, 0), answered=[sent(0)]),
        DIALS,
        says(want(3, 0, 0), answered=[sent(0)]),
        {"connection": 0},
        says(want(3, 0, 1), answered=[sent(1)]),
    ),
]
