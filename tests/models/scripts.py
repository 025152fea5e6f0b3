"""Scripts of `payd sim`: worked examples with the text that each must print, and random ones for the model."""

import json
import random

from payd_tools.frames import payment, payments

FOUR_ONE_LIAR = '{"faults":1,"liars":[3],"members":4,"opening":[100,0,0,50]}'
SEVEN_TWO_LIARS = '{"faults":2,"liars":[5,6],"members":7,"opening":[7,0,0,0,0,9,0]}'
ALONE = '{"faults":0,"liars":[],"members":1,"opening":[7]}'

A = payment(payee=1, amount=5).hex()
B = payment(payee=2, amount=5).hex()

# Several payments: of account 3 to itself the second is void.
FIVE_AND_VOID = payments([(1, 5), (3, 1)]).hex()
ONE_OF_SEVERAL = payments([(1, 5)]).hex()


def world_of(faults, *opening):
    """The line of a world in which nobody lies."""
    return json.dumps({"faults": faults, "liars": [], "members": len(opening), "opening": opening})


def four_honest(*opening):
    return world_of(1, *opening)


def worked(name, world, commands, lines, status=0):
    """A row: a name, the world's line, the commands, the lines that are printed, and the status. A text may have
    several commands or lines, with '; ' between them."""
    parts = ([it] if isinstance(it, str) else it for it in (commands, lines))
    return name, world, *([it for text in texts for it in text.split("; ")] for texts in parts), status


def shown(members, front, balances):
    return [f"member {it} fronts {front} balances {balances}" for it in range(members)]


# The group of the most members, with so many liars, who stay silent, and what it shows where one payment settled.
LARGEST = 128
LARGEST_FAULTS = 42


def largest(liars):
    opening = [5] + [0] * (LARGEST - 1)
    last = list(range(LARGEST - liars, LARGEST))
    return json.dumps({"faults": LARGEST_FAULTS, "liars": last, "members": LARGEST, "opening": opening})


def largest_shown(correct):
    nothing = " 0" * (LARGEST - 2)
    return shown(correct, f"1 0{nothing}", f"0 5{nothing}")


# Scripts that are too long for the model, as those below.
LONG = [
    worked(
        "largest group", largest(0),
        "ask 0 1 5; all; show",
        ["asked 0 seq 0; brought 32639; converged", *largest_shown(LARGEST)],
    ),
    worked(
        "largest group without its liars", largest(LARGEST_FAULTS),
        "ask 0 1 5; all; show",
        ["asked 0 seq 0; brought 14705; converged", *largest_shown(LARGEST - LARGEST_FAULTS)],
    ),
]

WORKED = [
    worked(
        "plain payment", FOUR_ONE_LIAR,
        "ask 0 1 30; all; show",
        ["asked 0 seq 0; brought 14; converged", *shown(3, "1 0 0 0", "70 30 0 50")],
    ),
    worked(
        "split vote stalls", FOUR_ONE_LIAR,
        f"lie 3 0 next send 3 0 {A}; lie 3 1 next send 3 0 {B}; all; show",
        ["took echo; took echo; brought 4; converged", *shown(3, "0 0 0 0", "100 0 0 50")],
    ),
    worked(
        "split vote settles", FOUR_ONE_LIAR,
        [
            f"lie 3 0 next send 3 0 {A}; lie 3 1 next send 3 0 {A}; lie 3 2 next send 3 0 {B}",
            f"lie 3 0 next echo 3 0 {A}; lie 3 1 next ready 3 0 {A}; all; show",
        ],
        [*["took echo"] * 3, *["took"] * 2, "brought 12; converged", *shown(3, "0 0 0 1", "100 5 0 45")],
    ),
    worked(
        "second votes count for nothing", FOUR_ONE_LIAR,
        [
            f"lie 3 0 next send 3 0 {A}; lie 3 1 next send 3 0 {B}",
            *(f"lie 3 0 next {kind} 3 0 {value}" for kind in ("echo", "ready") for value in (B, A)),
            f"lie 3 2 next send 3 0 {A}; lie 3 2 next echo 3 0 {A}; all; show",
        ],
        [
            *["took echo"] * 2, *["took"] * 4, "took echo; took; brought 8; converged",
            *shown(3, "0 0 0 0", "100 0 0 50"),
        ],
    ),
    worked(
        "circular debts", four_honest(0, 0, 0, 50),
        "ask 0 1 10; ask 1 0 10; all; show; ask 3 0 10; all; show",
        [
            "asked 0 seq 0; asked 1 seq 0; brought 54; converged", *shown(4, "0 0 0 0", "0 0 0 50"),
            "asked 3 seq 0; brought 27; converged", *shown(4, "1 1 0 1", "10 0 0 40"),
        ],
    ),
    worked(
        "uncovered payment waits", four_honest(100, 0, 0, 50),
        "ask 0 1 150; ask 0 1 10; all; show; ask 3 0 50; all; show",
        [
            "asked 0 seq 0; asked 0 seq 1; brought 54; converged", *shown(4, "0 0 0 0", "100 0 0 50"),
            "asked 3 seq 0; brought 27; converged", *shown(4, "1 0 0 1", "0 150 0 0"),
        ],
    ),
    worked(
        "gaps, repeats, absences", FOUR_ONE_LIAR,
        "ask 0 1 30; ask 0 2 10; bring 0 1 0; bring 0 1 0; bring 0 1 2; bring 0 1 1; bring 0 1 4",
        [
            "asked 0 seq 0; asked 0 seq 1; took echo; refused link 5 Repeat next 1; refused link 6 Gap next 1; took",
            "absent",
        ],
    ),
    worked(
        "a forged frame", FOUR_ONE_LIAR,
        f"raw 1 0036010100000001{'00' * 48}; lie 0 0 0 send 0 0 -; lie 0 1 next send 0 0 -",
        "refused link 4 BadTag; refused link 2 UnknownSender; forged 2",
        1,
    ),
    worked(
        "what a correct member said isn't forged", FOUR_ONE_LIAR,
        "ask 0 1 30; lie 0 1 next send 0 0 010001000000000000001e",
        "asked 0 seq 0; took echo",
    ),
    *(
        worked(
            f"a void entry of {size} bytes passes", FOUR_ONE_LIAR,
            [
                *(f"lie 3 {it} next send 3 0 {'ff' * size}" for it in range(3)),
                *(f"lie 3 {it} next send 3 1 {A}" for it in range(3)), "all; show",
            ],
            [*["took echo"] * 6, "brought 24; converged", *shown(3, "0 0 0 2", "100 5 0 45")],
        )
        for size in (1, 1024)
    ),
    worked(
        "one member alone", ALONE,
        "ask 0 0 5; show; all",
        "asked 0 seq 0; member 0 fronts 1 balances 7; brought 0; converged",
    ),
    worked(
        "more than anyone has", FOUR_ONE_LIAR,
        "ask 0 1 18446744073709551615; ask 0 1 1; all; show",
        ["asked 0 seq 0; asked 0 seq 1; brought 28; converged", *shown(3, "0 0 0 0", "100 0 0 50")],
    ),
    worked(
        "all that there is", four_honest(9223372036854775807, 0, 0, 0),
        "ask 0 1 9223372036854775807; all; show",
        ["asked 0 seq 0; brought 27; converged", *shown(4, "1 0 0 0", "0 9223372036854775807 0 0")],
    ),
    worked(
        "four payments in one", FOUR_ONE_LIAR,
        "asks 0 1 30 2 50 1 40 2 20; all; show; ask 1 0 30; all; show",
        [
            "asked 0 seq 0; brought 14; converged", *shown(3, "2 0 0 0", "20 30 50 50"),
            "asked 1 seq 0; brought 14; converged", *shown(3, "3 1 0 0", "10 40 50 50"),
        ],
    ),
    *(
        worked(
            f"{name} of account 3", FOUR_ONE_LIAR,
            [*(f"lie 3 {it} next send 3 0 {value}" for it in range(3)), "all; show"],
            [*["took echo"] * 3, "brought 12; converged", *shown(3, front, balances)],
        )
        for name, value, front, balances in (
            ("a void pair", FIVE_AND_VOID, "0 0 0 2", "100 5 0 45"),
            ("no pairs", "0200", "0 0 0 1", "100 0 0 50"),
            ("one pair", ONE_OF_SEVERAL, "0 0 0 1", "100 5 0 45"),
            ("a byte less", ONE_OF_SEVERAL[:-2], "0 0 0 1", "100 0 0 50"),
            ("a byte more", ONE_OF_SEVERAL + "00", "0 0 0 1", "100 0 0 50"),
            ("a pair less than it says", "0202" + ONE_OF_SEVERAL[4:], "0 0 0 1", "100 0 0 50"),
            ("a pair more than it says", "0201" + 2 * ONE_OF_SEVERAL[4:], "0 0 0 1", "100 0 0 50"),
            ("32 pairs", payments(32 * [(1, 1)]).hex(), "0 0 0 32", "100 32 0 18"),
            ("33 pairs", payments(33 * [(1, 1)]).hex(), "0 0 0 1", "100 0 0 50"),
            ("void pairs alone", payments([(3, 1), (4, 1), (1, 0)]).hex(), "0 0 0 3", "100 0 0 50"),
            ("of which one waits", payments([(1, 5), (1, 46), (1, 1)]).hex(), "0 0 0 1", "100 5 0 45"),
        )
    ),
    worked(
        "32 payments and a value of one", FOUR_ONE_LIAR,
        f"asks 0 {' '.join(32 * ['1 3'])}; asks 1 2 96; ask 0 2 4; all; show",
        ["asked 0 seq 0; asked 1 seq 0; asked 0 seq 1; brought 42; converged", *shown(3, "33 1 0 0", "0 0 100 50")],
    ),
    worked(
        "several asked of one that lies, and of nobody", FOUR_ONE_LIAR,
        "asks 3 1 5; asks 4 1 5; asks 127 65535 0 0 18446744073709551615",
        3 * ["ignored"],
    ),
    worked(
        "hostile frames", FOUR_ONE_LIAR,
        [
            f"lie 3 0 18446744073709551615 send 3 0 {A}; raw 0 -; raw 0 05; raw 0 0036010100000001{'00' * 49}",
            f"raw 9 -; lie 3 0 0 want 0 0 -; lie 3 0 next send 1 0 {A}; lie 3 0 next ready 3 65535 {A}",
        ],
        [
            "refused link 6 Gap next 0; refused frame 7 Truncated; refused frame 1 BadLength",
            "refused frame 8 Trailing; ignored; wanted 3 0; took; took",
        ],
    ),
    worked(
        "READYs of liars alone", SEVEN_TWO_LIARS,
        [*(f"lie {liar} {it} next ready 5 0 {A}" for it in range(5) for liar in (5, 6)), "all; show"],
        [*["took"] * 10, "brought 0; converged", *shown(5, "0 0 0 0 0 0 0", "7 0 0 0 0 9 0")],
    ),
    worked(
        "one READY makes the next", SEVEN_TWO_LIARS,
        [
            *(f"lie 5 {it} next send 5 0 {A}" for it in range(3)), *(f"lie 5 {it} next send 5 0 {B}" for it in (3, 4)),
            *(f"lie {liar} 0 next echo 5 0 {A}" for liar in (5, 6)),
            *(f"lie {liar} 1 next ready 5 0 {A}" for liar in (5, 6)), f"lie 5 2 next ready 5 0 {A}; all; show",
        ],
        [*["took echo"] * 5, *["took"] * 5, "brought 40; converged", *shown(5, "0 0 0 0 0 1 0", "7 5 0 0 0 4 0")],
    ),
    worked("no such command", FOUR_ONE_LIAR, "fly", "bad line 2", 2),
    worked("an empty line", FOUR_ONE_LIAR, "; show", shown(3, "0 0 0 0", "100 0 0 50")),
    worked("no script", "", [], "bad line 1", 2),
    *(
        worked(f"no world: {wrong}", world, "show", "bad line 1", 2)
        for wrong, world in (
            ("it ends inside", "{"),
            ("a list", "[]"),
            ("liars are left out", '{"faults":1,"members":4,"opening":[1,2,3,4]}'),
            ("a liar that is no member", '{"faults":1,"liars":[4],"members":4,"opening":[1,2,3,4]}'),
            ("a liar twice", '{"faults":2,"liars":[1,1],"members":7,"opening":[1,2,3,4,5,6,7]}'),
            ("more liars than faults", '{"faults":1,"liars":[1,2],"members":4,"opening":[1,2,3,4]}'),
            ("six of whom two may lie", '{"faults":2,"liars":[],"members":6,"opening":[1,2,3,4,5,6]}'),
            ("an opening too few", '{"faults":1,"liars":[],"members":4,"opening":[1,2,3]}'),
            ("a number with a point", '{"faults":1,"liars":[],"members":4.0,"opening":[1,2,3,4]}'),
            ("129 members", '{"faults":0,"liars":[],"members":129,"opening":[' + ",".join(["0"] * 129) + "]}"),
            ("openings of 2^63 together", '{"faults":0,"liars":[],"members":2,"opening":[9223372036854775807,1]}'),
        )
    ),
    *(
        worked(f"bad command: {command}", FOUR_ONE_LIAR, ["ask 0 1 30", command], "asked 0 seq 0; bad line 3", 2)
        for command in (
            "ask 0 1", "ask 0 1 30 ", " ask 0 1 30", "ask  0 1 30", "ask 0 1 030", "ask 0 1 +3", "ask 128 1 30",
            "ask 0 65536 30", "ask 0 1 18446744073709551616", "ASK 0 1 30", "asks", "asks 0", "asks 0 ", "asks 0 1",
            "asks 0 1 ", "asks 0 1 30 ", "asks 0 1 30 2", "asks 0 1 30 2 050", "asks 0 1 30 65536 50",
            "asks 0 1 18446744073709551616", "asks 128 1 30", "asks 0  1 30", f"asks 0 {' '.join(33 * ['1 1'])}",
            "ASKS 0 1 30", "bring 0 1", "bring 0 1 next", "raw 0", "raw 0 ", "raw 0 0", "raw 0 0g",
            "lie 3 0 next send 3 65536 -", "lie 3 0 next sent 3 0 -", "lie 3 0 next want 0 0 00",
            "lie 3 0 next want 1 0 -", f"lie 3 0 next send 3 0 {'00' * 1025}", "all 1", "show\r", "\r",
            "show" + " " * 4093,
        )
    ),
]


def script_of(world, commands):
    return "".join(f"{line}\n" for line in [world, *commands]).encode() if world or commands else b""


class RandomScripts:
    """Scripts of small groups, in which some members lie in every way that a script can."""

    def __init__(self, seed):
        self.random = random.Random(seed)

    def world(self):
        faults = self.random.choice([0, 1, 1, 1, 2])
        members = self.random.randint(3 * faults + 1, 3 * faults + 3)
        liars = self.random.sample(range(members), self.random.randint(0, faults))
        opening = [self.random.choice([0, 0, 7, 20, 100]) for _ in range(members)]
        self.members, self.liars = members, liars
        return json.dumps({"opening": opening, "members": members, "liars": liars, "faults": faults})

    def member(self):
        return self.random.randrange(self.members + (self.random.random() < 0.05))

    def value(self):
        if self.random.random() < 0.15:
            texts = ["-", "ff", "0100", "02" * 12, "0200", ONE_OF_SEVERAL[:-2], ONE_OF_SEVERAL + "00"]
            return self.random.choice(texts)
        if self.random.random() < 0.3:
            return payments(self.pairs()).hex()
        return payment(self.random.randrange(3), self.random.choice([1, 5, 9, 30])).hex()

    def pairs(self):
        count = self.random.choice([1, 2, 2, 3, 5])
        return [(self.member(), self.random.choice([0, 1, 5, 20, 60])) for _ in range(count)]

    def lie(self):
        sender = self.random.choice(self.liars) if self.liars and self.random.random() < 0.97 else self.member()
        number = "next" if self.random.random() < 0.9 else self.random.randrange(4)
        kind = self.random.choice(["send", "send", "echo", "echo", "ready", "ready", "want"])
        if kind == "want":
            return f"lie {sender} {self.member()} {number} want 0 0 -"
        owner = sender if kind == "send" and self.random.random() < 0.8 else self.member()
        return f"lie {sender} {self.member()} {number} {kind} {owner} {self.random.randrange(2)} {self.value()}"

    def command(self):
        chance = self.random.random()
        if chance < 0.08:
            return f"asks {self.member()} {' '.join(f'{payee} {amount}' for payee, amount in self.pairs())}"
        if chance < 0.25:
            return f"ask {self.member()} {self.member()} {self.random.choice([0, 1, 5, 20, 60, 200])}"
        if chance < 0.55:
            return f"bring {self.member()} {self.member()} {self.random.randrange(6)}"
        if chance < 0.9 and self.liars:
            return self.lie()
        if chance < 0.94:
            return f"raw {self.member()} {self.random.choice(['-', '05', '0036', '00'])}"
        return self.random.choice(["show", "all", ""])

    def script(self):
        world = self.world()
        commands = [self.command() for _ in range(self.random.randint(1, 25))]
        return script_of(world, [*commands, "all", "show"])
