"""Black-box tests of scripts that `payd sim` plays."""

import os

from models.scripts import FOUR_ONE_LIAR, LONG, WORKED, script_of, world_of
from payd_tools.model import MOST_MEMBERS, play
from support.runs import TOP, read_bytes, read_text, run, same, shows

LIMIT = 1_000_000


def sim(script, of):
    """A script that is played prints what the model prints, and nothing on standard error."""
    text, status = play(script)
    shows(run(["sim"], script), status, text, of=of)


def text_of(lines):
    return "".join(f"{line}\n" for line in lines)


def test_long_scripts_are_played():
    for name, world, commands, lines, status in LONG:
        shows(run(["sim"], script_of(world, commands)), status, text_of(lines), of=name)


def test_model_plays_worked_scripts():
    for name, world, commands, lines, status in WORKED:
        same(play(script_of(world, commands)), (text_of(lines), status), name)


def test_examples_of_scripts():
    for name, status in (("honest-day", 0), ("split-votes", 1), ("circular-debts", 0), ("double-spend", 0)):
        lines = read_bytes(os.path.join(TOP, "examples", f"{name}.txt"))
        text = read_text(os.path.join(TOP, "examples", f"{name}-answers.txt"))
        shows(run(["sim"], lines), status, text, of=name)
        same(play(lines), (text, status), f"the model of {name}")


def voted(commands, last):
    """These frames, of which the last makes something known."""
    return [(it, "took") for it in commands[:-1]] + [(it, f"took {last}") for it in commands[-1:]]


def thresholds(members, faults):
    """A payment of member 0, of whose votes one after the other is brought, and what comes of each.

    The last member takes only the READYs of others, and the ECHOs that come before these, and so is READY by them.
    """
    quorum, settles = (members + faults) // 2 + 1, "deliver settle 1"
    others = range(1, members - 1)
    yield "ask 0 1 5", "asked 0 seq 0"
    for member in others:
        yield f"bring 0 {member} 0", "took echo"
    # with its own ECHO a quorum; with its own READY as many as deliver, where nobody lies
    quorum_said = "ready" if faults else f"ready {settles}"
    yield from voted([f"bring {it} 0 0" for it in others[: quorum - 1]], quorum_said)
    senders = others[: max(2 * faults, 1)]
    for member in senders:
        echoes = [f"bring {it} {member} {0 if it else 1}" for it in (0, *others) if it != member]
        yield from voted(echoes[: quorum - 1], quorum_said)
    for heard, member in enumerate(senders, 1):
        amplified, delivered = heard == faults + 1, heard == len(senders)
        yield f"bring {member} {members - 1} 0", "took"
        said = ["took", *["ready"] * amplified, *[settles] * delivered]
        yield f"bring {member} {members - 1} 1", " ".join(said)


def test_thresholds_of_each_size():
    """A quorum of ECHOs, more than f READYs and more than 2f of them, in groups of each size."""
    for members in range(3, MOST_MEMBERS + 1):
        most = (members - 1) // 3
        for faults in range(most + 1) if members < 20 else (0, most):
            commands, lines = zip(*thresholds(members, faults))
            world = world_of(faults, 5, *[0] * (members - 1))
            shows(run(["sim"], script_of(world, commands)), 0, text_of(lines), of=f"{members} members, {faults} liars")


def test_lines_of_the_bound():
    # JSON takes blanks after the group, so that its line can be of any length
    for size in (4095, 4096, 4097, 8192, 70000):
        sim(FOUR_ONE_LIAR.encode().ljust(size) + b"\nshow\n", of=f"a first line of {size} bytes")
        for line in (b"raw 0 " + b"00" * 4096, b"show", b""):
            sim(FOUR_ONE_LIAR.encode() + b"\n" + line[:size].ljust(size, b"0"), of=f"a line of {size} bytes")


def test_no_more_than_a_million_events():
    script = script_of(FOUR_ONE_LIAR, ["raw 9 -"] * LIMIT + ["show", "bring 0 1 0", "", "all"])
    shown = text_of(f"member {it} fronts 0 0 0 0 balances 100 0 0 50" for it in range(3))
    text = LIMIT * "ignored\n" + shown + "absent\nbrought 0\nconverged\n"
    shows(run(["sim"], script), 0, text, of="a million events")
    for line, last, status in (
        ("raw 9 -", "limit", 3),
        ("lie 0 1 next send 0 0 -", "limit", 3),
        ("ask 0 1 30", "limit", 3),
        ("raw 9", f"bad line {LIMIT + 6}", 2),
    ):
        shows(run(["sim"], script + f"{line}\n".encode()), status, f"{text}{last}\n", of=line)


def test_all_that_meets_the_limit():
    script = script_of(FOUR_ONE_LIAR, ["ask 0 1 30", *["raw 9 -"] * (LIMIT - 14), "all", "show"])
    text = text_of(["asked 0 seq 0", *["ignored"] * (LIMIT - 14), "limit"])
    shows(run(["sim"], script), 3, text, of="a frame too many")
    script = script_of(FOUR_ONE_LIAR, ["ask 0 1 30", *["raw 9 -"] * (LIMIT - 15), "all"])
    text = text_of(["asked 0 seq 0", *["ignored"] * (LIMIT - 15), "brought 14", "converged"])
    shows(run(["sim"], script), 0, text, of="just as many frames")
