"""The pictures of payd draw: what is in them is counted."""

import os
import re
import subprocess
import tempfile
import xml.etree.ElementTree as xml

from support.runs import SECONDS, TOP, UNWRITTEN, read_text, run_to_nobody, same, write_text

DRAW = os.path.join(TOP, "tools", "draw")
EXAMPLES = os.path.join(TOP, "examples")
TIP = "url(#tip)"
KINDS = 3


# The status of a script's run, and the line that ends it, where that isn't its last command's.
ENDS = {"split-votes": (1, "forged 17")}


def drawn(script, status=0, ended=None):
    """The picture of a script; a run that ends before it says so, and so does its picture."""
    done = subprocess.run([DRAW, script], capture_output=True, text=True, timeout=SECONDS)
    same((done.returncode, done.stderr), (status, f"payd draw: {ended}\n" if ended else ""), f"a picture of {script}")
    picture = xml.fromstring(done.stdout)
    if ended:
        same([it.text for it in picture.iter() if it.text][-1], ended, f"the last words of {script}")
    return picture


def drawn_lines(lines, *end):
    """The same of a script of these lines."""
    with tempfile.TemporaryDirectory() as folder:
        script = os.path.join(folder, "script")
        write_text(script, "".join(f"{line}\n" for line in lines))
        return drawn(script, *end)


def test_pictures_of_the_examples():
    """An arrow for each frame that was brought, and one for each kind in the legend."""
    for name in ("circular-debts", "honest-day", "split-votes"):
        picture = drawn(os.path.join(EXAMPLES, f"{name}.txt"), *ENDS.get(name, ()))
        alone = len(re.findall("^(?:lie|bring) ", read_text(os.path.join(EXAMPLES, f"{name}.txt")), re.MULTILINE))
        with open(os.path.join(EXAMPLES, f"{name}-answers.txt"), encoding="ascii") as answers:
            brought = sum(map(int, re.findall("^brought ([0-9]+)$", answers.read(), re.MULTILINE)))
        arrows = [it for it in picture.iter() if it.get("marker-end") == TIP]
        same(len(arrows) - KINDS, alone + brought, f"the arrows of {name}")
        members = [it.text for it in picture.iter() if (it.text or "").startswith("member ")]
        same(len(members), 4, f"the columns of {name}")


def test_picture_of_several_payments():
    """Those of one value are one event: a text at the payer's column, and the frames that follow begin there."""
    lines = (
        '{"members": 4, "faults": 1, "opening": [100, 0, 0, 50], "liars": [2]}',
        "asks 0 1 30 3 20",
        "asks 3 0 1 1 2 0 3 1 4 0 5",
        "ask 1 0 7",
        "asks 2 0 1",
        "bring 0 1 0",
        "bring 3 1 0",
    )
    picture = drawn_lines(lines)
    told = [it.text for it in picture.iter() if (it.text or "").startswith("pays")]
    wanted = ["pays 30 to 1, 20 to 3", "pays 1 to 0, 2 to 1, 3 to 0, 2 more", "pays 7 to 0", "pays 1 to 0: ignored"]
    same(told, wanted, "what members are asked")
    dots = [(it.get("cx"), it.get("cy")) for it in picture.iter() if it.get("r") == "3"][1:]
    begun = [(it.get("x1"), it.get("y1")) for it in picture.iter() if it.get("marker-end") == TIP][KINDS:]
    rounded = [tuple(map(float, it)) for it in (dots[0], dots[1], *begun)]
    same((len(dots), rounded[2:]), (3, rounded[:2]), "where the two frames begin")


def test_picture_of_a_run_that_ends_early():
    """What was played before is drawn, and nothing of what stands after."""
    world = '{"members": 4, "faults": 1, "opening": [100, 0, 0, 50], "liars": [3]}'
    forged = "lie 0 1 next send 0 0 0100020000000000000005"
    for lines, dots, arrows, end in (
        ((world, "ask 0 1 30", "bring 0 1 0"), 1, 1, ()),
        ((world, "ask 0 1 30", "ask 3 0", "all"), 1, 0, (2, "bad line 3")),
        ((world, "all", "bogus", "ask 0 1 30"), 0, 0, (2, "bad line 3")),
        ((world, "bring 0 1 0", "ask 0 1 30", "bring 0 1 0", "ask 4 1 256x"), 1, 1, (2, "bad line 5")),
        ((world, "ask 1 0 7", forged, "ask 0 1 30"), 1, 1, (1, "forged 1")),
    ):
        picture = drawn_lines(lines, *end)
        was = [len([it for it in picture.iter() if it.get("r") == "3"]) - 1]
        was.append(len([it for it in picture.iter() if it.get("marker-end") == TIP]) - KINDS)
        same(was, [dots, arrows], f"dots and arrows of {lines}")
        box = [float(it) for it in picture.get("viewBox").split(" ")]
        low = [float(it.get("y")) for it in picture.iter() if it.get("y")]
        same(max(low) < box[3], True, f"{lines}: all words are in the picture")


def test_pictures_to_nobody(folder):
    """One line says that a picture can't be written, be it long or short."""
    short = os.path.join(folder, "short")
    write_text(short, '{"members": 1, "faults": 0, "opening": [7], "liars": []}\n')
    for script in (short, os.path.join(EXAMPLES, "honest-day.txt")):
        wanted = [(1, f"payd draw: {why}\n") for why in UNWRITTEN]
        same([*run_to_nobody([DRAW, script])], wanted, f"a picture of {script} to nobody")


def test_picture_of_no_script():
    for words, status in (([], 2), (["nowhere"], 1), ([os.path.join(EXAMPLES, "genesis.json")], 1)):
        done = subprocess.run([DRAW, *words], capture_output=True, text=True, timeout=SECONDS)
        same((done.returncode, done.stdout, done.stderr != ""), (status, "", True), f"{words}")
