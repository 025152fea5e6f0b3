"""Black-box tests of refused memory and broken devices: each growth, each read and each write of a run in its turn.

Where there is no C compiler to make the library that refuses, these tests fail.
"""

import os

from models import audits, desks
from models.scripts import WORKED, script_of
from payd_tools.frames import SEND, frame
from support.hostile import MEMORY, MOST_READS, MOST_TRIES
from support.nodes import write_json, write_member
from support.runs import EXAMPLE_GENESIS, GENESIS, TOP, example_keys, read_bytes, run, same


def streams():
    """Words of a command and its input."""
    files = ["--genesis", EXAMPLE_GENESIS, "--keys", example_keys(1)]
    yield ["check", *files], read_bytes(os.path.join(TOP, "examples", "frames.bin"))
    for name, world, commands, _, _ in WORKED:
        if name in ("plain payment", "split vote settles", "circular debts", "a forged frame", "no such command"):
            yield ["sim"], script_of(world, commands)
    lines = "".join(f"{line}\n" for line, _ in desks.EXCHANGE).encode()
    yield ["desk", "--genesis", EXAMPLE_GENESIS, "--keys", example_keys(0)], lines


def test_each_growth_refused(library):
    """Memory is the answer, or that with ample memory; what was written is a prefix of it."""
    for words, stream in streams():
        if words[0] == "desk":
            continue
        ample = run(words, stream)
        for place, was in library.each(words, stream, "growth"):
            if was != ample:
                status, text, errors = was
                same((status, MEMORY.fullmatch(errors) is not None), (3, True), f"{words}, growth {place}: {was}")
                same(ample[1].startswith(text), True, f"{words}, growth {place}: a prefix")


def test_each_growth_of_an_audit_refused(library):
    """The first row of each verdict."""
    for place, (_, exports, line) in enumerate({row[-1][0]: row for row in reversed(audits.ROWS)}.values()):
        names = []
        for number, export in enumerate(exports):
            names.append(f"{place}-{number}.json")
            write_json(library.place.name, names[-1], export)
        status, all_lines = 0 if line == "clean" else 1, audits.findings(list(zip(names, exports)))
        for words, lines in (([], [line]), (["--all"], all_lines)):
            ample = (status, "".join(f"{it}\n" for it in lines), "")
            for growth, was in library.each(["audit", *words, *names], b"", "growth"):
                refused = was[:2] == (3, "") and MEMORY.fullmatch(was[2]) is not None
                same(was == ample or refused, True, f"{line}, {words}, growth {growth}: {was}")


def test_each_growth_of_a_desk_refused(library):
    """A line that is refused memory changes nothing: given again, it has its answer, and no payment is lost."""
    words = ["desk", "--genesis", EXAMPLE_GENESIS, "--keys", example_keys(0)]
    lines = [line for line, _ in desks.EXCHANGE for _ in range(2)]
    stream = "".join(f"{line}\n" for line in lines).encode()
    model = desks.Desk(0, GENESIS["opening"])
    ample = [model.answer(line.encode()) for line in lines]
    refusals = 0
    for place, (status, text, errors) in library.each(words, stream, "growth"):
        if status == 3:
            same(MEMORY.fullmatch(errors) is not None, True, f"growth {place}: {errors}")
            same("".join(f"{it}\n" for it in ample).startswith(text), True, f"growth {place}: a prefix")
            continue
        answers = text.splitlines()
        same(len(answers), len(ample), f"growth {place}: the lines answered")
        differ = [it for it, (answer, wanted) in enumerate(zip(answers, ample)) if answer != wanted]
        same((status, errors, len(differ) <= 1), (0, "", True), f"growth {place}: lines {differ}")
        for it in differ:
            same(answers[it], "refused 0 Memory", f"growth {place}: {lines[it]}")
            refusals += 1
    same(refusals > 10, True, f"{refusals} lines were refused memory")


def each_fails(library, call, fault, **more):
    """Each of a run's calls fails, which ends it with this fault behind what was written before."""
    for words, stream in streams():
        ample = run(words, stream)
        for size in ({"read_size": it} for it in (len(stream), 40)) if call == "read" else [more]:
            # (a script or a stream may end before its input does, and a read that it doesn't make can't fail)
            for place, was in library.each(words, stream, call, **size):
                status, text, errors = was
                same((status, errors), (3, f"payd: engine {fault}\n"), f"{words}, {call} {place} {size}: {was}")
                same(ample[1].startswith(text), True, f"{words}, {call} {place}: a prefix")


def test_each_read_fails(library):
    each_fails(library, "read", "2 Read")


def test_an_interrupted_read_is_tried_again(library):
    for words, stream in streams():
        ample = run(words, stream)
        for times, wanted in ((MOST_TRIES - 1, ample), (MOST_TRIES, (3, "", "payd: engine 2 Read\n"))):
            same(library.run(words, stream, interrupted=times)[0], wanted, f"{words}, interrupted {times} times")


def test_each_write_fails_or_takes_nothing(library):
    for more in ({}, {"write_takes_nothing": 1}, {"write_size": 30}):
        each_fails(library, "write", "3 Write", **more)


ALONE = {"members": 1, "faults": 0, "opening": [7]}
EXPORT = '{"balances":[7],"faults":0,"front":[0],"lists":[[]],"member":0,"members":1,"opening":[7]}\n'


def test_each_write_of_an_export_fails(library):
    """What was written is a prefix of the export, whichever write fails or takes nothing."""
    words = write_member(library.place.name, genesis=ALONE)
    same(library.run(words, b"")[0], (0, EXPORT, ""), "each write taken")
    for more in ({}, {"write_takes_nothing": 1}, {"write_size": 30}, {"write_size": 1}):
        lengths = []
        for place, (status, text, errors) in library.each(words, b"", "write", **more):
            same((status, errors), (3, "payd: engine 3 Write\n"), f"write {place} {more}")
            same(EXPORT.startswith(text), True, f"write {place} {more}: {text!r} is no prefix")
            lengths.append(len(text))
        same(lengths, sorted(set(lengths)), f"{more}: a write more lets more through")


def test_a_byte_at_a_time(library):
    for words, stream in streams():
        ample = run(words, stream)
        for name in ("read_size", "write_size"):
            same(library.run(words, stream, **{name: 1})[0], ample, f"{words}, {name} 1")


def test_reads_have_a_bound(library):
    """A frame over and over, a byte a read: a million reads, and the lines of as many frames."""
    bad_tag = frame(SEND, 0, 1, 0)[:-32] + bytes(32)
    whole = MOST_READS // len(bad_tag)
    stream = (whole + 2) * bad_tag
    (status, text, errors), _ = library.run(["check"], stream, read_size=1)
    same((status, errors), (3, "payd: engine 4 Bound\n"), "the end")
    lines = "".join(f"{place} refused 4 BadTag\n" for place in range(1, whole + 1))
    same((whole, lines.startswith(text)), (17_857, True), f"{len(text)} bytes of its text")
