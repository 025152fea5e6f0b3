"""Tests of the times at which a node saw entries settle: of what the tools read, and of what a node writes."""

import datetime
import os
import re
import stat
import tempfile
import time

from payd_tools import times
from support.nodes import until
from support.restarts import Folders
from support.runs import read_text, same, write_text

HEAD = "2026-11-29T13:20:"


def moment(seconds):
    return datetime.datetime(2026, 11, 29, 13, 20, seconds, tzinfo=datetime.timezone.utc)


def read(text):
    """The times in a file with this text."""
    with tempfile.TemporaryDirectory() as folder:
        path = os.path.join(folder, "times")
        with open(path, "wb") as file:
            file.write(text if isinstance(text, bytes) else text.encode())
        return times.read_times(path)


# ---- the reader


def test_entry_settled_by_the_first_line_past_it():
    found = read(f"{HEAD}01Z 1 0\n{HEAD}03Z 1 2\n{HEAD}07Z 4 2\n")
    same([found.when(0, it) for it in range(5)], [moment(1), moment(7), moment(7), moment(7), None], "account 0")
    same([found.when(1, it) for it in range(3)], [moment(3), moment(3), None], "account 1")
    same([found.when(2, 0), found.when(-1, 0)], [None, None], "accounts that no line has")
    same(times.text_of(found.when(1, 1)), f"{HEAD}03Z", "a moment in words")
    same(times.text_of(found.when(1, 2)), None, "no moment in words")


def test_no_line_has_no_time():
    same(read("").when(0, 0), None, "an empty file")
    with tempfile.TemporaryDirectory() as folder:
        try:
            times.read_times(os.path.join(folder, "times"))
        except FileNotFoundError:
            return
    raise AssertionError("a file that isn't there was read")


def test_lost_lines_make_times_later():
    lines = [f"{HEAD}{it:02}Z {it} 0\n" for it in range(1, 30)]
    for kept in ([4, 9, 20], range(1, 30, 2), [29]):
        found = read("".join(lines[it - 1] for it in kept))
        wanted = [moment(next(it for it in kept if it > entry)) for entry in range(max(kept))]
        same([found.when(0, entry) for entry in range(max(kept))], wanted, f"with the lines {kept}")


def test_cut_lines_make_times_later_and_never_earlier():
    """At each byte the text is cut, and what comes behind is appended, with and without a line feed between."""
    whole = f"{HEAD}01Z 12 0\n{HEAD}02Z 123 45\n"
    after = f"{HEAD}09Z 124 46\n"
    true = {(0, 0): 1, (0, 11): 1, (0, 12): 2, (0, 122): 2, (0, 123): 9, (1, 0): 2, (1, 44): 2, (1, 45): 9}
    for cut in range(len(whole)):
        for between in ("", "\n"):
            found = read(whole[:cut] + between + after)
            for (account, index), seconds in true.items():
                was = found.when(account, index)
                is_later = was is None or moment(seconds) <= was <= moment(9)
                same(is_later, True, f"{(account, index)} cut at {cut}: {was}")
            # a line feed between keeps the line behind it
            same(between == "" or found.when(1, 45) == moment(9), True, f"the line behind a cut at {cut}")
        same(read(whole[:cut]).when(1, 0), None, f"what a line says that is cut at {cut}")


def test_clock_that_goes_back_is_not_earlier():
    found = read(f"{HEAD}05Z 1\n{HEAD}02Z 2\n{HEAD}05Z 3\n{HEAD}06Z 4\n")
    same([found.when(0, it) for it in range(4)], [moment(5), moment(5), moment(5), moment(6)], "the times")


def midnight(day):
    return "T".join((day, "00:00:00Z"))


def on(*days):
    """The times of a file with a line on each of these days, by which one entry more had settled."""
    return read("".join(f"{midnight(day)} {count}\n" for count, day in enumerate(days, 1)))


def dates(found, count):
    """Of each entry the day by which it had settled, with a question mark where that is unsure."""
    places = [(0, it) for it in range(count)]
    return [f"{found.when(*it):%Y-%m-%d}{'' if found.is_sure(*it) else '?'}" for it in places]


def test_wrong_clock_heals():
    """One start ten years ahead: what was dated then is by the next right line, and unsure."""
    found = on("2026-11-28", "2026-11-29", "2036-11-29", "2036-11-30", "2026-11-30", "2026-12-01")
    same(dates(found, 6), ["2026-11-28", "2026-11-29", "2026-11-30?", "2026-11-30?", "2026-11-30", "2026-12-01"], "it")
    found = on("2026-11-28", "2036-11-29")
    same(dates(found, 2), ["2026-11-28", "2036-11-29"], "as long as nothing tells")
    # ten years later the lines between are many
    found = on("2026-11-28", "2036-11-29", "2026-11-29", "2030-01-01", "2036-12-01")
    wanted = ["2026-11-28", "2026-11-29?", "2026-11-29", "2030-01-01", "2036-12-01"]
    same(dates(found, 5), wanted, "when that day has come")


def test_clock_that_was_behind_for_a_while_heals():
    """As that of a machine without a battery before it has asked for the time."""
    found = on("2026-11-27", "2026-11-28", "2026-11-29", "2000-01-01", "2026-11-30", "2026-12-01")
    wanted = ["2026-11-27", "2026-11-28", "2026-11-29", "2026-11-30?", "2026-11-30", "2026-12-01"]
    same(dates(found, 6), wanted, "the lines between are unsure")
    found = on("2026-11-27", "2026-11-28", "2000-01-01", "2000-01-02")
    same(dates(found, 4), ["2000-01-01?", "2000-01-01?", "2000-01-01", "2000-01-02"], "until the clock is right again")


def test_clock_far_from_the_last_line_is_doubtful():
    now = datetime.datetime(2026, 11, 30, tzinfo=datetime.timezone.utc)
    for day in ("2026-11-29", "2026-01-01", "2026-11-30"):
        same(on(day).doubt(now), None, day)
    for day, far in (("2036-11-30", "3653 days behind"), ("2016-11-30", "3652 days ahead of")):
        said = f"the clock is {far} the last time in the folder, {midnight(day)}: is it right?"
        same(on(day).doubt(now), said, day)
    same(read("").doubt(now), None, "no line at all")


def test_start_by_a_clock_far_from_the_line_before_is_doubtful():
    """Of which the node writes a line, so that the last line has that clock's time: for a day."""
    now = datetime.datetime(2026, 11, 30, 12, tzinfo=datetime.timezone.utc)
    for days, said in (
        (["2016-11-30", "2026-11-30"], "the clock went 3652 days ahead of 2016-11-30T00:00:00Z: is it right?"),
        (["2036-11-30", "2026-11-30"], "the clock went 3653 days back from 2036-11-30T00:00:00Z: is it right?"),
        (["2016-11-30", "2026-11-29"], None),
        (["2036-11-30", "2026-11-29"], None),
        (["2025-12-01", "2026-11-30"], None),
        (["2026-11-28", "2026-11-29", "2000-01-01", "2026-11-30"], None),
    ):
        same(on(*days).doubt(now), said, f"{days}")


def test_damaged_lines_say_nothing():
    good = f"{HEAD}09Z 1 1\n"
    for line in (
        f"{HEAD}01Z",
        f"{HEAD}01Z ",
        f"{HEAD}01Z 1  1",
        f"{HEAD}01Z 1 1 ",
        f" {HEAD}01Z 1 1",
        f"{HEAD}01 1 1",
        f"{HEAD}01Z 01 1",
        f"{HEAD}01Z +1 1",
        f"{HEAD}01Z 1 1\r",
        f"{HEAD}61Z 1 1",
        "2026-02-30T00:00:01Z 1 1",
        "2026-11-29 13:20:01Z 1 1",
        f"{HEAD}01Z 1 x",
        f"{HEAD}01Z 1 99999999999",
        "",
        "\0",
    ):
        same(read(f"{line}\n{good}").when(0, 0), moment(9), f"behind {line!r}")
    same(read(b"\xff\xfe\n" + good.encode()).when(1, 0), moment(9), "behind what is no text")


def test_front_that_falls_says_nothing():
    found = read(f"{HEAD}01Z 5\n{HEAD}02Z 3\n{HEAD}03Z 4\n{HEAD}04Z 6\n")
    same([found.when(0, it) for it in (0, 3, 4, 5)], [moment(1), moment(1), moment(1), moment(4)], "the times")


def test_file_is_read_on():
    with tempfile.TemporaryDirectory() as folder:
        path = os.path.join(folder, "times")
        write_text(path, f"{HEAD}01Z 1\n{HEAD}02Z")
        file = times.TimesFile(path)
        same([file.read().when(0, it) for it in (0, 1)], [moment(1), None], "with a line that is cut")
        with open(path, "a", encoding="ascii") as more:
            more.write(" 2\n")
        same([file.read().when(0, it) for it in (0, 1, 2)], [moment(1), moment(2), None], "once it is whole")
        write_text(path, f"{HEAD}07Z 1\n")
        same([file.read().when(0, it) for it in (0, 1)], [moment(7), None], "of another file")


# ---- a node

OPENING = [100, 0, 0, 50]
# A line of four accounts.
LINE = re.compile(r"(20\d\d-\d\d-\d\dT\d\d:\d\d:\d\dZ)((?: \d+){4})")


def path_in(group, own):
    return os.path.join(group.place.name, f"data-{own}", "times")


def lines_in(text):
    """The moments and fronts of a text of whole lines."""
    same(text == "" or text.endswith("\n"), True, f"whether the text is whole: {text!r}")
    found = [LINE.fullmatch(line).groups() for line in text.splitlines()]
    return [(moment, [int(it) for it in fronts.split()]) for moment, fronts in found]


def noted(group, own):
    """The lines of a node, once there are some."""
    until(lambda: os.path.exists(path_in(group, own)), True, of="the file")
    return lines_in(read_text(path_in(group, own)))


def last_fronts(group, own):
    return noted(group, own)[-1][1]


def second():
    return datetime.datetime.now(datetime.timezone.utc).replace(microsecond=0)


def test_node_notes_when_fronts_change():
    with Folders(OPENING) as group:
        same(os.path.exists(path_in(group, 0)), False, "whether there is a file before anything settled")
        begun = second()
        group.pay(0, 1, 1, 30, 0)
        group.settle([1, 0, 0, 0])
        for own in range(4):
            until(lambda own=own: last_fronts(group, own), [1, 0, 0, 0], of=f"the line of {own}")
        between = second()
        # (so that another second has begun)
        until(lambda: second() > between, True, of="the clock")
        group.pay(3, 1, 0, 5, 0)
        group.pay(0, 2, 2, 7, 1)
        group.settle([2, 0, 0, 1])
        until(lambda: last_fronts(group, 0), [2, 0, 0, 1], of="the last line")
        ended = second()
        lines = noted(group, 0)
        same(lines[0][1], [1, 0, 0, 0], "the first line")
        same([line for line in lines if line[1] == [0] * 4], [], "lines of nothing")
        same(len({tuple(fronts) for _, fronts in lines}), len(lines), "whether each line has other fronts")
        same(all(old < new for (old, _), (new, _) in zip(lines, lines[1:])), True, f"one a second at most: {lines}")
        found = times.read_times(path_in(group, 0))
        moments = [found.when(*it) for it in ((0, 0), (0, 1), (3, 0))]
        same(begun <= moments[0] <= between < moments[1] <= ended, True, f"{begun} {moments} {ended}")
        same(between < moments[2] <= ended, True, f"{begun} {moments} {ended}")
        same((found.when(0, 2), found.when(1, 0)), (None, None), "what hasn't settled")
        same(stat.S_IMODE(os.stat(path_in(group, 0)).st_mode) & 0o137, 0, "who may read it")
        text = read_text(path_in(group, 0))
        time.sleep(2.5)
        same(read_text(path_in(group, 0)), text, "the file while nothing settles")


def test_times_are_appended_behind_a_restart_and_a_cut():
    """Nothing of what stands there changes; a cut line gets its end first. The first line has what settled before."""
    with Folders(OPENING) as group:
        group.pay(0, 1, 1, 30, 0)
        group.settle([1, 0, 0, 0])
        until(lambda: last_fronts(group, 1), [1, 0, 0, 0], of="the line")
        group.kill(1)
        before = read_text(path_in(group, 1)) + "2026-11-29T13:2"
        write_text(path_in(group, 1), before)
        group.start(1)
        size = len(before)
        until(lambda: os.path.getsize(path_in(group, 1)) > size, True, of="what is appended")
        text = read_text(path_in(group, 1))
        same((text[:size], text[size]), (before, "\n"), "what stood there")
        group.pay(1, 1, 0, 2, 0)
        group.settle([1, 1, 0, 0])
        until(lambda: lines_in(read_text(path_in(group, 1))[size + 1 :])[-1][1], [1, 1, 0, 0], of="the next line")
        same(lines_in(read_text(path_in(group, 1))[size + 1 :])[0][1], [1, 0, 0, 0], "the first line of a start")
        found = times.read_times(path_in(group, 1))
        same(found.when(0, 0) < found.when(1, 0), True, "the times by all lines")
        group.stop()


def test_times_that_fail_change_no_payment():
    with Folders(OPENING, running=[2, 3]) as group:
        for own, make in ((0, os.mkdir), (1, lambda path: os.symlink("/dev/full", path))):
            group.start(own).front()
            make(path_in(group, own))
        group.pay(0, 1, 1, 30, 0)
        group.pay(1, 1, 2, 10, 0)
        group.settle([1, 1, 0, 0], [70, 20, 10, 50])
        reasons = enumerate(("it is a folder", "the disk is full"))
        said = [f"payd: data-{own}/times can't be written: {why}\n" for own, why in reasons]
        for own in (0, 1):
            node, line = group.nodes[own], said[own].encode()
            until(lambda node=node, line=line: (node.news(), line in node.said)[1], True, of="what is said")
        # (which is tried again at each look)
        time.sleep(2.5)
        os.rmdir(path_in(group, 0))
        until(lambda: last_fronts(group, 0), [1, 1, 0, 0], of="the line once it can be written")
        for own in (0, 1):
            status, _, errors = group.end(own)
            same((status, errors), (0, said[own]), f"the end of node {own}")
