"""Black-box tests of a member that is given away to another machine."""

import contextlib
import os
import re
import subprocess
import sys

import pytest

from support.namespaces import OPENING, Trial, machines, refusal
from support.nodes import Node, started
from support.restarts import Folders
from support.runs import SECONDS, TOP, call, payd, read_text, same, write_text

TOOL = os.path.join(TOP, "tools", "move-out")
MEMBERS = 4
MOVED = re.compile(r"payd move-out: data-0: it was moved out at \d{4}-\d\d-\d\dT\d\d:\d\d:\d\dZ to (\S+)\n")
MOVED_FOR_GOOD = re.compile(MOVED.pattern[: -len(r"\n")] + r": that has the member, and this folder hasn't\n")


def move_out(place, *words):
    return call([sys.executable, TOOL, *words], folder=place)


def unpack(archive, place, folder):
    """As on the other machine, in a folder for its owner alone."""
    os.mkdir(os.path.join(place, folder), 0o700)
    subprocess.run(["tar", "-xf", archive, "-C", folder], cwd=place, check=True, timeout=SECONDS)
    os.unlink(archive)


def is_refused(place, fault, *flags):
    words = ["--genesis", "genesis", "--keys", "keys-0", "--ports", "ports", "--data", "data-0", *flags]
    status, output, errors = call([payd(), "node", *words], folder=place)
    same((status, output, started(errors).split("\n")[0]), (2, "", f"payd: log {fault}"), f"a start {flags}")


def test_a_member_moves(folder):
    """While its node runs it stays. Moved out it goes on elsewhere, and here nothing takes it, whatever is put back."""
    archive = os.path.join(folder, "member.tar")
    with Folders([100, 0, 0, 50]) as group:
        place, here = group.place.name, os.path.join(group.place.name, "data-0")
        group.pay(0, 7, payee=1, amount=30, seq=0)
        group.settle([1, 0, 0, 0], [70, 30, 0, 50])
        held = (1, "", "payd move-out: data-0: a node has it: end that first\n")
        same((move_out(place, "data-0", archive), os.path.exists(archive)), (held, False), "while its node runs")
        group.kill(0)
        os.mkdir(os.path.join(here, "orders"))
        write_text(os.path.join(here, "orders", "one"), "kept")
        log = group.log(0)
        said = f"moved out: data-0 is in {archive}, and no node runs it here\n"
        same(move_out(place, "data-0", archive), (0, said, ""), "the folder")
        same(os.stat(archive).st_mode & 0o777, 0o600, "who may read it")
        status, output, errors = move_out(place, "data-0", f"{archive}.2")
        same((status, output, MOVED.fullmatch(errors)[1]), (1, "", archive), "the folder once more")
        back = move_out(place, "--take-back", "data-0")
        same((back[0], MOVED_FOR_GOOD.fullmatch(back[2])[1]), (1, archive), "a move that is done")
        is_refused(place, "8 Missing")
        is_refused(place, "9 Exists", "--new")
        with open(os.path.join(here, "log"), "wb") as file:
            file.write(log)
        is_refused(place, "6 Changed")
        same(group.log(0), log, "a log that was put back")
        unpack(archive, place, "other")
        moved = os.path.join(place, "other", "data-0")
        same(read_text(os.path.join(moved, "orders", "one")), "kept", "an order")
        for copy, of in (("group.json", "genesis"), ("keys.json", "keys-0")):
            same(read_text(os.path.join(moved, copy)), read_text(os.path.join(place, of)), copy)
        node = group.nodes[0] = Node(0, place, options=["--data", "other/data-0", "--dials", "always"])
        same(node.ask("PAY 7 1 30"), "asked 7 seq 0", "a payment given again")
        group.pay(0, 8, payee=2, amount=5, seq=1)
        group.settle([2, 0, 0, 0], [65, 30, 5, 50])


def faulty(place, call_of, path, *words):
    """A run in which this call about this path fails, as the tool names it."""
    traced = ["strace", "-f", "-qq", "-o", os.devnull, "-P", path, "-e", f"inject={call_of}:error=EIO"]
    status, output, errors = call([*traced, sys.executable, TOOL, *words], folder=place)
    return status, output, re.sub(r"(?m)^strace: .*\n", "", errors)


def goes_on(group):
    """The member is in its folder as it was, and its node starts."""
    group.start(0)
    same(group.nodes[0].ask("BALANCE 0"), "balance 0 100", "the member in its folder")
    group.kill(0)


@pytest.mark.needs("strace")
def test_what_can_fail_is_tried_first(folder):
    """A typo, a full disk and a mark that can't be written leave the folder as it was, and no part of an archive."""
    archive = os.path.join(folder, "member.tar")
    with Folders([100, 0, 0, 50], running=[0]) as group:
        place = group.place.name
        group.kill(0)
        as_it_was = "data-0 is as it was\n"
        write_text(archive, "")
        told = f"payd move-out: {archive}: File exists: name a new file; {as_it_was}"
        same(move_out(place, "data-0", archive), (1, "", told), "an archive that is there")
        os.unlink(archive)
        away = os.path.join(folder, "away", "member.tar")
        told = f"payd move-out: {away}.part: No such file or directory: {as_it_was}"
        same(move_out(place, "data-0", away), (1, "", told), "a folder that isn't there")
        told = "it would be a part of itself: name a file outside data-0, which is as it was"
        inside = move_out(place, "data-0", "data-0/orders.tar")
        same(inside, (1, "", f"payd move-out: data-0/orders.tar: {told}\n"), "an archive in the folder")
        full = ["prlimit", "--fsize=4096", sys.executable, TOOL, "data-0", archive]
        told = f"payd move-out: {archive}.part: File too large: {as_it_was}"
        same(call(full, folder=place), (1, "", told), "an archive that doesn't fit")
        told = f"payd move-out: data-0/ended.new: Input/output error: {as_it_was}"
        same(faulty(place, "rename", "data-0/ended.new", "data-0", archive), (1, "", told), "a mark that can't be set")
        names = set(os.listdir(os.path.join(place, "data-0")))
        same(names >= {"log", "group.json", "keys.json"}, True, "what is in the folder")
        same(names & {"ended", "ended.new"}, set(), "a mark")
        same(os.listdir(folder), [], "parts of archives")
        goes_on(group)


@pytest.mark.needs("strace")
def test_a_move_that_ended_goes_on_or_is_taken_back(folder):
    """Marked and with its log it is refused by a node; then the next call moves it, or one word takes it back."""
    archive = os.path.join(folder, "member.tar")
    with Folders([100, 0, 0, 50], running=[0]) as group:
        place, log = group.place.name, os.path.join(group.place.name, "data-0", "log")
        same(group.end(0)[0], 0, "the node's end")
        ended = read_text(os.path.join(place, "data-0", "ended"))
        not_moved = (1, "", "payd move-out: data-0: it wasn't moved out\n")
        same(move_out(place, "--take-back", "data-0"), not_moved, "a member that wasn't moved")
        for is_taken_back in (True, False):
            status, _, errors = faulty(place, "unlink", "data-0/log", "data-0", archive)
            told = "payd move-out: data-0/log: Input/output error: data-0 is marked, so no node runs it: "
            told += f"call it again to move it to {archive}, or take it back: payd move-out --take-back data-0\n"
            same((status, errors, os.listdir(folder)), (1, told, ["member.tar.part"]), "a log that stays")
            is_refused(place, "6 Changed")
            if is_taken_back:
                back = (0, "taken back: data-0 is as it was, and its node may start\n", "")
                same(move_out(place, "--take-back", "data-0"), back, "taken back")
                same((read_text(os.path.join(place, "data-0", "ended")), os.listdir(folder)), (ended, []), "all")
                goes_on(group)
        status, _, errors = faulty(place, "rename", f"{archive}.part", "data-0", archive)
        told = f"{archive}.part: call it again, and that gets the name {archive}\n"
        same((status, errors.endswith(told), os.path.exists(log)), (1, True, False), "an archive without its name")
        is_refused(place, "8 Missing")
        same(move_out(place, "--take-back", "data-0")[0], 1, "a log that is gone")
        same(move_out(place, "data-0", archive)[0], 0, "the next call")
        same(os.listdir(folder), ["member.tar"], "the archive")
        none = (1, "", "payd move-out: none: there is no member here\n")
        same(move_out(place, "none", archive + ".2"), none, "no folder")


def test_a_member_moves_to_another_machine():
    """Of two machines in network namespaces, with the tunnels of its peers."""
    if (why := refusal()) is not None:
        pytest.skip(why)
    with contextlib.ExitStack() as stack:
        stack.enter_context(machines(MEMBERS + 1))
        trial = Trial(stack, MEMBERS, delay=5)
        for own in range(MEMBERS):
            trial.start(own)
        trial.pay(0, 3)
        trial.settle(range(MEMBERS))
        trial.nodes[0].kill()
        trial.pay(1, 2)
        archive = os.path.join(trial.folder, "member.tar")
        same(move_out(trial.folder, "data-0", archive)[0], 0, "the folder")
        trial.move(0, MEMBERS)
        unpack(archive, trial.folder, "other")
        is_refused(trial.folder, "8 Missing")
        trial.start(0, data="other/data-0", at=MEMBERS)
        trial.pay(0, 2)
        trial.settle(range(MEMBERS))
        balances = [OPENING - 5, OPENING + 3, OPENING + 2, OPENING]
        same(trial.nodes[0].balances(), balances, "the balances of the member on its new machine")
