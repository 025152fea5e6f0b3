"""Black-box tests of what has the name of a file of a member's folder, and of a log that loses its name while its node
runs."""

import itertools
import os
import socket
import subprocess

import pytest

from support.advices import MOVE_AWAY, last_lines
from support.nodes import PATIENCE, Ended
from support.restarts import Folders
from support.runs import SECONDS, payd, read_bytes, same, write_text

OPENING = [100, 0, 0, 50]
NAMES = "log", "log.new", "log.dropped", "ended", "ended.new"
UNNAMED = "payd: log 11 Unnamed\n"
PUT_BACK = "payd: the log was removed or renamed while its node ran: put that very log back, never an older one, and "
PUT_BACK += "start again\n"


def listening(path):
    with socket.socket(socket.AF_UNIX) as one:
        one.bind(os.path.relpath(path))


# What may stand at a name, by what it is called, and how it comes there.
KINDS = {
    "link": lambda path: os.symlink("away", path),
    "folder": os.mkdir,
    "socket": listening,
    "pipe": os.mkfifo,
}
FILES = ["--genesis", "genesis", "--keys", "keys-0"]


def run(group, *words):
    """Status, output and errors of a run in the group's folder, with the lines that say what to do."""
    how = {"cwd": group.place.name, "input": "", "capture_output": True, "text": True, "timeout": SECONDS}
    done = subprocess.run([payd(), *words], check=False, **how)
    return done.returncode, done.stdout, done.stderr


def start(group, *words):
    return run(group, "node", *FILES, "--ports", "ports", "--data", "data-0", *words)


def seen(path):
    """What a name is, whoever looks: of a link where it leads."""
    return os.lstat(path).st_mode, os.path.islink(path) and os.readlink(path)


@pytest.fixture
def group():
    """A group of which member 0 has paid once and ended cleanly."""
    with Folders(OPENING) as group:
        group.pay(0, 7, payee=1, amount=30, seq=0)
        group.settle([1, 0, 0, 0], [70, 30, 0, 50])
        same(group.end(0)[0], 0, "the end of node 0")
        yield group


def within(group, name):
    return os.path.join(group.place.name, "data-0", name)


def test_each_name_says_what_is_in_its_way(group):
    """No start takes it for a disk that failed, replaces it or waits for it, whether it makes a member or not; nor does
    an export. Moved away, the member goes on."""
    for name, kind in itertools.product(NAMES, KINDS):
        path, kept = within(group, name), within(group, "kept")
        is_there = os.path.exists(path)
        if is_there:
            os.rename(path, kept)
        KINDS[kind](path)
        was = seen(path)
        said = f"payd: log 10 Blocked {name} {kind}\npayd: data-0/{name} is a {kind}: {MOVE_AWAY}\n"
        for words in ([], ["--new"]):
            status, output, errors = start(group, *words)
            same((status, output, last_lines(errors)), (2, "", said), f"a start {words} with a {kind} at {name}")
        status, output, errors = run(group, "export", *FILES, "--data", "data-0")
        same((status, output, last_lines(errors)), (2, "", said), f"an export with a {kind} at {name}")
        same(seen(path), was, f"the {kind} at {name}")
        (os.rmdir if kind == "folder" else os.unlink)(path)
        if is_there:
            os.rename(kept, path)
    group.start(0)
    group.settle([1, 0, 0, 0], [70, 30, 0, 50])
    group.stop()


def test_a_link_at_the_log_is_never_replaced(group):
    """Wherever it leads, to the whole log too; what it leads to stays as it was."""
    path, away = within(group, "log"), os.path.join(group.place.name, "away")
    os.rename(path, away)
    log = read_bytes(away)
    os.symlink(away, path)
    for words in ([], ["--new"]):
        status, _, errors = start(group, *words)
        same((status, errors.splitlines()[-2]), (2, "payd: log 10 Blocked log link"), f"a start {words}")
    same((os.readlink(path), read_bytes(away)), (away, log), "the link, and the log")


def test_what_is_in_the_way_of_the_socket_is_named(group):
    """A file at its name, and a folder that isn't empty or a file where it is made. An empty one is a kill's."""
    os.mkdir(within(group, "desk.new"))
    write_text(within(group, "desk.new/mine"), "mine")
    said = f"payd: socket data-0/desk.new\npayd: data-0/desk.new is a folder: {MOVE_AWAY}\n"
    status, _, errors = start(group)
    same((status, last_lines(errors)), (3, said), "a folder")
    os.unlink(within(group, "desk.new/mine"))
    os.rmdir(within(group, "desk.new"))
    for name in ("desk", "desk.new"):
        write_text(within(group, name), "mine")
        said = f"payd: socket data-0/{name}\npayd: data-0/{name} is a file: {MOVE_AWAY}\n"
        status, _, errors = start(group)
        same((status, last_lines(errors)), (3, said), f"a file at {name}")
        os.unlink(within(group, name))
    os.mkdir(within(group, "desk.new"))
    group.start(0)
    group.settle([1, 0, 0, 0], [70, 30, 0, 50])
    group.stop()


def is_not_asked(node, line):
    """The node ends, without an answer to this line; its status and errors."""
    node.write(f"{line}\n")
    try:
        answer = node.line()
    except Ended:
        return node.child.wait(PATIENCE), node.said.decode()
    raise AssertionError(f"{answer!r} of a node whose log has no name")


def loses_its_name(lose):
    """A node that has paid, and pays once more when its log has lost its name. Put back, it has both payments."""
    with Folders(OPENING) as group:
        group.pay(0, 7, payee=1, amount=30, seq=0)
        group.settle([1, 0, 0, 0], [70, 30, 0, 50])
        path, away = within(group, "log"), os.path.join(group.place.name, "away")
        os.link(path, away)
        lose(path)
        status, errors = is_not_asked(group.nodes[0], "PAY 8 2 5")
        del group.nodes[0]
        same((status, errors.count(UNNAMED)), (4, 1), f"the end: {errors}")
        same(last_lines(errors), f"payd: engine 3 Write\n{PUT_BACK}", "what is said of it")
        same((os.path.lexists(path), os.path.exists(within(group, "ended"))), (False, False), "the folder")
        os.rename(away, path)
        group.start(0)
        group.pay(0, 7, payee=1, amount=30, seq=0)
        group.pay(0, 8, payee=2, amount=5, seq=1)
        group.settle([2, 0, 0, 0], [65, 30, 5, 50])
        group.stop()


def test_a_log_that_is_removed_has_failed():
    """Before the next `asked` is answered. Put back, it has the payment, and the same order pays no second time."""
    loses_its_name(os.unlink)


def test_a_log_that_is_renamed_has_failed():
    loses_its_name(lambda path: os.rename(path, f"{path}.other"))


def test_another_log_in_its_place_is_not_taken_for_it():
    """A copy, say: the next `asked` isn't answered, and at the end of the input nothing is noted of the copy."""
    with Folders(OPENING) as group:
        group.settle([0, 0, 0, 0])
        for own in (0, 1):
            path = os.path.join(group.place.name, f"data-{own}", "log")
            os.rename(path, f"{path}.kept")
            with open(path, "wb") as file:
                file.write(read_bytes(f"{path}.kept"))
        status, errors = is_not_asked(group.nodes.pop(0), "PAY 7 1 30")
        same((status, errors.count(UNNAMED)), (4, 1), f"the end: {errors}")
        node = group.nodes.pop(1)
        node.end_input()
        _, errors = node.child.communicate(timeout=PATIENCE)
        same((node.child.returncode, last_lines(errors.decode())), (4, UNNAMED + PUT_BACK), "a clean end")
        same(os.path.exists(os.path.join(group.place.name, "data-1", "ended")), False, "whether its end is noted")
