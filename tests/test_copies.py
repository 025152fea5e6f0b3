"""Black-box tests of what a node's folder has of what the node was given: the group's file and the keys."""

import json
import os
import stat

from support.nodes import until
from support.restarts import Folders
from support.runs import TOP, call, key_texts, read_bytes, same, write_text

OPENING = [100, 0, 0, 50]
NAMES = ["Ada", "Bo", "Cy", "Di"]
COPIES = "group.json", "keys.json"


# Who may do what with the folder of a node, and with what the node makes there.
MODES = {".": 0o700, "log": 0o600, "keys.json": 0o600, "desk": 0o600}
MODES |= {"group.json": 0o640, "times": 0o640, "status.prom": 0o640}


class Named(Folders):
    """A group whose file has names, and whose nodes start with a umask that takes nothing from what they ask for."""

    def start(self, *words, **how):
        was = os.umask(0)
        try:
            return super().start(*words, **how)
        finally:
            os.umask(was)

    def genesis(self):
        return {**super().genesis(), "names": NAMES}

    def path(self, name, own=0):
        return os.path.join(self.place.name, f"data-{own}", name)

    def given(self, name):
        return os.path.join(self.place.name, name)

    def judge(self, own=0):
        """The folder has what the node was given, and nobody else may do anything with the keys."""
        for copy, of in (("group.json", "genesis"), ("keys.json", f"keys-{own}")):
            same(read_bytes(self.path(copy, own)), read_bytes(self.given(of)), f"the copy of {of}")
            same(os.path.exists(self.path(f"{copy}.new", own)), False, f"whether there is another of {of}")
        same(stat.S_IMODE(os.stat(self.path("keys.json", own)).st_mode), 0o600, "who may do what with the keys")
        same(stat.S_IMODE(os.stat(self.path("group.json", own)).st_mode) & 0o137, 0, "who may do what with the group")


def tool(name, *words):
    return call([os.path.join(TOP, "tools", name), *words])


def test_the_folder_alone_is_enough():
    """Given nothing else, tools have the names, and the keys say whose the folder is where its log doesn't."""
    with Named(OPENING) as group:
        for own in range(4):
            group.judge(own)
        status, output, errors = tool("pay", "--data", group.path("."), "--yes", "--order", "x", "Bo", "30")
        same((status, output, errors), (0, "settled: 30 to Bo, order x, seq 0\n", ""), "a payment by name")
        told = json.loads(tool("status", "--data", group.path("."), "--json")[1])
        same((told["member"], told["name"], told["balance"]), (0, "Ada", 70), "the status")
        group.kill(0)
        os.rename(group.path("log"), group.path("log.away"))
        output = tool("status", "--data", group.path("."))[1]
        same(output.splitlines()[1].startswith("member 0 Ada, "), True, f"by the keys alone: {output}")


def test_modes_are_those_that_the_node_asks_for():
    with Named(OPENING) as group:
        group.pay(0, 7, 1, 30, 0)
        until(lambda: [it for it in MODES if not os.path.exists(group.path(it))], [], of="what isn't there yet")
        modes = {it: stat.S_IMODE(os.stat(group.path(it)).st_mode) for it in MODES}
        same({it: oct(mode) for it, mode in modes.items()}, {it: oct(mode) for it, mode in MODES.items()}, "modes")


def test_what_is_given_anew_replaces_the_copy():
    """But not before the start has taken it, and what is the same stays the same file."""
    with Named(OPENING) as group:
        numbers = [os.stat(group.path(name)).st_ino for name in COPIES]
        group.kill(0)
        group.start(0).front()
        same([os.stat(group.path(name)).st_ino for name in COPIES], numbers, "the same files")
        group.kill(0)
        before = [read_bytes(group.path(name)) for name in COPIES]
        # keys of another member, which the log refuses
        other = json.dumps({"own": 1, "keys": key_texts(1)})
        kept = read_bytes(group.given("keys-0"))
        write_text(group.given("keys-0"), other)
        status, _, errors = group.start(0).end()
        same((status, "payd: log 3 Foreign Member\n" in errors), (2, True), errors)
        same([read_bytes(group.path(name)) for name in COPIES], before, "behind a start that ended")
        # the same keys in another form, and other names
        write_text(group.given("keys-0"), json.dumps(json.loads(kept), indent=1))
        write_text(group.given("genesis"), json.dumps({**group.genesis(), "names": NAMES[::-1]}))
        group.start(0).front()
        group.judge()
        told = json.loads(tool("status", "--data", group.path("."), "--json")[1])
        same(told["name"], "Di", "a name")


def test_a_copy_that_others_may_read_and_one_that_was_cut_are_made_anew():
    with Named(OPENING, running=[0]) as group:
        group.kill(0)
        os.chmod(group.path("keys.json"), 0o644)
        write_text(group.path("keys.json.new"), "{")
        os.chmod(group.path("keys.json.new"), 0o666)
        write_text(group.path("group.json"), "{")
        group.start(0).front()
        group.judge()


def test_copies_that_fail_change_no_start():
    with Named(OPENING) as group:
        group.kill(0)
        for name in COPIES:
            os.unlink(group.path(name))
            os.mkdir(group.path(name))
        group.start(0).front()
        group.pay(0, 1, 1, 30, 0)
        group.settle([1, 0, 0, 0], [70, 30, 0, 50])
        said = [f"payd: data-0/{name} can't be written: it is a folder\n" for name in COPIES]
        status, _, errors = group.end(0)
        lines = [line for line in errors.splitlines(True) if "written" in line]
        same((status, lines), (0, said), "what is said of them")


def test_the_copies_can_be_given():
    """A start that is given them takes them, and leaves them."""
    with Named(OPENING) as group:
        group.kill(0)
        for copy, of in (("group.json", "genesis"), ("keys.json", "keys-0")):
            os.unlink(group.given(of))
            os.symlink(group.path(copy), group.given(of))
        group.start(0)
        group.pay(0, 1, 1, 30, 0)
        until(group.nodes[0].front, [1, 0, 0, 0], of="the front")
        same([os.path.islink(group.path(it)) for it in COPIES], [False] * 2, "whether they are links")
        group.judge()
