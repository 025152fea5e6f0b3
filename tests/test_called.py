"""Black-box tests of how a node calls its group and the members: by the fingerprint that people compare, and by their
names."""

import json
import os
import re
import subprocess
import tempfile

import pytest

from models import group_model
from support.nodes import Group, Node, free_ports, until, write_json
from support.runs import SECONDS, TOP, payd, same
from test_group import does, put, read

NAMES = "ada", "Zo\u00eb", "\u0416\u0430\u043d\u043d\u0430", "dee.d"
PATTERN = re.compile("payd: member ([^\n]+) of 4, genesis [0-9a-f]{8}, port ([0-9]+)(?:, group ([^\n]+))?\n")


@pytest.fixture
def folder():
    """A folder with the files of two groups of the same members, of which one has a unit, and the keys of both."""
    with tempfile.TemporaryDirectory() as folder:
        lines = [does(folder, "new", "--name", it, f"{own}.secret").strip() for own, it in enumerate(NAMES)]
        for name, unit in (("plain", []), ("euros", ["--unit", "EUR", "--decimals", "2"])):
            words = ["--faults", "1", "--opening", "100,0,0,50", "--ports", ",".join(map(str, free_ports(4)))]
            put(folder, f"{name}.json", does(folder, "make", *words, *unit, *lines))
            for own in range(4):
                does(folder, "keys", f"{name}.json", f"{own}.secret", f"{name}-{own}")
        yield folder


def first_line(folder, command, *words):
    done = subprocess.run([*command, *words], input=b"", cwd=folder, capture_output=True, timeout=SECONDS, check=False)
    line = next(it for it in done.stderr.decode().splitlines(True) if it.startswith("payd: member "))
    return PATTERN.fullmatch(line).groups()


def says_who_it_is(folder, name):
    """It says what `payd group show` prints, of whichever files it is given, and of the copies in its folder."""
    group = json.loads(read(folder, f"{name}.json"))
    told = [it for it in does(folder, "show", f"{name}.json").splitlines() if it.startswith("fingerprint ")]
    same(told, [f"fingerprint {group_model.fingerprint(group)}"], "what the group shows")
    for own, called in enumerate(NAMES):
        wanted = f"{own} {called}", f"{group['ports'][own]}", group_model.fingerprint(group)
        words = ["--genesis", f"{name}.json", "--keys", f"{name}-{own}", "--ports", f"{name}.json", "--dials", "1"]
        same(first_line(folder, [payd(), "node"], *words), wanted, f"member {own}")
    words = ["--genesis", f"{name}.json", "--keys", f"{name}-0", "--ports", f"{name}.json", "--data", "member", "--new"]
    wanted = f"0 {NAMES[0]}", f"{group['ports'][0]}", group_model.fingerprint(group)
    same(first_line(folder, [payd(), "node"], *words), wanted, "a new folder")
    same(first_line(folder, [os.path.join(TOP, "payd"), "node"], "--data", "member"), wanted, "the folder alone")


def test_a_node_says_its_members_name_and_the_fingerprint(folder):
    says_who_it_is(folder, "plain")


def test_the_fingerprint_that_a_node_says_is_of_the_unit_too(folder):
    says_who_it_is(folder, "euros")


def test_peers_are_called_by_their_names(folder):
    nodes = []
    os.symlink("plain.json", os.path.join(folder, "genesis"))
    try:
        for own in range(4):
            os.symlink(f"plain-{own}", os.path.join(folder, f"keys-{own}"))
            nodes.append(Node(own, folder, "plain.json"))
        for own, node in enumerate(nodes):
            wanted = {f"payd: peer {peer} {called} met" for peer, called in enumerate(NAMES) if peer != own}
            until(lambda node=node: (node.hear(), {*node.said.decode().splitlines()} & wanted)[1], wanted, of=f"{own}")
    finally:
        for node in nodes:
            node.kill()


def test_a_name_that_leaves_its_line_is_not_said():
    """Of a file that no tool made: then the number stands alone. A genesis that is no group's has no fingerprint."""
    hidden = ["a\npayd: peer 1 met", "b\u202e", "", "\u200bd"]
    with Group([100, 0, 0, 50], running=[]) as group:
        for names in (hidden, hidden[:1], "ada", [1, 2, 3, 4], None):
            write_json(group.place.name, "genesis", {**group.genesis(), "names": names})
            for own in range(4):
                words = ["--genesis", "genesis", "--keys", f"keys-{own}", "--ports", "ports", "--dials", "1"]
                was = first_line(group.place.name, [payd(), "node"], *words)
                same(was, (f"{own}", f"{group.ports[own]}", None), f"member {own} of {names}")
