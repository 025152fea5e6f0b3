"""Stories of members who hand named lines over, of whom one swaps two: by payd group new, make and show."""

import itertools
import json
import os
import tempfile

import pytest

from support.runs import same
from test_group import does, put, read, tool

NAMES = ["ada", "bob", "cy", "dee"]
MAKE = ["make", "--faults", "1", "--opening", "100,0,0,50"]


@pytest.fixture
def folder():
    """A folder with each member's secret and the line that it hands over."""
    with tempfile.TemporaryDirectory() as folder:
        for name in NAMES:
            put(folder, f"{name}.line", does(folder, "new", "--name", name, f"{name}.secret"))
        yield folder


def line_of(folder, name):
    return read(folder, f"{name}.line").strip()


def keys_of(folder, name):
    return does(folder, "public", f"{name}.secret").strip()


def test_a_line_has_its_members_name(folder):
    for name in NAMES:
        same(line_of(folder, name), f"{name}:{keys_of(folder, name)}", f"the line of {name}")
        same(does(folder, "public", "--name", name, f"{name}.secret").strip(), line_of(folder, name), "it again")
    why = "payd group: 7: a name has letters and digits of one script, NFC, and a letter first\n"
    same(tool(folder, "new", "--name", "7", "no.secret"), (1, "", why), "a name that is none")
    same(os.path.exists(os.path.join(folder, "no.secret")), False, "a secret of no name")


def test_keys_meet_their_names_in_any_order(folder):
    """As words, as files, and as one file of all; the numbers are those of --names, and without it of the lines."""
    put(folder, "all", "".join(f"{line_of(folder, it)}\n" for it in reversed(NAMES)))
    wanted = [keys_of(folder, it) for it in NAMES]
    words = [[f"{it}.line" for it in order] for order in itertools.permutations(NAMES)]
    for given in (*words[::5], ["all"], [line_of(folder, "dee"), "bob.line", line_of(folder, "ada"), "cy.line"]):
        group = json.loads(does(folder, *MAKE, "--names", ",".join(NAMES), *given))
        same((group["names"], group["public"]), (NAMES, wanted), f"the group of {given}")
    group = json.loads(does(folder, *MAKE, "all"))
    same((group["names"], group["public"]), (NAMES[::-1], wanted[::-1]), "without --names")


def test_swapped_keys_are_seen(folder):
    """Dee makes the group, with Ada's name before her own keys: then Ada isn't who she should be."""
    keys = {name: keys_of(folder, name) for name in NAMES}
    keys["ada"], keys["dee"] = keys["dee"], keys["ada"]
    put(folder, "swapped.json", does(folder, *MAKE, *(f"{name}:{it}" for name, it in keys.items())))
    put(folder, "group.json", does(folder, *MAKE, *(f"{name}.line" for name in NAMES)))
    for file, name, said in (
        ("group.json", "ada", "you are member 0, ada; your account opens with 100"),
        ("group.json", "dee", "you are member 3, dee; your account opens with 50"),
        ("swapped.json", "ada", "you are member 3, dee; your account opens with 50"),
        ("swapped.json", "bob", "you are member 1, bob; your account opens with 0"),
    ):
        shown = does(folder, "show", file, f"{name}.secret").splitlines()
        same(shown, [*does(folder, "show", file).splitlines(), said], f"{file} of {name}")
    prints = {does(folder, "show", it).splitlines()[-1] for it in ("group.json", "swapped.json")}
    same(len(prints), 2, "different fingerprints")
    does(folder, "new", "eve.secret")
    none = "payd group: eve.secret: the secret's public key is none of the group's\n"
    status, _, errors = tool(folder, "show", "group.json", "eve.secret")
    same((status, errors), (1, none), "who is no member")


def test_lines_that_make_no_group(folder):
    lines = [f"{name}.line" for name in NAMES]
    names = ["--names", ",".join(NAMES)]
    put(folder, "none", "hello\n")
    for words, why in (
        ([*names, *lines[:3], keys_of(folder, "dee")], "each line has its member's name before its keys, or none has"),
        ([*names, *lines, "dee.line"], "dee has handed over two lines"),
        ([*names, *lines[:3]], "dee has handed over no line"),
        (["--names", "ada,bob,cy", *lines], "dee has handed over a line, and is none of --names"),
        ([*lines[:3], f"Ada:{keys_of(folder, 'dee')}"], "members 0 and 3 have names that look alike"),
        ([*lines[:3], f"eve:{keys_of(folder, 'ada')}"], "members 0 and 3 have one public key"),
        ([*lines[:3], "gone"], "gone: it is neither what `new` prints nor a file of that"),
        ([*lines[:3], "none"], "none: it has a line that `new` didn't print"),
        ([*lines[:3], "dee.secret"], "dee.secret: it has a line that `new` didn't print"),
    ):
        same(tool(folder, *MAKE, *words), (1, "", f"payd group: {why}\n"), f"{words}")
