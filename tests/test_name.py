"""Whether a name has one sense, and whether names of functions and definitions are no bare participles."""

import collections
import os
import re

from payd_tools.repository.inventory import files_below, read_crates, read_file
from support.runs import TOP, same

# Definitions that several crates have under one name, each with the same sense.
SAME_IN_SEVERAL = {
    "A": "a value of the worked examples",
    "B": "another value of theirs",
    "four": "the group of the worked examples",
    "decoded_bytes": "what hexadecimal digits spell, in crates that don't know each other",
    "end_of_line": "the end of a line, in crates that don't know each other",
    "if_last": "what is asked for where no word is left, in crates that don't know each other",
    "is_want": "whether a kind is a WANT, in the words of each crate's cases",
}

# Participles that are the book's terms for what a process did, and calls that give just that.
PARTICIPLES = {
    "answered": "what a gate hears of a call, as of an event",
    "delivered": "the book's term",
    "echoed": "the book's term",
    "readied": "the book's term",
    "sent": "what a member sent, beside what it delivered",
}
IRREGULAR = set(
    "begun bought bound broken brought built caught chosen done drawn driven fed felt forgotten found frozen given gone"
    " grown heard held hidden kept known laid led left lent lost made meant met paid proven said seen sent shown sold"
    " spent split spoken stolen stood stuck sworn taken taught thrown told torn understood undone untaken unseen unsent"
    " untold won worn wound written".split()
)
ENDS_ALIKE = {"feed", "need", "seed"}

DEFINITION = re.compile(r"(?m)^(?:abbrev |unfoldable )?pub (?:record |data )?([^\s:({]+)")


def definitions():
    """The public definitions of specs/, each with its crate."""
    for crate in read_crates():
        folder = f"{TOP}/crates/{crate.name}/specs"
        for path in files_below(folder, ".antt"):
            for name in DEFINITION.findall(read_file(os.path.join(folder, path))):
                if name not in ("mod", "use"):
                    yield crate.name, name


def is_participle(name):
    return name in IRREGULAR or re.fullmatch(r"[a-z]+ed", name) and name not in ENDS_ALIKE


def test_definitions_have_one_sense():
    crates = collections.defaultdict(set)
    for crate, name in definitions():
        crates[name].add(crate)
    several = {name: sorted(known) for name, known in crates.items() if len(known) > 1}
    fresh = {name: known for name, known in several.items() if name not in SAME_IN_SEVERAL}
    same(fresh, {}, "definitions of one name in several crates")
    same(sorted(SAME_IN_SEVERAL.keys() - several.keys()), [], "names that no two crates have any more")


def test_names_are_no_participles():
    found = {name for _, name in definitions()}
    found |= {it.name for crate in read_crates() for it in crate.functions if not it.is_test}
    found = {it for it in found if is_participle(it)}
    same(sorted(found - PARTICIPLES.keys()), [], "names of functions and definitions that are participles")
    same(sorted(PARTICIPLES.keys() - found), [], "participles that nothing is named any more")
