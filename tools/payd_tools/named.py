"""Tells an audit, a group's book or a statement with the names of members and files beside the program's numbers.

usage: payd audit --group GROUP [--all] EXPORT ..
       payd book --group GROUP [--genesis|--export] [--unsigned] [--incomplete] EXPORT ..
       payd book --genesis --unsigned [--incomplete] EXPORT ..
       payd statement --group GROUP EXPORT [MEMBER]

Output is that of the program, with a member's name behind its number, and behind a line that is about exports their
files. MEMBER is a name or a number. The first export has to be one of the group.

`book --genesis` takes exports that their members signed for this group, as `payd group next` does. Standard error says
who signed what, and where the book has more of an account than its member's own export. --unsigned takes what nobody
signed. Exports of fewer than 2f + 1 members may lack payments that settled: --incomplete takes them all the same.

The status is that of the program; 1 too if the files don't belong together, or if what is missing for it is a word.
"""

from __future__ import annotations

import argparse
import json
import os
import subprocess
import sys

from payd_tools import nearby_program, signing, usage
from payd_tools.groups import Genesis, Group, about, read_group, read_object
from payd_tools.naming import named, with_files
from payd_tools.next_group import beyond_own, check_are_enough, signed_exports
from payd_tools.usage import Failure

COMMANDS = "audit", "book", "statement"
# Has `payd` run the program, and not this tool again.
PLAIN = {**os.environ, "PAYD_PLAIN": "1"}


def run(words: list[str], folder: str | None = None) -> tuple[int, str]:
    """Runs the program, whose errors are this tool's, and returns its status and what it prints."""
    words = [nearby_program.program(), *words]
    sys.stdout.flush()
    done = subprocess.run(words, stdout=subprocess.PIPE, text=True, check=False, cwd=folder, env=PLAIN)
    return done.returncode, done.stdout


def exports_of_next(given: argparse.Namespace, group: Group | None) -> None:
    """Says on standard error what the next group's genesis rests on, and refuses what isn't enough for it."""
    if group is None:
        if not given.unsigned:
            why = "--group GROUP checks who signed the exports, and --unsigned takes what nobody signed"
            raise Failure(f"--genesis without either may be what whoever brings the exports has made up: {why}")
        with about(given.export[0]):
            group = Genesis(read_object(given.export[0]))
        members = {signing.read_document(it, group).member for it in given.export}
        check_are_enough(group, members, given.incomplete)
        return
    found = signed_exports(group, given)
    with signing.copies_of(found) as folder:
        status, book = run(["book", "--export", "--", *(f"{it}" for it, _ in enumerate(found))], folder)
    lists = json.loads(book)["lists"] if status == 0 else [[] for _ in range(group.members)]
    for line in beyond_own(group, zip(given.export, found), lists):
        usage.tell(line, of="")


def words_of(given: argparse.Namespace, group: Group | None) -> list[str]:
    """Returns the words of the program's command."""
    flags = [f"--{it}" for it in ("all", "genesis", "export") if getattr(given, f"is_{it}")]
    words = list(given.export)
    if given.command == "statement" and len(words) > 1:
        words[1:2] = [f"{group.member(words[1])}"]
    return [given.command, *flags, "--", *words]


def check_is_of(name: str, group: Group | None) -> None:
    """Refuses to name the members of an export of another group."""
    document = signing.read_document(name, group)
    if document.kind != "export":
        raise Failure(f"{name}: it is no export of this group")


def read_words() -> tuple[argparse.Namespace, bool]:
    words = usage.parser(__doc__)
    words.add_argument("command", choices=COMMANDS, help="what is told")
    words.add_argument("--group", help="the group's file")
    for name, of_it in (("all", "all that is wrong"), ("genesis", "the next group's genesis"), ("export", "an export")):
        words.add_argument(f"--{name}", dest=f"is_{name}", action="store_true", help=f"writes {of_it}")
    words.add_argument("--unsigned", action="store_true", help="takes exports that nobody signed")
    words.add_argument("--incomplete", action="store_true", help="takes exports of fewer than 2f + 1 members")
    words.add_argument("export", nargs="+", help="the file of a member's export; of a statement, a member behind it")
    given = words.parse_intermixed_args()
    is_next = given.command == "book" and given.is_genesis
    if given.group is None and not is_next:
        words.error("--group is missing")
    if (given.unsigned or given.incomplete) and not is_next:
        words.error("--unsigned and --incomplete go with book --genesis")
    return given, is_next


@usage.tool()
def main() -> int:
    given, is_next = read_words()
    sys.argv[0] = given.command
    group = read_group(given.group) if given.group is not None else None
    if is_next:
        exports_of_next(given, group)
    status, text = run(words_of(given, group))
    if status not in (0, 1) or given.is_genesis or given.is_export and status == 0:
        print(text, end="", flush=True)
        return status
    check_is_of(given.export[0], group)
    names = [usage.shown(it) for it in given.export]
    for line in text.splitlines():
        print(named(group, with_files(line, names) if given.command != "statement" else line))
    sys.stdout.flush()
    return status
