"""Installs the proved program below a prefix, so that it runs without this repository.

usage: tools/install PREFIX
       tools/install --uninstall PREFIX

  PREFIX/bin/payd                                  runs the program, or a tool that its first word names; before
                                                   --version it says what was proved, by what
  PREFIX/lib/payd/                                 the program, what was proved, and a list of all that is installed
  PREFIX/libexec/payd/                             the tools and their modules
  PREFIX/lib/systemd/system/payd@.service          members' nodes as services, which nothing starts yet
  PREFIX/lib/{sysusers.d,tmpfiles.d}/payd.conf     their user and that of tunnels, and the folder of their members
  PREFIX/share/doc/payd/                           README.md, CHANGELOG.md, licences, docs/ and examples/
  PREFIX/share/man/man1/payd.1                     what --help says of each command and tool
  PREFIX/share/man/man5/payd.5                     what the documents say of files
  PREFIX/share/bash-completion/completions/payd, PREFIX/share/zsh/site-functions/_payd,
  PREFIX/share/fish/vendor_completions.d/payd.fish

A program that isn't proved is not installed: ./payd-prove proves it. With DESTDIR in the environment all stands below
that folder, to be moved to the prefix. What an earlier version had and this one hasn't is removed, and --uninstall
removes all, but for folders that others made or use. No member's folder is touched.
"""

from __future__ import annotations

import contextlib
import os
import sys

from payd_tools import usage
from payd_tools.repository import building, installing

# What is installed, a line each; a folder's ends with a slash.
LIST = "lib/payd/installed"

# What the service manager takes in no program's path.
SIGNS = {*"'\"\\"}


def listed(top: str) -> list[str]:
    with contextlib.suppress(FileNotFoundError), open(os.path.join(top, LIST), encoding="utf-8") as file:
        return file.read().splitlines()
    return []


def folders_above(place: str) -> list[str]:
    above = os.path.dirname(place)
    return [*folders_above(above), f"{above}/"] if above else []


def install(top: str, files: dict[str, tuple[bytes | str, bool]]) -> None:
    before, above = listed(top), {it for place in [*files, LIST] for it in folders_above(place)}
    made = [it for it in sorted(above) if it in before or not os.path.isdir(os.path.join(top, it))]
    installed = [*made, *sorted(files), LIST]
    # (whatever ends this before its end, all that it made is in the list)
    installing.write(top, LIST, "".join(f"{it}\n" for it in dict.fromkeys(before + installed)), 0o644)
    for place, (content, is_run) in files.items():
        installing.write(top, place, content, 0o755 if is_run else 0o644)
    remove(top, [it for it in before if it not in installed])
    installing.write(top, LIST, "".join(f"{it}\n" for it in installed), 0o644)


def remove(top: str, places: list[str]) -> None:
    for place in sorted(places, reverse=True):
        path = os.path.join(top, place)
        with contextlib.suppress(FileNotFoundError):
            if not place.endswith("/"):
                os.unlink(path)
            elif not os.listdir(path):
                os.rmdir(path)


@usage.tool()
def main() -> None:
    words = usage.read_words(__doc__, lambda words: usage.are_names(words[-1:]) and words[:-1] in ([], ["--uninstall"]))
    prefix = os.path.abspath(words[-1])
    if not prefix.isprintable() or not SIGNS.isdisjoint(prefix):
        usage.refuse("tools/install: no service runs a program below a prefix with quotes, backslashes or lines in it")
    top = f"{os.environ.get('DESTDIR', '')}{prefix}"
    if words[:-1]:
        if not (places := listed(top)):
            sys.exit(f"tools/install: nothing is installed below {usage.shown(top)}")
        remove(top, places)
        print(f"removed below {usage.shown(top)}")
        return
    kind, proof = building.find() or (None, "")
    if kind != building.PROVED:
        sys.exit("tools/install: the program isn't proved; ./payd-prove proves it")
    install(top, installing.files(prefix, building.path_of(kind), proof))
    print(f"installed below {usage.shown(top)}: {proof}")
