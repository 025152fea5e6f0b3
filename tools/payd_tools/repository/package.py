"""Makes a Debian package of the proved program, with all that tools/install installs.

usage: tools/package [--unproved] FOLDER

Makes FOLDER/payd_VERSION_amd64.deb by dpkg-deb, and FOLDER if it isn't there, and prints its path. Equal sources make
equal packages. --unproved takes the program that ./payd runs, for tests: its version ends with ~unproved, its
description says so, and so does the program at each run.

Beside what tools/install has, installing makes the user payd, and the folder /var/lib/payd for members by their names:
`systemctl enable --now payd@NAME` runs the one in /var/lib/payd/NAME. Removing ends their nodes. Neither removing nor
purging touches the folder, which is the members' money.
"""

from __future__ import annotations

import gzip
import os
import re
import subprocess
import sys
import tempfile
import textwrap
import time
from typing import Iterator

from payd_tools import usage
from payd_tools.repository import building, installing

OWNERS, = re.findall("^Copyright \\(c\\) (.*)$", installing.contents("LICENSE-MIT").decode(), re.MULTILINE)
MAINTAINER = f"{OWNERS.lstrip('0123456789 ')} <payd@maintainers.invalid>"
UNPROVED = "~unproved"

DEPENDS = (
    "libc6 (>= 2.34)",
    "python3 (>= 3.8)",
    *(f"systemd | systemd-standalone-{it} | systemd-{it}" for it in ("sysusers", "tmpfiles")),
)

CONTROL = """Package: payd
Version: {version}
Architecture: amd64
Maintainer: {maintainer}
Installed-Size: {size}
Depends: {depends}
Recommends: python3-cryptography
Suggests: openssh-client, stunnel4, wireguard-tools, socat
Section: utils
Priority: optional
Description: payment ledger without consensus{what}
 A ledger for groups whose members pay one another and trust nobody more than
 the others: each runs a node, keeps its own books, and pays from its own
 account, while fewer than a third of them lie.
 .
{proof}
"""

POSTINST = """#!/bin/sh
set -e
if [ "$1" = configure ]; then
    systemd-sysusers payd.conf
    # (where it can't, as without /proc, the next boot does it)
    systemd-tmpfiles --create payd.conf || true
    [ ! -d /run/systemd/system ] || systemctl daemon-reload
fi
"""
# (an upgrade leaves nodes alone, which go on by the old program until they are started again)
PRERM = """#!/bin/sh
set -e
if [ "$1" = remove ] && [ -d /run/systemd/system ]; then
    systemctl stop 'payd@*.service'
fi
"""
POSTRM = """#!/bin/sh
set -e
[ ! -d /run/systemd/system ] || systemctl daemon-reload
"""

# The program is the very file that was proved.
OVERRIDES = "payd: unstripped-binary-or-object [usr/lib/payd/payd]\n"

COPYRIGHT = """Format: https://www.debian.org/doc/packaging-manuals/copyright-format/1.0/

Files: *
Copyright: {owners}
License: Apache-2.0 or Expat

License: Apache-2.0
 On Debian systems /usr/share/common-licenses/Apache-2.0 has this license.

License: Expat
{expat}
"""


def wrapped(text: str, first: str = " ") -> str:
    """Returns text in lines as control files have them."""
    return textwrap.fill(text, 79, initial_indent=first, subsequent_indent=" " * len(first), break_on_hyphens=False)


def changelog(version: str, when: int) -> Iterator[str]:
    """Yields CHANGELOG.md as Debian has such a file."""
    stamp = time.strftime("%a, %d %b %Y %H:%M:%S +0000", time.gmtime(when))
    for part in re.split(r"^## ", installing.contents("CHANGELOG.md").decode(), flags=re.MULTILINE)[1:]:
        number, _, text = part.partition("\n")
        number = version if version.startswith(number) else number
        items = "".join(f"{wrapped(it, '  * ')}\n" for it in re.findall(r"^- (.*)$", text, re.MULTILINE))
        yield f"payd ({number}) unstable; urgency=medium\n\n{items}\n -- {MAINTAINER}  {stamp}\n"


def files(program: str, proof: str, version: str, when: int) -> dict[str, tuple[bytes, bool]]:
    """Returns the content of each file of the package and whether it is run, by its path from the root."""
    told = installing.OF_UNPROVED if UNPROVED in version else installing.OF_PROVED
    found = {}
    for place, (content, is_run) in installing.files("/usr", program, proof, told).items():
        if not os.path.basename(place).startswith("LICENSE"):
            found[f"usr/{place}".replace("zsh/site-functions", "zsh/vendor-completions")] = content, is_run
    expat = installing.contents("LICENSE-MIT").decode().partition("\n\n")[2].strip().replace("\n\n", "\n.\n")
    lines = "\n".join(f" {it}" for it in expat.split("\n"))
    found["usr/share/doc/payd/copyright"] = COPYRIGHT.format(owners=OWNERS, expat=lines), False
    found["usr/share/lintian/overrides/payd"] = OVERRIDES, False
    found["usr/share/doc/payd/changelog"] = "\n".join(changelog(version, when)), False
    return dict(pressed(*it) for it in found.items())


def pressed(path: str, content: tuple[bytes | str, bool]) -> tuple[str, tuple[bytes, bool]]:
    """Returns a file as a package has it: manual pages and the list of changes packed."""
    text, is_run = content
    text = text if isinstance(text, bytes) else text.encode()
    text = text.replace(b"#!/usr/bin/env -S python3 -B\n", b"#!/usr/bin/python3 -B\n") if is_run else text
    if "/man/" in path or path.endswith("/changelog"):
        return f"{path}.gz", (gzip.compress(text, mtime=0), is_run)
    return path, (text, is_run)


def build(folder: str, found: dict[str, tuple[bytes, bool]], control: str, when: int) -> str:
    """Lays the files out and has them packed; the path of the package."""
    found["DEBIAN/control"] = control.encode(), False
    for name, script in (("postinst", POSTINST), ("prerm", PRERM), ("postrm", POSTRM)):
        found[f"DEBIAN/{name}"] = script.encode(), True
    with tempfile.TemporaryDirectory() as root:
        for path, (content, is_run) in found.items():
            installing.write(root, path, content, 0o755 if is_run else 0o644)
        os.chmod(root, 0o755)
        env = {**os.environ, "SOURCE_DATE_EPOCH": f"{when}"}
        words = ["dpkg-deb", "--root-owner-group", "--build", root, folder]
        subprocess.run(words, env=env, stdout=subprocess.DEVNULL, check=True)
    _, version = re.search(r"^Package: (.*)\nVersion: (.*)$", control, re.MULTILINE).groups()
    return os.path.join(folder, f"payd_{version}_amd64.deb")


def chosen(is_unproved: bool) -> tuple[str, str]:
    """Returns the path of the program, and what is to be said of it."""
    if is_unproved:
        path, said = building.chosen()
        return path, f"for tests, though it is {said}" if said.startswith("proved") else said
    kind, said = building.find() or (None, "")
    if kind != building.PROVED:
        sys.exit("tools/package: the program isn't proved; ./payd-prove proves it")
    return building.path_of(kind), said


@usage.tool()
def main() -> None:
    words = usage.read_words(__doc__, lambda words: usage.are_names(words[-1:]) and words[:-1] in ([], ["--unproved"]))
    is_unproved = len(words) > 1
    program, proof = chosen(is_unproved)
    version = installing.version_of(program) + (UNPROVED if is_unproved else "")
    asks = ["git", "-C", installing.TOP, "log", "-1", "--format=%ct"]
    committed = subprocess.run(asks, stdout=subprocess.PIPE, stderr=subprocess.DEVNULL, check=False).stdout
    changed = os.stat(os.path.join(installing.TOP, "CHANGELOG.md")).st_mtime
    when = int(os.environ.get("SOURCE_DATE_EPOCH") or committed or changed)
    found = files(program, proof, version, when)
    size = sum(len(content) // 1024 + 1 for content, _ in found.values())
    parts = {"version": version, "size": size, "maintainer": MAINTAINER, "depends": ", ".join(DEPENDS)}
    parts["proof"] = wrapped(f"{proof[:1].upper()}{proof[1:]}.")
    control = CONTROL.format(what=", unproved" if is_unproved else "", **parts)
    os.makedirs(words[-1], exist_ok=True)
    print(build(words[-1], found, control, when))
