"""Audits exports of which each is signed by its member.

usage: payd audit-signed --group GROUP EXPORT..

A line for each export says who signed it and when, by the file EXPORT.sig of `payd sign`; or that nobody did, that
another member did, that it was for another group, or that the export is another one since. If each is signed by its
member, the last line is that of `payd audit`. The status is 0 if that is clean, else 1.
"""

from __future__ import annotations

from payd_tools import signing, usage
from payd_tools.exports import said
from payd_tools.groups import read_group


@usage.tool()
def main() -> int:
    words = usage.parser(__doc__)
    words.add_argument("--group", required=True, help="the group's file")
    words.add_argument("export", nargs="+", help="the file of a member's export")
    given = words.parse_args()
    group = read_group(given.group)
    found = [signing.read_signed(it, group) for it in given.export]
    for name, it in zip(given.export, found):
        print(f"{usage.shown(name)}: {it.said}")
    if not all(it.is_signed for it in found):
        return 1
    with signing.copies_of(found) as folder:
        line = said("audit", "--", *(f"{place}" for place, _ in enumerate(found)), folder=folder)
    print(line, end="", flush=True)
    return 0 if line == "clean\n" else 1
