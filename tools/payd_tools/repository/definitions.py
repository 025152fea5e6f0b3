"""Which definitions of specs/ a definition rests on: those that it names, and those that these name.

Files are read as `rt fmt` lays them out: a definition begins at the left, and what goes on stands further in. Types of
the sources and all of std are left out, for they are defined elsewhere.
"""

from __future__ import annotations

import functools
import os
import re

from payd_tools.repository.inventory import read_file
from payd_tools.repository.toolchain import TOP

USE = re.compile(r"^use Rattle\.(\w+)\.specs\.([\w.]+)\.\{([^}]*)\}", re.MULTILINE)
BEGINNING = re.compile(r"(?:pub )?(?:(?:abbrev|unfoldable) )?(?:pub )?(?:(?:record|data) )?([^\s:(){}]+)")
NAME = re.compile(r"[^\s(){}\[\],.;→λ]+")


@functools.lru_cache(None)
def read_definitions(crate: str, module: str) -> tuple[dict[str, tuple[str, str]], dict[str, str]]:
    """Returns the names that a module of specs/ imports, each with the place that it is from; and the text of each
    definition there. Of a module that has no file there are none."""
    path = f"{TOP}/crates/{crate}/specs/{module}.antt"
    text = re.sub(r" *--.*", "", read_file(path)) if os.path.isfile(path) else ""
    imported = {name.strip(): (of, place) for of, place, names in USE.findall(text) for name in names.split(",")}
    defined, name = {}, None
    for line in USE.sub("", text).splitlines():
        begun = BEGINNING.match(line) if line[:1].strip() else None
        name = begun[1] if begun else name
        if name:
            defined[name] = f"{defined.get(name, '')}{line}\n"
    return imported, defined


def rests_on(crate: str, module: str, name: str) -> dict[str, list[str]]:
    """Returns the definitions that one rests on, itself among them: of each crate the names, by the alphabet."""
    found, to_read = set(), [(crate, module, name)]
    while to_read:
        at = to_read.pop()
        imported, defined = read_definitions(*at[:2])
        if at in found or at[2] not in defined:
            continue
        found.add(at)
        for other in NAME.findall(defined[at[2]]):
            place = (at[0], at[1]) if other in defined else imported.get(other)
            to_read += [(*place, other)] if place else []
    crates = sorted({it for it, *_ in found})
    named = {it: {name for of, _, name in found if of == it} for it in crates}
    return {it: sorted(names, key=lambda name: (name.lower(), name)) for it, names in named.items()}
