"""Prints how large the tree is, by kind: lines, files, crates, faults, mutants.

usage: tools/size [REVISION ..]

Each revision has a column, and without one the files as they stand. It is no test: it shows what a change adds.
"""

from __future__ import annotations

import os
import re
import statistics
import subprocess
from typing import Iterator

from payd_tools import usage
from payd_tools.repository.toolchain import TOP

TESTS_IN_RATTLE = re.compile(r"crates/\w+_tests/")
PYTHON = "tools", "tests", "bench", "examples", "vectors"


def git(*words: str) -> str:
    return subprocess.run(["git", *words], cwd=TOP, check=True, stdout=subprocess.PIPE).stdout.decode(errors="replace")


def texts_of(revision: str | None) -> Iterator[tuple[str, str]]:
    """Yields the text of each file of a revision, or of the files as they stand."""
    if revision is None:
        for name in git("ls-files").splitlines():
            path = os.path.join(TOP, name)
            if os.path.isfile(path) and not os.path.islink(path):
                with open(path, encoding="utf-8", errors="replace") as file:
                    yield name, file.read()
    else:
        for name in git("ls-tree", "-r", "--name-only", revision).splitlines():
            yield name, git("show", f"{revision}:{name}")


def is_python(name: str, text: str) -> bool:
    return name.split("/")[0] in PYTHON and (name.endswith(".py") or re.match("#!.*python", text)) is not None


def size_of(revision: str | None) -> Iterator[tuple[str, int]]:
    lines = dict.fromkeys(("src", "tests in Rattle", "specs", "proofs", "Python in tools", "Python elsewhere"), 0)
    mutants, crates, faults, traits, files, imports = 0, set(), set(), set(), [], 0
    for name, text in texts_of(revision):
        count = text.count("\n")
        parts = name.split("/")
        if parts[0] == "crates" and len(parts) > 2:
            crates.add(parts[1])
            mutants += parts[2] == "mutants"
            kind = parts[2] if parts[2] in ("src", "specs", "proofs") else None
            if kind == "src" and TESTS_IN_RATTLE.match(name):
                kind = "tests in Rattle"
            elif kind == "src":
                files.append(count)
                imports += len(re.findall(r"^(?:pub )?(?:ghost )?use ", text, re.MULTILINE))
                faults |= set(re.findall(r"^pub(?:\(crate\))? enum (\w*(?:Fault|Stop))\b", text, re.MULTILINE))
                traits |= set(re.findall(r"^pub(?:\(crate\))? trait (\w+)", text, re.MULTILINE))
            if kind:
                lines[kind] += count
        elif is_python(name, text) or parts[0] in ("payd-prove",):
            lines["Python in tools" if parts[0] in ("tools", "payd-prove") else "Python elsewhere"] += count
    yield from ((f"lines of {kind}", count) for kind, count in lines.items())
    yield "files of src", len(files)
    yield "lines of a file of src, median", int(statistics.median(files))
    yield "imports in src", imports
    counts = {"crates": len(crates), "mutants": mutants, "types of faults": len(faults), "traits": len(traits)}
    yield from counts.items()


@usage.tool()
def main() -> None:
    revisions = usage.read_words(__doc__, lambda words: not words or usage.are_names(words)) or [None]
    columns = [dict(size_of(it)) for it in revisions]
    for name in columns[0]:
        print(f"{name:32}" + "".join(f"{column[name]:10,}" for column in columns))
