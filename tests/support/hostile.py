"""Runs to which the system is hostile: each growth of memory, each read and each write refused in its turn.

A small library stands between the program and the C library (hostile.c).
"""

import os
import re
import subprocess
import tempfile
from collections import Counter

from support.nodes import fed, told_apart
from support.runs import SECONDS, payd, same

SOURCE = os.path.join(os.path.dirname(os.path.realpath(__file__)), "hostile.c")
MEMORY = re.compile("payd: (engine|genesis|keys|ports|export|close) 0 Memory\n|error: .*memory.*\n", re.DOTALL)

# Where this is refused more often than any run has calls of its kind, a loop over these has no end.
MOST_CALLS = 100_000
MOST_READS = 1_000_000
# How often a read is tried that the system interrupts.
MOST_TRIES = 1_000


class Hostile:
    """The library, in a folder of its own, and of each command how many calls of each kind it refused in turn."""

    def __enter__(self):
        self.refused = Counter()
        self.place = tempfile.TemporaryDirectory()
        self.library = os.path.join(self.place.name, "hostile.so")
        # (where there is no C compiler these tests fail: Debian's package gcc has one)
        words = ["cc", "-O1", "-shared", "-fPIC", "-o", self.library, SOURCE, "-ldl"]
        subprocess.run(words, check=True, timeout=SECONDS)
        return self

    def __exit__(self, *_):
        self.place.cleanup()

    def given(self, **wanted):
        """The environment of a run from which this is withheld."""
        given = {f"HOSTILE_{name.upper()}": f"{value}" for name, value in wanted.items()}
        return given | {"LD_PRELOAD": self.library, "HOSTILE_MARK": os.path.join(self.place.name, "mark")}

    def was_refused(self):
        """Whether it was, in the last run."""
        mark = os.path.join(self.place.name, "mark")
        was_refused = os.path.exists(mark)
        if was_refused:
            os.unlink(mark)
        return was_refused

    def run(self, words, stream, **wanted):
        """Status, output and errors of a run from which this is withheld, and whether it was."""
        how = {"capture_output": True, "timeout": SECONDS, "cwd": self.place.name}
        # (of a file each read gives as much as it asks for, so that runs alike make the same calls)
        with tempfile.TemporaryFile() as file:
            file.write(stream)
            file.seek(0)
            done = subprocess.run([payd(), *words], stdin=file, env={**os.environ, **self.given(**wanted)}, **how)
        errors = told_apart(done.stderr.decode())[1]
        return (done.returncode, done.stdout.decode("ascii"), errors), self.was_refused()

    def run_among(self, peers, words, stream, seconds=SECONDS, **wanted):
        """The same of a node that has its lines, which fit into a pipe, once it has met so many peers."""
        pipe = subprocess.PIPE
        how = {"stdin": pipe, "stdout": pipe, "stderr": pipe, "cwd": self.place.name, "bufsize": 0}
        with subprocess.Popen([payd(), *words], env={**os.environ, **self.given(**wanted)}, **how) as child:
            output, errors = fed(child, stream, peers, seconds)
        return (child.returncode, output, told_apart(errors)[1]), self.was_refused()

    def each(self, words, stream, name, **more):
        """A run for each call of this kind that a run has, each with one refused."""
        for place in range(1, MOST_CALLS):
            was, was_refused = self.run(words, stream, **{name: place}, **more)
            if not was_refused:
                same(place > 1, True, f"{words}: nothing was refused")
                return
            self.refused[f"{words[0]} {name}"] += 1
            yield place, was
        raise AssertionError(f"{words}: no end of calls to refuse")
