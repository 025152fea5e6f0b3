"""The program that stands beside a script, in a clone or where tools/install put it, why it ended, and whether one that
runs is proved."""

from __future__ import annotations

import hashlib
import os

from payd_tools.usage import Failure

# The folder of the tools.
HERE = os.path.dirname(os.path.dirname(os.path.realpath(__file__)))
# In a clone the program is at the top; installed, it is below the folder `bin` of the same prefix.
PLACES = os.path.join(HERE, os.pardir, "payd"), os.path.join(HERE, os.pardir, os.pardir, "bin", "payd")

# How the line begins that names the file of the fault above it.
IN_FILE = "payd: in "


def program() -> str:
    """Returns the path of the program."""
    for it in PLACES:
        if os.path.isfile(it):
            return os.path.normpath(it)
    raise Failure("the program payd isn't here")


def is_proved(process: int) -> bool | None:
    """Returns whether the program that a process runs is proved: by the sum of the one that was, which a clone keeps
    beside it, or by what stands beside an installed one. None where neither tells."""
    running = f"/proc/{process}/exe"
    try:
        path = os.readlink(running)
        folder = os.path.dirname(path)
        if os.path.basename(folder) == ".built":
            with open(os.path.join(folder, "state"), encoding="utf-8") as state, open(running, "rb") as program:
                records = [line.split(" ") for line in state if line.startswith("proved ")]
                own = hashlib.blake2b(program.read(), digest_size=32).hexdigest()
            return own in {record[2] for record in records}
        # (else it was replaced since)
        if os.path.samefile(running, path):
            with open(os.path.join(folder, "proved"), encoding="utf-8") as proof:
                return proof.read().startswith("proved")
    except OSError:
        pass
    return None


def reason_in(errors: str) -> str:
    """Returns why the program ended, by what it says on standard error: the last line, behind the fault and the file
    that has it where one has."""
    lines = errors.strip().split("\n")
    place = next((at for at, line in enumerate(lines) if at and line.startswith(IN_FILE)), None)
    if place is None:
        return lines[-1]
    more = [line[len("payd: ") :] for line in lines[place + 1 :]]
    return ": ".join([lines[place - 1] + lines[place][len("payd:") :], *more])
