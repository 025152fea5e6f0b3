"""Black-box tests of what files take of memory: at most 16 times their size, or they are refused by name."""

import json
import os
import subprocess
import sys

from models import audits
from payd_tools.frames import payment
from support.runs import EXAMPLE_GENESIS, SECONDS, TOP, same, write_text

TIMES = 16
# What Python takes with its packages before it reads a file, in bytes.
BASE = 64 << 20
SIZE = 4 << 20
MEASURE = "import os, sys; child = os.posix_spawn(sys.argv[1], sys.argv[1:], os.environ)"
MEASURE += "; print(os.wait4(child, 0)[2].ru_maxrss * 1024, file=sys.stderr)"


def taken(words, folder):
    """Output, errors and bytes of memory of a run, whose parent is small."""
    words = [sys.executable, "-c", MEASURE, *words]
    done = subprocess.run(words, cwd=folder, capture_output=True, text=True, timeout=4 * SECONDS)
    *errors, memory = done.stderr.splitlines()
    return done.stdout, errors, int(memory)


def tool(name):
    return os.path.join(TOP, "tools", name)


def filled(part, size=SIZE):
    """A list of JSON with so many bytes of these parts."""
    return f"[{(part + ',') * (size // (len(part) + 1))}0]"


def test_files_of_json_take_no_more_than_they_may(folder):
    """Of many objects, lists, texts and numbers: it is refused by name, before most of that memory is taken."""
    for part in ("[]", "{}", '{"a":1}', '""', "0", "257", '"\U0001f600"', "[[[]]]", '{"a":{}}'):
        write_text(os.path.join(folder, "big"), filled(part))
        size = os.path.getsize(os.path.join(folder, "big"))
        of_evidence = "--group", EXAMPLE_GENESIS, "--keys", "big"
        for words in (["group", "show", "big"], ["evidence", "--check", "big", *of_evidence]):
            output, errors, memory = taken([tool(words[0]), *words[1:]], folder)
            same((output, len(errors), f"payd {words[0]}: big: " in errors[0]), ("", 1, True), f"{part}: {errors}")
            same(memory <= TIMES * size + BASE, True, f"{words[0]} of {size} bytes of {part} takes {memory}")


def test_a_page_takes_no_more_than_it_may(folder):
    """Of 160,000 payments, settled or waiting, of values of one payment."""
    members, count = 4, 40_000
    lists = [count * [payment(payee=(owner + 1) % members, amount=1).hex()] for owner in range(members)]
    for opening, front in ((count, count), (0, 0)):
        export = audits.export(members * [opening], lists, members * [front], members * [opening])
        write_text(os.path.join(folder, "export"), json.dumps(export))
        size = os.path.getsize(os.path.join(folder, "export"))
        output, errors, memory = taken([tool("report"), "export"], folder)
        same((output.startswith("<!DOCTYPE html>"), errors), (True, []), "the page")
        same(memory <= TIMES * size + BASE, True, f"a page of {size} bytes takes {memory}")


def test_a_picture_counts_before_it_plays(folder):
    """A script of more events or lines than a picture holds is refused before all are played, which takes long."""
    head = json.dumps({"members": 4, "faults": 1, "opening": [10**6] * 4, "liars": []})
    asks = "".join(f"ask {turn % 4} {(turn + 1) % 4} 1\n" for turn in range(300))
    for lines, said in (
        (f"{head}\n{asks}all\n", "it has more than 2000 events, and a picture holds no more: draw a part of it"),
        (f"{head}\n{asks * 70}all\n", "it has 21002 lines, and a picture holds 2000 events: draw a part of it"),
    ):
        write_text(os.path.join(folder, "script"), lines)
        how = {"capture_output": True, "text": True, "timeout": SECONDS, "cwd": folder}
        done = subprocess.run([tool("draw"), "script"], **how)
        same((done.returncode, done.stdout, done.stderr), (1, "", f"payd draw: {said}\n"), "what is said")
