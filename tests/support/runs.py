"""What the tests share: runs of the program, what is compared, and files of genesis and keys."""

import functools
import json
import os
import re
import subprocess
import tempfile

from payd_tools.frames import test_key
from payd_tools.repository import building
from support.advices import told_plainly

TOP = os.path.dirname(os.path.dirname(os.path.dirname(os.path.realpath(__file__))))

SECONDS = 60

# What is said of an output that can't be written, by a pipe that nobody reads and by a full disk.
UNWRITTEN = [f"the output can't be written: {it}" for it in ("Broken pipe", "No space left on device")]

# Files of keys are made that nobody else may read: a node says so where others may.
os.umask(0o077)

# ---- runs


@functools.lru_cache(None)
def payd():
    """The path of the program that ./payd runs, which is compiled first where there is none. Started by it, a program
    that isn't proved says no line on standard error that a proved one doesn't."""
    return os.environ.get("PAYD_PROGRAM") or building.chosen()[0]


def in_gate():
    """Whether these are the tests of the gate, which rt ci ran before."""
    return "PAYD_PROVED" in os.environ


def heard(errors):
    """What a script that calls ./payd says on standard error, without the line on a program that isn't proved."""
    return re.sub(r"(?m)^payd: (?:UNVERIFIED|not proved).*\n", "", errors)


# The surroundings of a script whose output waits in a buffer, as it does unless Python is told otherwise.
BUFFERED = {name: value for name, value in os.environ.items() if name != "PYTHONUNBUFFERED"}


def run_to_nobody(words):
    """Of a script whose output can't be written its status and errors, to a pipe that nobody reads and a full disk."""
    source, closed = os.pipe()
    os.close(source)
    for sink in (closed, os.open("/dev/full", os.O_WRONLY)):
        done = subprocess.run(words, stdout=sink, stderr=subprocess.PIPE, env=BUFFERED, timeout=SECONDS)
        os.close(sink)
        yield done.returncode, told_plainly(done.stderr.decode())


def call(words, stream=b"", folder=None, **how):
    """Status, standard output and standard error of a command."""
    done = subprocess.run(words, input=stream, capture_output=True, cwd=folder, timeout=SECONDS, **how)
    return done.returncode, done.stdout.decode(), told_plainly(done.stderr.decode())


def run(words, stream=b""):
    """Status, standard output and standard error of a run."""
    return call([payd(), *words], stream)


def same(was, wanted, of):
    if was != wanted:
        raise AssertionError(f"{of}: {was!r} in place of {wanted!r}")


def shows(was, status, output, errors="", of="run"):
    """Status, output and errors of a run are these."""
    same(was, (status, output, errors), of)


# ---- files


def read_text(path):
    with open(path, encoding="utf-8") as file:
        return file.read()


def read_bytes(path):
    with open(path, "rb") as file:
        return file.read()


def write_text(path, text):
    with open(path, "w", encoding="utf-8") as file:
        file.write(text)


def of_file(line, name, member=None):
    """What is said of a file that has a fault: its line, and then the file, and whose key in it."""
    place = name if member is None else f"{name}, the key for member {member}"
    return f"payd: {line}\npayd: in {place}\n"


def of_keys(fault, name, content):
    """The same of a file of keys, in which the least place with a bad key is sought."""
    if fault != "5 BadKey":
        return of_file(f"keys {fault}", name)
    said = content if isinstance(content, dict) else json.loads(content)
    right = [re.fullmatch("" if at == said["own"] else "[0-9A-Fa-f]{64}", it) for at, it in enumerate(said["keys"])]
    return of_file(f"keys {fault}", name, right.index(None))


GENESIS = {"members": 4, "faults": 1, "opening": [100, 0, 0, 50]}
EXAMPLE_GENESIS = os.path.join(TOP, "examples", "genesis.json")


def example_keys(own):
    return os.path.join(TOP, "examples", f"keys-{own}.json")


def key_texts(own, members=4):
    """The test keys of a member as a file has them."""
    return ["" if peer == own else test_key(own, peer).hex() for peer in range(members)]


def with_files(files, words, stream=b""):
    """A run in a folder with these files, each given as bytes, as text or as a value."""
    with tempfile.TemporaryDirectory() as folder:
        for name, content in files.items():
            if not isinstance(content, (bytes, str)):
                content = json.dumps(content)
            with open(os.path.join(folder, name), "wb") as file:
                file.write(content.encode() if isinstance(content, str) else content)
        return call([payd(), *words], stream, folder=folder)


def genesis_of(members, faults, opening):
    return {"members": members, "faults": faults, "opening": opening}


RIGHT = '{"members":4,"faults":1,"opening":[100,0,0,50]}'
# Genesis files that have a fault, and the fault.
GENESIS_ROWS = [
    *((text, "1 BadJson") for text in ("", "{", f"{RIGHT}x", f"\ufeff{RIGHT}", RIGHT.replace("50", "1e999"))),
    *((f'{RIGHT[:-1]},"x":{it}}}', "1 BadJson") for it in ('"\\ud800"', 200 * "[" + 200 * "]")),
    (RIGHT[:-1].encode() + b',"x":"\xff"}', "1 BadJson"),
    *((text, "2 BadShape") for text in ("[]", "null", RIGHT.replace("50", "18446744073709551616"))),
    *(({it: value for it, value in GENESIS.items() if it != name}, "2 BadShape") for name in GENESIS),
    *((genesis_of(*it), "2 BadShape") for it in (("4", 1, []), (4, None, []), (4, 1, 100), (129, 1, ["100"]))),
    *((f'{{"members":{it},"faults":1,"opening":[]}}', "2 BadShape") for it in ("4.0", "4e0", "18446744073709551616")),
    *((f'{{"members":4,"faults":{it},"opening":[]}}', "2 BadShape") for it in ("-0", "-1")),
    *((genesis_of(*it), "3 BadCount") for it in ((0, 0, []), (129, 43, []), (2**64 - 1, 0, [1]), (65540, 1, 4 * [1]))),
    *((genesis_of(*it), "4 BadFaults") for it in ((3, 1, []), (65, 22, []), (128, 43, []), (4, 2**64 - 1, 4 * [0]))),
    *((genesis_of(*it), "5 BadOpening") for it in ((4, 1, 3 * [2**64 - 1]), (4, 1, 5 * [0]), (128, 42, 127 * [0]))),
    *((genesis_of(*it), "6 BadTotal") for it in ((4, 1, [2**63 - 1, 1, 0, 0]), (2, 0, [2**63, 2**63]))),
]

# The same of keys, for the desk of a member of four.
KEY = "0123456789abcdefABCDEF" + 42 * "0"

KEYS_ROWS = [
    *((text, "1 BadJson") for text in ("", '{"own":1,"keys":["","","",""]')),
    *(({"own": 1, "keys": it}, "2 BadShape") for it in (KEY, [KEY, None, KEY, KEY])),
    *((it, "2 BadShape") for it in ({"keys": []}, {"own": 1}, {"own": "1", "keys": []})),
    ({"own": 9, "keys": [KEY, "", KEY, 7]}, "2 BadShape"),
    *((it, "3 BadOwn") for it in ({"own": 4, "keys": []}, {"own": 65537, "keys": [KEY, "", KEY, KEY]})),
    *(({"own": 1, "keys": it}, "4 BadKeyCount") for it in (["x", "x", "x"], [KEY, "", KEY, KEY, KEY])),
    *(({"own": 1, "keys": [KEY, it, KEY, KEY]}, "5 BadKey") for it in (KEY, "x")),
    *(({"own": 1, "keys": it}, "5 BadKey") for it in (["", "", KEY, KEY], [KEY, "", KEY[:-1], KEY])),
    *(
        ({"own": 1, "keys": [KEY, "", KEY, it]}, "5 BadKey")
        for it in (f"{KEY}00", f"{KEY[:-1]}g", f" {KEY[1:]}", f"\uff11{KEY[1:]}")
    ),
]
