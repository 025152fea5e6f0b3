"""Which program stands for the sources, and how one that isn't proved is made.

.built/proved, .built/compiled    the programs that were proved and compiled last
.built/state                      first what ./payd runs, in four lines: the program's kind, and the time since which no
                                  source may have changed; the repository's folder; the toolchain that made the program;
                                  and what is said of it. Then a line for each kind of what was made last: the sum of
                                  its sources, its own, and the toolchain. A kind `refused` is what the prover refused
"""

from __future__ import annotations

import contextlib
import fcntl
import glob
import hashlib
import os
import shutil
import signal
import subprocess
import sys
import tempfile
from typing import Callable, Iterator, NamedTuple, Sequence

from payd_tools import usage
from payd_tools.repository import compiling, toolchain
from payd_tools.repository.toolchain import TOP, BuildError

STORE = os.path.join(TOP, ".built")
STATE = os.path.join(STORE, "state")
PROVED, COMPILED, REFUSED = "proved", "compiled", "refused"
HOW_LONG = "once for these sources, in 2 to 3 minutes on two busy processors"
# The status of ./payd and of ./payd-prove where there is no program to run.
NO_PROGRAM = 70

NOT_PROVED_YET = "UNVERIFIED build: contracts are not checked; ./payd-prove verifies it"
IS_REFUSED = "NOT PROVED: the prover refuses these sources, and ./payd-prove says where"
IS_DAMAGED = "not proved: the proved program that was kept is damaged, and ./payd-prove makes it again"

# What stands in place of the first lines of the state where ./payd has to look anew.
UNKNOWN = "runs none 0", "", "", ""


class Sums(NamedTuple):
    """The sum of what is compiled, and that of all sources."""

    code: str
    whole: str


class Record(NamedTuple):
    """What was made last of a kind: the sum of its sources, its own sum, and the toolchain."""

    of: str
    own: str
    made_by: str


# The folders that this process works in.
at_work: list[str] = []


class Refused(BuildError):
    """The prover refused a crate that the program stands on."""


# ---- a script that nobody may hear, and anybody may stop


def say(text: object, of: str = "payd: ") -> None:
    with contextlib.suppress(OSError):
        os.write(2, f"{of}{text}\n".encode(errors="backslashreplace"))


def stop(number: int, _: object) -> None:
    """Ends this process as the signal wants it, and at once: what it started ends with it."""
    say("stopped; nothing is kept of this")
    for folder in at_work:
        shutil.rmtree(folder, ignore_errors=True)
    signal.signal(number, signal.SIG_DFL)
    os.kill(os.getpid(), number)


def run_script(main: Callable[[], object]) -> None:
    """Runs a script's main function, and ends with the status of the error that it raises, if any."""
    for number in (signal.SIGINT, signal.SIGTERM, signal.SIGHUP):
        if signal.getsignal(number) is not signal.SIG_IGN:
            signal.signal(number, stop)
    try:
        main()
    except Refused as error:
        say(f"NOT PROVED: {error}")
        sys.exit(1)
    except BuildError as error:
        say(error)
        sys.exit(NO_PROGRAM)
    except OSError as error:
        say(usage.shown(f"{error.filename or STORE}: {error.strerror}"))
        sys.exit(NO_PROGRAM)


# ---- what a program is made of


def source_files() -> list[str]:
    """Returns the paths of all that is compiled and proved, from the top."""
    paths = [os.path.join(TOP, it) for it in ("HANDLES", "crates.txt")]
    for part in ("src", "specs", "proofs"):
        for top in glob.glob(os.path.join(glob.escape(TOP), "crates", "*", part)):
            paths += [os.path.join(folder, it) for folder, _, names in os.walk(top) for it in names]
    return sorted((os.path.relpath(it, TOP) for it in paths), key=os.fsencode)


def sums() -> Sums:
    """Returns the sums of the sources as they stand."""
    code, whole = hashlib.blake2b(digest_size=32), hashlib.blake2b(digest_size=32)
    for path in source_files():
        if not path.isprintable():
            raise BuildError(f"{usage.shown(path)}: no source has a name that can't be printed")
        line = f"{sum_of(os.path.join(TOP, path))} {path}\n".encode()
        whole.update(line)
        if path.split("/")[2:3] in ([], ["src"]):
            code.update(line)
    return Sums(code.hexdigest(), whole.hexdigest())


def now() -> int:
    """Returns the time by the clock of the files."""
    with tempfile.TemporaryFile(dir=STORE) as file:
        return os.stat(file.fileno()).st_ctime_ns


def changed_since(begun: int, *others: str) -> str | None:
    """Returns the first source, or other file, that was changed at this time or later, even if it was changed back."""
    paths = [*source_files(), *others]
    return next((it for it in paths if os.stat(os.path.join(TOP, it)).st_ctime_ns >= begun), None)


# ---- what is kept


def sum_of(path: str) -> str:
    with open(path, "rb") as file:
        return hashlib.blake2b(file.read(), digest_size=32).hexdigest()


def path_of(kind: str) -> str:
    return os.path.join(STORE, kind)


def read_records() -> dict[str, Record]:
    """Returns what was made last of each kind."""
    try:
        with open(STATE, encoding="utf-8") as file:
            lines = file.read().splitlines()[len(UNKNOWN) :]
        return {kind: Record(of, own, made_by) for kind, of, own, made_by in (it.split(" ", 3) for it in lines)}
    except (FileNotFoundError, ValueError):
        return {}


def write_state(first: Sequence[str] = UNKNOWN, **changes: Record | None) -> None:
    """Has ./payd run what these lines say, or look anew, and changes what is known of these kinds."""
    os.makedirs(STORE, exist_ok=True)
    with open(os.path.join(STORE, "lock"), "w", encoding="utf-8") as lock:
        fcntl.flock(lock, fcntl.LOCK_EX)
        records = {**read_records(), **changes}
        lines = [*first, *(" ".join((kind, *record)) for kind, record in records.items() if record)]
        with open(f"{STATE}.new", "w", encoding="utf-8", errors="surrogateescape") as file:
            file.write("".join(f"{it}\n" for it in lines))
        os.replace(file.name, STATE)


def keep(kind: str, of: str, program: str, **changes: Record | None) -> None:
    """Keeps a program, whole or not at all."""
    os.makedirs(STORE, exist_ok=True)
    made = f"{path_of(kind)}.new"
    shutil.copyfile(program, made)
    os.chmod(made, 0o755)
    record = Record(of, sum_of(made), toolchain.identity())
    os.replace(made, path_of(kind))
    write_state(**{kind: record}, **changes)


def is_kept(record: Record | None, of: str, made_by: str) -> bool:
    """Returns whether this was made of these sources, and where there is a toolchain by it."""
    return record is not None and record.of == of and made_by in ("", record.made_by)


def is_whole(kind: str, record: Record) -> bool:
    try:
        return sum_of(path_of(kind)) == record.own
    except FileNotFoundError:
        return False


def find() -> tuple[str, str] | None:
    """Returns the kind of the program that is kept of the sources as they stand, and what is to be said of it; or
    nothing where none is kept."""
    begun = None
    with contextlib.suppress(OSError):
        begun = now()
    made_by, of, records = toolchain.identity(), sums(), read_records()
    kind, said, record = None, NOT_PROVED_YET, records.get(PROVED)
    if is_kept(record, of.whole, made_by):
        kind, said = PROVED, f"proved, of sources {of.whole[:16]}, by {record.made_by}"
        if not is_whole(kind, record):
            kind, said = None, IS_DAMAGED
    elif is_kept(records.get(REFUSED), of.whole, made_by):
        said = IS_REFUSED
    if kind is None and is_kept(records.get(COMPILED), of.code, made_by):
        kind, record = COMPILED, records[COMPILED]
        if not is_whole(kind, record):
            say("the program that was kept is damaged, and is built again")
            return None
    if kind is None:
        return None
    # (what was changed at this very moment is looked at again by the next run)
    if begun is not None and not changed_since(begun, path_of(kind)):
        since = begun - 1
        with contextlib.suppress(OSError):
            write_state([f"runs {kind} {since // 10**9}.{since % 10**9:09}", TOP, record.made_by, said])
    return kind, said


@contextlib.contextmanager
def alone(kind: str, waits: str) -> Iterator[str]:
    """An empty folder to work in, for one process at a time; this is said where another holds it."""
    os.makedirs(STORE, exist_ok=True)
    with open(f"{path_of(kind)}.lock", "w", encoding="utf-8") as lock:
        try:
            fcntl.flock(lock, fcntl.LOCK_EX | fcntl.LOCK_NB)
        except BlockingIOError:
            say(waits)
            fcntl.flock(lock, fcntl.LOCK_EX)
        folder = f"{path_of(kind)}.work"
        # a run that was killed leaves its own
        shutil.rmtree(folder, ignore_errors=True)
        os.mkdir(folder)
        at_work.append(folder)
        try:
            yield folder
        finally:
            at_work.remove(folder)
            shutil.rmtree(folder, ignore_errors=True)


def compile_program() -> None:
    """Builds a program that isn't proved and keeps it, if no source was changed meanwhile."""
    with alone(COMPILED, "another run is compiling the program") as folder:
        begun, of = now(), sums()
        record = read_records().get(COMPILED)
        if is_kept(record, of.code, toolchain.identity()) and is_whole(COMPILED, record):
            return
        say(f"compiling the program, {HOW_LONG}; nothing is proved yet")
        program = compiling.compile_unproved(folder, say)
        if changed_since(begun) or sums() != of:
            say("a source was changed meanwhile, so it is compiled again")
        else:
            keep(COMPILED, of.code, program)


def chosen() -> tuple[str, str]:
    """Returns the path of the program that ./payd runs, and what is to be said of it."""
    words = [os.path.join(TOP, "tools", "program")]
    ran = subprocess.run(words, stdin=subprocess.DEVNULL, stdout=subprocess.PIPE, universal_newlines=True, check=True)
    kind, said = ran.stdout.splitlines()
    return path_of(kind), said


def proved_program() -> str:
    """Returns the path of the proved program, once ./payd-prove has made it where these sources weren't proved."""
    subprocess.run([os.path.join(TOP, "payd-prove")], stdin=subprocess.DEVNULL, check=True)
    return path_of(PROVED)
