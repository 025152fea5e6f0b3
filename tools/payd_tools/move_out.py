"""Gives a member away to another machine, and has its node refused on this one.

usage: payd move-out FOLDER ARCHIVE
       payd move-out --take-back FOLDER

Packs the member's FOLDER into the new file ARCHIVE, with the copies of the group's file and of the keys that its node
made there. Only its owner may read ARCHIVE. The folder is marked and has no log any more. A node refuses it
(`8 Missing`), even if the log is put back (`6 Changed`) or the member is to be made again (`9 Exists`). A folder that a
running node has is refused.

The archive is written and synced as ARCHIVE.part before anything in the folder changes. If that fails, the folder is as
it was. If the move ends after the folder is marked, call it again: it goes on. --take-back undoes such a move while the
log is still in the folder: it removes ARCHIVE.part and the mark.

Bring ARCHIVE to the other machine, unpack it there by `tar -xf ARCHIVE`, remove it, and start the node.
"""

from __future__ import annotations

import contextlib
import fcntl
import os
import tarfile
import time
from typing import BinaryIO

from payd_tools import usage
from payd_tools.account import GROUP, KEYS, LOG
from payd_tools.usage import Failure

ENDED = "ended"
# The first line of the mark. A node takes it for the length of a log that ended cleanly, which no log has. Behind it
# stand when and where to, and the length that was there before.
MARK = "moved out\n"
# What stays: the mark, and what a node makes anew at its start.
LEFT = ENDED, f"{ENDED}.new", f"{LOG}.new", "desk", "desk.new", "status.prom"
TAKES_BACK = "--take-back"


def read_ended(folder: str) -> str:
    """Returns the text of the mark, or of a clean end, or nothing."""
    with contextlib.suppress(FileNotFoundError, NotADirectoryError):
        with open(os.path.join(folder, ENDED), encoding="utf-8", errors="replace") as file:
            return file.read()
    return ""


def place_in(mark: str) -> tuple[str, str]:
    """Returns when and where to a mark says that a member was moved."""
    when, _, archive = (mark[len(MARK) :].split("\n")[0]).partition(" to ")
    return when, archive


def lock(folder: str) -> BinaryIO:
    """Returns the log, which no node has as long as it is open here."""
    path = os.path.join(folder, LOG)
    log = open(path, "rb")
    try:
        fcntl.flock(log, fcntl.LOCK_EX | fcntl.LOCK_NB)
        is_named = os.path.samestat(os.fstat(log.fileno()), os.stat(path))
    except BlockingIOError:
        is_named = False
    if not is_named:
        raise Failure(f"{folder}: a node has it: end that first")
    return log


def sync(path: str) -> None:
    opened = os.open(path, os.O_RDONLY)
    try:
        os.fsync(opened)
    finally:
        os.close(opened)


def folder_of(path: str) -> str:
    return os.path.dirname(os.path.abspath(path))


def write_ended(folder: str, text: str) -> None:
    """Puts a text in place of the mark or the clean end."""
    part = os.path.join(folder, f"{ENDED}.new")
    try:
        with usage.at(part):
            with open(part, "w", encoding="utf-8") as file:
                file.write(text)
            sync(part)
            os.rename(part, os.path.join(folder, ENDED))
    except OSError:
        with contextlib.suppress(OSError):
            os.unlink(part)
        raise
    sync(folder)


def pack(folder: str, part: str) -> None:
    """Packs the folder into a new file, all of which is then on the disk."""
    with contextlib.suppress(FileNotFoundError):
        os.unlink(part)
    opened = os.open(part, os.O_WRONLY | os.O_CREAT | os.O_EXCL, 0o600)
    try:
        with usage.at(part):
            with os.fdopen(opened, "wb") as file, tarfile.open(fileobj=file, mode="w", dereference=True) as packed:
                name = os.path.basename(os.path.abspath(folder))
                packed.add(folder, name, filter=lambda it: None if os.path.relpath(it.name, name) in LEFT else it)
            sync(part)
            sync(folder_of(part))
    except OSError:
        with contextlib.suppress(OSError):
            os.unlink(part)
        raise


def name_archive(folder: str, archive: str) -> None:
    """Gives a whole archive its name, once no log is in the folder."""
    part = f"{archive}.part"
    try:
        os.rename(part, archive)
        sync(folder_of(archive))
    except OSError as error:
        what = f"all of {folder} is in {part}: call it again, and that gets the name {archive}"
        raise Failure(f"{usage.reason_of(error)}: {what}") from error
    print(f"moved out: {usage.shown(folder)} is in {usage.shown(archive)}, and no node runs it here", flush=True)
    for name in GROUP, KEYS:
        if not os.path.exists(os.path.join(folder, name)):
            print(f"bring {name} too: the folder has no copy of it")


def check_archive(folder: str, archive: str) -> None:
    """Refuses what would be no new file, or a part of what is packed."""
    if os.path.lexists(archive):
        raise Failure(f"{archive}: File exists: name a new file; {folder} is as it was")
    inside = os.path.realpath(folder), os.path.realpath(folder_of(archive))
    if os.path.commonpath(inside) == inside[0]:
        raise Failure(f"{archive}: it would be a part of itself: name a file outside {folder}, which is as it was")


def move_out(folder: str, archive: str) -> None:
    """Moves a member, or goes on where a move ended."""
    check_archive(folder, archive)
    mark = read_ended(folder)
    if not os.path.lexists(os.path.join(folder, LOG)):
        if not mark.startswith(MARK):
            raise Failure(f"{folder}: there is no member here")
        when, to = place_in(mark)
        if to != usage.shown(os.path.abspath(archive)) or not os.path.exists(f"{archive}.part"):
            raise Failure(f"{folder}: it was moved out at {when} to {to}")
        return name_archive(folder, archive)
    with lock(folder):
        was = mark.split("\n", 2)[2] if mark.startswith(MARK) else mark
        try:
            pack(folder, f"{archive}.part")
            when = time.strftime("%Y-%m-%dT%H:%M:%SZ", time.gmtime())
            write_ended(folder, f"{MARK}{when} to {usage.shown(os.path.abspath(archive))}\n{was}")
        except OSError as error:
            if read_ended(folder) != mark:
                raise Failure(f"{usage.reason_of(error)}: {folder} {unfinished(folder, archive)}") from error
            with contextlib.suppress(OSError):
                os.unlink(f"{archive}.part")
            now = "is as it was" if mark[: len(MARK)] != MARK else unfinished(folder, archive)
            raise Failure(f"{usage.reason_of(error)}: {folder} {now}") from error
        try:
            os.unlink(os.path.join(folder, LOG))
            sync(folder)
        except OSError as error:
            raise Failure(f"{usage.reason_of(error)}: {folder} {unfinished(folder, archive)}") from error
    return name_archive(folder, archive)


def unfinished(folder: str, archive: str) -> str:
    """Returns what is so of a folder that is marked, and what to do."""
    again = f"call it again to move it to {archive}"
    return f"is marked, so no node runs it: {again}, or take it back: payd move-out {TAKES_BACK} {folder}"


def take_back(folder: str) -> None:
    """Undoes a move that ended before the log went."""
    mark = read_ended(folder)
    if not mark.startswith(MARK):
        raise Failure(f"{folder}: it wasn't moved out")
    when, to = place_in(mark)
    if not os.path.lexists(os.path.join(folder, LOG)):
        raise Failure(f"{folder}: it was moved out at {when} to {to}: that has the member, and this folder hasn't")
    with lock(folder):
        try:
            with contextlib.suppress(FileNotFoundError, NotADirectoryError):
                os.unlink(f"{to}.part")
            was = mark.split("\n", 2)[2]
            if was:
                write_ended(folder, was)
            else:
                os.unlink(os.path.join(folder, ENDED))
                sync(folder)
        except OSError as error:
            raise Failure(f"{usage.reason_of(error)}: {folder} isn't taken back: call it again") from error
    print(f"taken back: {usage.shown(folder)} is as it was, and its node may start")


def takes(words: list[str]) -> bool:
    return len(words) == 2 and usage.are_names(words[1:]) and (words[0] == TAKES_BACK or usage.are_names(words))


@usage.tool()
def main() -> None:
    first, last = usage.read_words(__doc__, takes)
    return take_back(last) if first == TAKES_BACK else move_out(first, last)
