"""The account of a member's folder: whose it is, its node's desk, and what its group calls the others.

The number and the group are those of the folder's log. Files of keys and of the group, given or in the folder, say the
same or are refused; where there is no log, the number is that of the keys.
"""

from __future__ import annotations

import contextlib
import os
import re
import stat
import struct
from typing import Any

from payd_tools.desk_client import SECONDS, Desk, place, socket_in
from payd_tools.desk_view import View, Wrong
from payd_tools.figures import read_figures, standstill
from payd_tools.groups import DIGITS_OF_KEYS, Failure, Group, genesis_digest, object_in, unit_in
from payd_tools.times import TimesFile, times_path
from payd_tools.usage import Parser

# What is found in a folder where no other file is given.
GROUP, KEYS, LOG = "group.json", "keys.json", "log"
# A log's mark, the digest of its genesis behind the format's version, and its member's number.
HEADER = struct.Struct(">8s x 32s H")
MARK = b"payd log"
NO_MEMBER = "{}: there is no member here: it has no log"


def add_words(words: Parser) -> None:
    """The options of all that are about an account."""
    words.add_argument("--data", metavar="FOLDER", default=place(), help="the folder of the member")
    words.add_argument("--group", help="the group's file, where the folder has none")
    words.add_argument("--keys", help="the member's file of keys, where the folder has none")
    words.add_argument("--socket", metavar="PATH", help="the socket of its node, where that isn't in the folder")
    words.add_argument("--json", action="store_true", help="writes objects of JSON, for a script")


def read_json(path: str) -> dict[str, Any]:
    """Returns the object of a file of JSON."""
    try:
        with open(path, encoding="utf-8") as file:
            value = object_in(file.read())
    except OSError as error:
        raise Wrong(f"cannot read {path}: {error.strerror}") from error
    except Failure as error:
        raise Wrong(f"{path}: {error}") from error
    except (ValueError, RecursionError) as error:
        raise Wrong(f"{path}: it is no file of JSON") from error
    if not isinstance(value, dict):
        raise Wrong(f"{path}: it is no object")
    return value


def read_header(folder: str) -> tuple[str, int] | None:
    """Returns the genesis's digest and the member's number in a folder's log, or None where there is none."""
    try:
        with open(os.path.join(folder, LOG), "rb") as file:
            mark, digest, own = HEADER.unpack(file.read(HEADER.size))
    except FileNotFoundError:
        return None
    except OSError as error:
        raise Wrong(f"cannot read {error.filename}: {error.strerror}") from error
    except struct.error:
        mark = digest = own = None
    if mark != MARK:
        raise Wrong(f"{os.path.join(folder, LOG)}: it is no member's log")
    return digest.hex(), own


def digest_in(path: str, given: dict[str, Any]) -> str:
    """Returns the digest by which keys say that they are of this group."""
    try:
        return Group(given, has_cryptography=False).digest()[:DIGITS_OF_KEYS]
    except Failure as why:
        raise Wrong(f"{path}: {why}") from why


def check_own(folder: str, has_member: bool) -> None:
    """Refuses a folder in which others may write: its desk may pay nobody, and its orders may be theirs. A change is
    advised of a member's folder alone, and to its owner."""
    with contextlib.suppress(OSError):
        found = os.stat(folder)
        if not found.st_mode & (stat.S_IWGRP | stat.S_IWOTH):
            return
        if not has_member:
            raise Wrong(NO_MEMBER.format(folder))
        is_own = found.st_uid == os.geteuid()
        what = f"chmod go-w {folder}" if is_own else "it isn't yours, so name the folder of your own member"
        raise Wrong(f"{folder}: others may write in it: {what}")


class Account:
    """What words say of an account, checked."""

    def __init__(
        self,
        data: str | None,
        group: str | None = None,
        keys: str | None = None,
        socket: str | None = None,
        seconds: int = SECONDS,
    ) -> None:
        self.folder, header = data, read_header(data) if data else None
        check_own(data or "", header is not None)
        self.digest, self.own = header or (None, None)
        self.members, self.faults, self.keys_of = None, None, None
        self.names, self.unit = [], None
        self.read_keys(keys or self.own_file(KEYS))
        self.read_group(group or self.own_file(GROUP))
        self.desk = Desk(socket or socket_in(data), seconds)
        # when the node saw entries settle, as far as its folder tells
        self.times = TimesFile(times_path(data)) if data else None
        self.view = View(self.desk, self.own, self.members, self.times, self.unit, self.standstill)

    def own_file(self, name: str) -> str | None:
        path = os.path.join(self.folder or "", name)
        return path if self.folder and os.path.exists(path) else None

    def read_keys(self, path: str | None) -> None:
        if path is not None:
            given = read_json(path)
            own, keys = given.get("own"), given.get("keys")
            if type(own) is not int or not isinstance(keys, list) or not 0 <= own < len(keys):
                raise Wrong(f"{path}: it is no file of keys")
            self.members, self.keys_of = len(keys), given.get("digest")
            if self.own not in (None, own):
                raise Wrong(f"{path}: these are the keys of member {own}, and {self.folder} is that of {self.own}")
            self.own = own
        if self.own is None:
            if not self.folder:
                raise Wrong("--keys is missing")
            how = " (--data or PAYD_DATA names its folder)" if self.folder == place() else ""
            raise Wrong(f"{NO_MEMBER.format(self.folder)}{how}")

    def read_group(self, path: str | None) -> None:
        if path is None:
            return
        given = read_json(path)
        names = given.get("names") or []
        if not isinstance(names, list) or not all(isinstance(it, str) and it.isprintable() for it in names):
            raise Wrong(f"{path}: its names are no list of names")
        parts = [given.get(it) for it in ("members", "faults", "opening")]
        if self.digest is not None and None not in parts:
            try:
                is_own = genesis_digest(*parts) == self.digest
            except (struct.error, TypeError):
                is_own = False
            if not is_own:
                raise Wrong(f"{path}: {self.folder} is a member of another group")
        members = parts[0] if type(parts[0]) is int else len(names) or self.members
        digest = digest_in(path, given) if "public" in given else None
        if self.members not in (None, members) or None not in (digest, self.keys_of) and digest != self.keys_of:
            raise Wrong(f"{path}: the keys are those of another group")
        try:
            self.names, self.members, self.unit = names, members, unit_in(given)
        except Failure as why:
            raise Wrong(f"{path}: {why}") from why
        self.faults = parts[1] if type(parts[1]) is int else None

    def standstill(self) -> str | None:
        """Returns why no payment can settle now, as far as the node's figures tell, or None."""
        return standstill(read_figures(self.folder), self.faults) if self.folder else None

    # ---- names

    def called(self, account: int) -> str:
        """Returns an account's name, or else its number."""
        return self.names[account] if account < len(self.names) else f"account {account}"

    def number_of(self, word: str) -> int:
        """Returns the account of this name or number, of all that the node has."""
        found = {at for at, name in enumerate(self.names) if name == word}
        if re.fullmatch("[0-9]{1,5}", word):
            found.add(int(word))
        if len(found) > 1:
            raise Wrong(f"{word}: accounts {' and '.join(map(str, sorted(found)))} may be meant")
        if not found:
            raise Wrong(f"{word}: it is no number" + (" and no name in the group's file" if self.names else ""))
        (account,) = found
        if account >= len(self.view.read_front()):
            raise Wrong(f"{word}: there is no such account")
        return account
