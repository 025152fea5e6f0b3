"""Orders that a member's folder keeps, each with the one line that is ever given for it, and its note's id and text.

An order is written, and on the disk, before its line is given. So whoever comes back to it gives the same line, under
the same id, and it is paid once; and its note is said once.
"""

from __future__ import annotations

import hashlib
import json
import os
import secrets
import tempfile
from collections import namedtuple

from payd_tools import usage
from payd_tools.desk_view import Wrong

FOLDER = "orders"
# The line of an order, and its note, id and text, or None.
Kept = namedtuple("Kept", "line note")


def draw_id() -> int:
    return secrets.randbits(62)


class Orders:
    def __init__(self, folder: str) -> None:
        self.folder, self.above = os.path.join(folder, FOLDER), folder

    def path_of(self, order: str) -> str:
        return os.path.join(self.folder, hashlib.sha256(order.encode()).hexdigest())

    def find(self, order: str) -> Kept | None:
        """Returns what is kept of an order, or None where it isn't."""
        try:
            with open(self.path_of(order), encoding="ascii") as file:
                given = json.load(file)
            kept = Kept(given["line"], given.get("note"))
        except FileNotFoundError:
            return None
        except (ValueError, KeyError, TypeError, AttributeError) as error:
            raise Wrong(f"{self.path_of(order)}: it is no order") from error
        # (whoever wrote it may have been killed before the disk had it)
        self.sync()
        return kept

    def keep(self, order: str, to: int, amount: int, note: str | None) -> Kept | None:
        """Returns what is kept of an order, this from now on unless somebody else has kept it meanwhile."""
        os.makedirs(self.folder, mode=0o700, exist_ok=True)
        said = {} if note is None else {"note": [str(draw_id()), note]}
        part, name = tempfile.mkstemp(dir=self.folder, prefix=".part")
        try:
            with usage.at(name), os.fdopen(part, "w", encoding="ascii") as file:
                json.dump({"order": order, "line": f"PAY {draw_id()} {to} {amount}", **said}, file)
                file.flush()
                os.fsync(file.fileno())
            # (a link is made only where there is none)
            os.link(name, self.path_of(order))
        except FileExistsError:
            pass
        finally:
            os.unlink(name)
        return self.find(order)

    def sync(self) -> None:
        for name in (self.folder, self.above):
            folder = os.open(name, os.O_RDONLY)
            try:
                os.fsync(folder)
            finally:
                os.close(folder)
