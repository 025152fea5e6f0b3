"""The log of a member, damaged, and what has to come of that by payd_tools/logs.py, for the tests and tests/kills."""

import contextlib
import os
import shutil

from payd_tools.logs import Fault, Log
from support.nodes import export_text
from support.restarts import Folders
from support.runs import GENESIS, call, payd, read_bytes, same

OPENING = GENESIS["opening"]


def made_folder(place, name, log):
    """A folder with this log; the path of the log."""
    folder = os.path.join(place, name)
    shutil.rmtree(folder, ignore_errors=True)
    os.mkdir(folder, 0o700)
    with open(os.path.join(folder, "log"), "wb") as file:
        file.write(log)
    return file.name


def export(place, own, folder=None, genesis="genesis", keys=None):
    """What the program does that is to write the export of a folder."""
    words = ["--genesis", genesis, "--keys", keys or f"keys-{own}", "--data", folder or f"data-{own}"]
    return call([payd(), "export", *words], folder=place)


class Damaged:
    """The log of a member of four that met the others, and what damage of it has to lead to."""

    def __init__(self, group):
        self.place = group.place.name
        self.log = Log(GENESIS, 0)
        self.file = group.log(0)
        self.ends = self.log.ends(self.file)
        self.texts = {}

    def export_of(self, file):
        """What the export of a folder with this log has to be: status, output and errors."""
        try:
            _, end = self.log.payloads(file)
        except Fault as fault:
            return 2, "", f"payd: log {fault}\n"
        behind = len(file) - end
        said = f"payd: log: {behind} bytes at its end are no part of it\n" if behind else ""
        if end not in self.texts:
            member, _ = self.log.member(file[:end])
            front, balances = member.book()
            lists = [[value.hex() for value in values] for values in member.lists()]
            self.texts[end] = export_text(0, OPENING, lists, front, balances)
        return 0, self.texts[end], said

    def judge(self, file, of):
        """The folder's export is that which the model has, and the log is left as it was."""
        path = made_folder(self.place, "damaged", file)
        same(export(self.place, 0, "damaged"), self.export_of(file), of)
        same((read_bytes(path), os.listdir(os.path.dirname(path))), (file, ["log"]), f"{of}: what is left")


@contextlib.contextmanager
def damage_of_a_log():
    with Folders(OPENING) as group:
        group.pay_twice()
        for line in ("PAYS 9 1 1 2 2", "STATE 0 0", "BALANCE 3", "FRONT"):
            group.nodes[0].ask(line)
        for own in list(group.nodes):
            group.kill(own)
        yield Damaged(group)


def all_damage():
    """Each cut and each bit, judged; how many there were."""
    with damage_of_a_log() as damage:
        counts = {}
        for ways in (cuts, bits):
            for count, (of, file) in enumerate(ways(damage), 1):
                damage.judge(file, of)
            counts[ways.__name__] = count
        return counts


def cuts(damage):
    """A log cut at each length."""
    for length in range(len(damage.file) + 1):
        yield f"cut at {length} of {len(damage.file)}", damage.file[:length]


def bits(damage):
    """A log with each bit turned."""
    for place in range(len(damage.file)):
        for bit in range(8):
            file = bytearray(damage.file)
            file[place] ^= 1 << bit
            yield f"bit {bit} of byte {place} of {len(damage.file)}", bytes(file)
