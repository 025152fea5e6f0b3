"""What the program says behind the line of a fault that ends it, for the black-box tests.

Each such line has one line more. Where a test isn't about that, it is taken off, and it is an error if it isn't there.
The lines of `payd: log` from 6 on are told by the tests of folders.
"""

import re

NO_MEMORY = "memory ran out: free some, and try again"
NOT_JSON = "it isn't JSON: name the right file"
DISK = "a read, write or sync failed: make room, or mend the disk or the folder's rights, and start again"
# What is said of a file or folder in the way of one of a member's.
MOVE_AWAY = "look what it is for, move it away, and start again"
# What is said of a disk that failed: why, if the system has a word for it.
FAILED = rf"cannot use .*: .*: mend that, and start again|(?:.*: )?{re.escape(DISK)}"

# Of each line of a fault that which is behind it, the first that fits. Those of files have a line between.
ADVICE = [
    (r"payd: (?:engine|genesis|keys|ports|export|log) 0 Memory", re.escape(NO_MEMORY)),
    (r"payd: engine 2 Read", "the input can't be read"),
    (r"payd: engine 3 Write", rf"the output can't be written, and isn't whole|{FAILED}"),
    (r"payd: engine 4 Bound", "the input was read 1000000 times: give what is left to another run"),
    (r"payd: (?:genesis|keys|ports) 1 BadJson", re.escape(NOT_JSON)),
    (r"payd: genesis 2 BadShape", "it lacks `members`, `faults` or `opening`, or one of them is no number or list"),
    (r"payd: genesis 3 BadCount", "a group has 1 to 128 members"),
    (r"payd: genesis 4 BadFaults", "fewer than a third of the members may lie"),
    (r"payd: genesis 5 BadOpening", "`opening` has one number for each member"),
    (r"payd: genesis 6 BadTotal", "the accounts open with 9223372036854775807 together at most"),
    (r"payd: keys 2 BadShape", "it lacks `own` or `keys`: payd group keys makes it"),
    (r"payd: keys 3 BadOwn", "`own` is no member of this group: name the keys and the group of one"),
    (r"payd: keys 4 BadKeyCount", "it has keys for another number of members: name those of this group"),
    (r"payd: keys 5 BadKey", "a key has 64 hexadecimal digits, and that at the own place none"),
    (
        r"payd: keys 6 OtherGroup",
        "these keys are of another group than the genesis's file, or it says something else since they were made",
    ),
    (r"payd: ports 2 BadShape", "`ports` has a number from 1 to 65535 for each member"),
    (r"payd: export 1 BadJson", "it isn't JSON: it may be cut, so take the export once more"),
    (r"payd: export 2 BadShape", "it is no export, or an account's list is too long"),
    (r"payd: export 3 BadGenesis", "its members, faults and opening make no group"),
    (r"payd: file .*: it has so many parts that they would take more than 16 times its size", None),
    (r"payd: file .*", r"cannot read .*: .*"),
    (r"payd: account .*", "the export has no account of this number"),
    (r"payd: port \d+", r"cannot bind 127\.0\.0\.1:\d+: .*"),
    (r"payd: socket .*: more than .*", None),
    (r"payd: socket .*", rf"cannot listen on .*: .*|.* is a [a-z]+: {MOVE_AWAY}"),
    (r"payd: nobody listens on .*", r".*: .*"),
    (r"payd: you may not open .*", "call it as the user of the node"),
    (
        r"payd: no answer after \d+ seconds",
        "the node may have taken the lines: give them again, for an id is paid once",
    ),
    (
        r"payd: the node ended before it answered",
        "start the node, and give the lines again: an id is paid once",
    ),
    (r"payd: clock", "set the machine's clock, or name the day by --date"),
    (r"payd: close 0 Memory", "no memory to compare the answers with the history: the export is whole"),
    (r"payd: close 1 Mismatch", "the history contradicts what was answered: keep everything, and report it"),
    (r"payd: log 2 Held", "another node has this folder: end that one, or leave it alone"),
    (r"payd: log 3 Foreign NoLog", "the folder's file log is no member's log: name the right folder"),
    (r"payd: log 3 Foreign Version", "another version of payd wrote this log: start that one"),
    (r"payd: log 3 Foreign Genesis", "the folder is a member of another group: name the right ones"),
    (r"payd: log 3 Foreign Member", "the folder is another member's: name the right folder and keys"),
    (r"payd: log 3 Foreign Keys", "the folder's member has other keys: name the right ones"),
    (
        r"payd: log 4 Damaged \d+",
        "what the member said is lost: never start it again, unless you have a copy of the folder from this very "
        "moment",
    ),
    (r"payd: log 5 Illegal \d+", "another version of payd wrote this log: start that one"),
]
ADVICE = [(re.compile(fault), advice and re.compile(f"payd: (?:{advice})")) for fault, advice in ADVICE]
# A disk that fails while a node runs is told at once, and what to do once it has ended.
AT_ONCE = re.compile("payd: log 1 Disk")
IN_FILE = re.compile("payd: in .*")


def advice_behind(line):
    return next((advice for fault, advice in ADVICE if fault.fullmatch(line)), None)


def last_lines(errors, count=2):
    return "".join(errors.splitlines(True)[-count:])


def told_plainly(errors):
    """The same without the lines that say what to do, each of which has to be there."""
    lines, kept = errors.split("\n"), []
    while lines:
        kept.append(lines.pop(0))
        advice = advice_behind(kept[-1])
        if AT_ONCE.fullmatch(kept[-1]) and lines and re.fullmatch(f"payd: (?:{FAILED})", lines[0]):
            lines.pop(0)
        if advice is None:
            continue
        if lines and IN_FILE.fullmatch(lines[0]):
            kept.append(lines.pop(0))
        if not lines or not advice.fullmatch(lines[0]):
            raise AssertionError(f"{lines[:1]} behind {kept[-1]!r}")
        lines.pop(0)
    return "\n".join(kept)
