"""Black-box tests of the records in a log: each kind written by hand, as docs/formats.md has it, and read by the
program and by the model; and what a program writes itself."""

import struct

from payd_tools.frames import ECHO, READY, SEND, WANT, frame, payment, read_frame
from payd_tools.logs import ASK, FRAME, HEADER_LEN, QUERY, Log
from support.damaged_logs import OPENING, export, made_folder
from support.nodes import export_text, until
from support.restarts import Folders
from support.runs import GENESIS, read_bytes, same, shows

# 30 to member 1, and 20 to member 0.
A, B = "000b 01 0001 000000000000001e", "000b 01 0000 0000000000000014"
# What member 0 of four has in its log once a payment of its own and one of member 3 have settled. After kind and stamp
# stand an ask's id, reply and value, a query's account and reply, and a frame's reply, sender, number, kind, owner, seq
# and value.
RECORDS = [
    bytes.fromhex(f"01 0006  0000000000000007 00000000  {A}"),
    bytes.fromhex(f"04 0003  00 00000000  0001 0000000000000000 02 0000 00000000 {A}"),
    # (by this one member 0 is READY, and by the next but one it delivers)
    bytes.fromhex(f"04 0003  02 00000000  0002 0000000000000000 02 0000 00000000 {A}"),
    bytes.fromhex(f"04 0001  00 00000000  0001 0000000000000001 03 0000 00000000 {A}"),
    bytes.fromhex(f"04 0001  04 00000001  0002 0000000000000001 03 0000 00000000 {A}"),
    bytes.fromhex("03 0005  0001 000000000000001e 00000000 00000000"),
    # (by this one it ECHOs, and by the next but one it is READY and delivers)
    bytes.fromhex(f"04 0002  01 00000000  0003 0000000000000000 01 0003 00000000 {B}"),
    bytes.fromhex(f"04 0002  00 00000000  0003 0000000000000001 03 0003 00000000 {B}"),
    bytes.fromhex(f"04 0002  06 00000001  0001 0000000000000002 03 0003 00000000 {B}"),
    bytes.fromhex("04 0002  00 00000000  0002 0000000000000002 02 0001 0000ffff 0000"),
]
LISTS = [[payment(1, 30).hex()], [], [], [payment(0, 20).hex()]]
EXPORT = export_text(0, OPENING, LISTS, [1, 0, 0, 1], [90, 30, 0, 30])


def test_records_of_each_kind_are_read():
    """One in a chunk, or several; the next start writes them as they are."""
    log = Log(GENESIS, 0)
    with Folders(OPENING, running=[]) as group:
        for payloads in (RECORDS, [b"".join(RECORDS)], [b"".join(RECORDS[:4]), b"", b"".join(RECORDS[4:])]):
            file, of = log.file(payloads), f"{len(payloads)} chunks"
            made_folder(group.place.name, "data-0", file)
            shows(export(group.place.name, 0), 0, EXPORT, of=of)
            node = group.start(0)
            same(node.ask("PAY 7 1 30"), "asked 7 seq 0", f"the line given again, {of}")
            same(node.statement(0), ["out 0 to 1 30", "in 3 0 20", "end 0 balance 90"], of)
            group.kill(0)
            same(group.log(0)[: len(file)], file, f"the log written anew, {of}")
            shows(export(group.place.name, 0), 0, EXPORT, of=f"the export of that, {of}")


def test_the_model_reads_records_of_each_kind():
    """Each frame has the tag that its sender gave it."""
    log = Log(GENESIS, 0)
    found = [list(log.records_in(it)) for it in RECORDS]
    same([len(it) for it in found], [1] * len(RECORDS), "records")
    a, b = payment(1, 30), payment(0, 20)
    took = [(1, 0, ECHO, 0, 0, a), (2, 0, ECHO, 0, 0, a), (1, 1, READY, 0, 0, a), (2, 1, READY, 0, 0, a),
            (3, 0, SEND, 3, 0, b), (3, 1, READY, 3, 0, b), (1, 2, READY, 3, 0, b), (2, 2, ECHO, 1, 65535, b"")]
    frames = [frame(kind, sender, 0, number, *body) for sender, number, kind, *body in took]
    same([it[2] for [it] in found if it[0] == FRAME], frames, "frames")
    member, orders = log.member(log.file(RECORDS))
    same((orders, member.book()), ([7], ([1, 0, 0, 1], [90, 30, 0, 30])), "the member")


# ---- records that this member can't have

FIELDS = {"bits": 0, "settled": 0, "sender": 2, "number": 3, "kind": READY, "owner": 1, "seq": 9, "value": b""}


def frame_record(**changed):
    """A frame's record behind those, right where nothing is changed."""
    bits, settled, sender, number, kind, owner, seq, value = {**FIELDS, **changed}.values()
    text = struct.pack(">BHBIHQBHIH", FRAME, 4, bits, settled, sender, number, kind, owner, seq, len(value))
    return text + value


def test_records_of_another_program():
    """What this member can't have had there names the record, and nothing is changed."""
    log = Log(GENESIS, 0)
    begun = b"".join(RECORDS)
    right = frame_record()
    with Folders(OPENING, running=[]) as group:
        place = group.place.name

        def was_of(record):
            path = made_folder(place, "made", log.file([begun, record]))
            was = export(place, 0, "made")
            same(read_bytes(path), log.file([begun, record]), f"the log with {record.hex()}")
            return was

        for record in (right, frame_record(value=bytes(1024)), frame_record(seq=65535), frame_record(owner=2)):
            shows(was_of(record), 0, EXPORT, of=f"{record.hex()}, which is right")
        wrong = [frame_record(**{name: it}) for name, values in WRONG.items() for it in values]
        cut = [right[:length] for length in range(1, len(right))]
        kinds = [bytes([kind]) + right[1:] for kind in (0, 2, 5, 255)]
        others = [*map(bytes.fromhex, OF_OTHERS), frame_record(value=b"x")[:-1], right + b"\0"]
        for record in (*wrong, *kinds, *cut, *others):
            number = len(RECORDS) + (record[:-1] == right)
            shows(was_of(record), 2, "", f"payd: log 5 Illegal {number}\n", of=record.hex())


WRONG = {
    "bits": [1, 2, 4, 8, 255],
    "settled": [1, 2**32 - 1],
    "sender": [0, 3, 4, 65535],
    "number": [2, 4, 2**64 - 1],
    "kind": [0, WANT, 5, 255],
    "owner": [4, 65535],
    "seq": [65536, 2**32 - 1],
    "value": [bytes(1025), bytes(65535)],
}

# A query with another reply and one for nobody, and an ask that got another number.
OF_OTHERS = [
    "03 0004  0003 0000000000000000 00000000 00000000",
    "03 0004  0009 0000000000000000 00000000 00000000",
    "01 0004  0000000000000008 00000009 0000",
]


def test_an_id_that_two_payments_have():
    log = Log(GENESIS, 0)
    with Folders(OPENING, running=[]) as group:
        made_folder(group.place.name, "data-0", log.file([*RECORDS, struct.pack(">BHQIH", ASK, 6, 7, 1, 0)]))
        node = group.start(0)
        status, output, errors = node.end()
        same((status, output, errors), (2, "", f"payd: log 5 Illegal {len(RECORDS) + 1}\n"), "a start")


# ---- what a program writes

# How many bytes a record has beside its value.
SIZES = {ASK: 17, QUERY: 21, FRAME: 27}


def records_of(group, own):
    return Log(GENESIS, own).records(group.log(own))


def test_a_log_has_no_tags():
    """An entry is as long as docs/benchmarks.md counts it, and a chunk has 52 bytes more."""
    with Folders(OPENING) as group:
        group.pay_twice()
        for line in ("BALANCE 3", "FRONT"):
            group.nodes[0].ask(line)
        for own in range(4):
            until(lambda own=own: len(records_of(group, own)) >= 14, True, of=f"the records of {own}")
            group.kill(own)
        for own in range(4):
            log, file, found = Log(GENESIS, own), group.log(own), records_of(group, own)
            kinds = {it[0] for it in found}
            same(kinds <= SIZES.keys() and {FRAME} <= kinds, True, f"the kinds {kinds} of member {own}")
            values = sum(len(it[2][1] if it[0] == ASK else read_frame(it[2])[4][3]) for it in found if it[0] != QUERY)
            payloads, end = log.payloads(file)
            wanted = HEADER_LEN + 52 * len(payloads) + sum(SIZES[it[0]] for it in found) + values
            same(end, wanted, f"the log of member {own}")
