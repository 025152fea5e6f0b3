"""Black-box tests of what `check` says of frames, and of what comes of its devices."""

import os
import random
import subprocess
import threading
import time

from models.damage import check
from payd_tools.frames import ECHO, READY, SEND, WANT, frame, payment, payments
from support.advices import told_plainly
from support.runs import EXAMPLE_GENESIS, SECONDS, TOP, example_keys, payd, run, same, shows

# A frame that member 1 of 4 refuses.
BAD_TAG = bytes.fromhex("0036010100000001") + bytes(48)

# ---- what is judged

# Values in the list of account 3 of four, each with what it is told to pay.
VALUES = (
    ("01 0001 000000000000001e", "1 30"),
    ("01 0000 ffffffffffffffff", "0 18446744073709551615"),
    ("02 02 0001 000000000000001e 0002 0000000000000014", "1 30 2 20"),
    ("02 02 0002 0000000000000014 0001 000000000000001e", "2 20 1 30"),
    ("02 01 0001 0000000000000005", "1 5"),
    # in order, among others: to the owner, of nothing, to account 4 and to account 256
    ("02 03 0001 0000000000000005 0003 0000000000000001 0002 0000000000000007", "1 5 void 2 7"),
    ("02 02 0001 0000000000000000 0100 0000000000000001", "void void"),
    ("01 0003 0000000000000005", "void"),
    ("01 0004 0000000000000005", "void"),
    ("01 0001 0000000000000000", "void"),
    # no payments: of another version, a byte short, a byte more, of no pairs, and empty
    ("ff", "void"),
    ("03 0001 0000000000000005", "void"),
    ("01 0001 00000000000000", "void"),
    ("01 0001 0000000000000005 00", "void"),
    ("02 00", "void"),
    ("02 01 0001 0000000000000005 00", "void"),
    ("", "void"),
)


def values_are_told(stream, status, lines, of="run"):
    """Of values too."""
    shows(run(["check", "--values"], stream), status, lines, of=of)


def test_values_are_told_what_they_pay():
    stream, lines = b"", ""
    for number, (digits, pays) in enumerate(VALUES):
        value = bytes.fromhex(digits)
        stream += frame((SEND, ECHO, READY)[number % 3], 3, 1, number, owner=3, seq=number, value=value)
        said = f"ok {('send', 'echo', 'ready')[number % 3]} from 3 number {number} owner 3 seq {number}"
        lines += f"{number + 1} {said} value {len(value)}\n  pays {pays}\n"
    values_are_told(stream, 0, lines)
    shows(run(["check"], stream), 0, "".join(line for line in lines.splitlines(True) if not line.startswith(" ")))
    # more than one read gives
    count, value = 2000, bytes.fromhex("02 02 0001 000000000000001e 0002 0000000000000014")
    stream = b"".join(frame(SEND, 0, 1, number, owner=number % 2, value=value) for number in range(count))
    lines = "".join(
        f"{number + 1} ok send from 0 number {number} owner {number % 2} seq 0 value 22\n"
        f"  pays {'void' if number % 2 else '1 30'} 2 20\n"
        for number in range(count)
    )
    values_are_told(stream, 0, lines, of="many frames")


def test_values_of_refused_frames_are_told():
    """Behind the line that refuses them, by their owner's account; a WANT has none, nor has a fault."""
    stream, lines, count = b"", "", 0
    value = payment(payee=1, amount=30)
    for given, line, pays in (
        (frame(SEND, 0, 1, 0, value=value), "ok send from 0 number 0 owner 0 seq 0 value 11", "  pays 1 30\n"),
        (frame(SEND, 0, 1, 0, value=value), "refused 5 Repeat next 1", "  pays 1 30\n"),
        (frame(SEND, 0, 1, 1, value=value, key=bytes(32)), "refused 4 BadTag", "  pays 1 30\n"),
        (frame(SEND, 0, 1, 1, owner=4, value=value), "refused 3 UnknownOwner", "  pays 1 30\n"),
        (frame(SEND, 0, 2, 1, owner=1, value=value), "refused 1 NotForMe", "  pays void\n"),
        (frame(READY, 0, 1, 2, value=value), "refused 6 Gap next 1", "  pays 1 30\n"),
        (frame(WANT, 0, 1, 0), "want from 0 number 0", ""),
        (frame(WANT, 0, 2, 0), "refused 1 NotForMe", ""),
    ):
        stream, count = stream + given, count + 1
        lines += f"{count} {line}\n{pays}"
        values_are_told(stream, 0, lines, of=line)
    values_are_told(stream + b"\x05", 1, f"{lines}{count + 1} fault 1 BadLength\n")


def test_long_stream_and_slow_reader():
    """More lines than a pipe holds, to a reader that takes its time."""
    count = 5000
    child = subprocess.Popen([payd()], stdin=subprocess.PIPE, stdout=subprocess.PIPE, stderr=subprocess.PIPE)
    watchdog = threading.Timer(SECONDS, child.kill)
    watchdog.start()

    def feed():
        child.stdin.write(count * BAD_TAG)
        child.stdin.close()

    feeder = threading.Thread(target=feed)
    feeder.start()
    parts = []
    while part := os.read(child.stdout.fileno(), 1000):
        parts.append(part)
        time.sleep(0.005)
    feeder.join()
    errors = child.stderr.read().decode()
    status = child.wait()
    watchdog.cancel()
    lines = "".join(f"{line} refused 4 BadTag\n" for line in range(1, count + 1))
    shows((status, b"".join(parts).decode("ascii"), errors), 0, lines)


# ---- streams of many reads

# Values that pay or may; an empty one stands for bytes that are drawn, as many as one of these.
PAYMENTS = [*4 * [b""], payment(0, 7), payment(2, 0), payments([(1, 30), (2, 20)]), payments([(0, 1), (3, 5), (2, 2)])]
SIZES = [0, 11, 1024, 1024]


def drawn(seed, count):
    """Frames to member 1 from three members: most are the next ones, and others wrongly tagged, repeated, ahead or
    WANTs."""
    seeded = random.Random(seed)
    following = {0: 0, 2: 0, 3: 0}
    stream = []
    for _ in range(count):
        sender, way = seeded.choice([0, 2, 3]), seeded.random()
        number = following[sender]
        if way < 0.1:
            stream.append(frame(WANT, sender, 1, number))
            continue
        number = max(0, number - 1) if way < 0.2 else number + 1 if way < 0.3 else number
        value = seeded.choice(PAYMENTS) or bytes(seeded.randrange(256) for _ in range(seeded.choice(SIZES)))
        made = frame(seeded.choice([SEND, ECHO, READY]), sender, 1, number, owner=sender, seq=7, value=value)
        if way > 0.9:
            made = made[:-1] + bytes([made[-1] ^ 1])
        elif number == following[sender]:
            following[sender] += 1
        stream.append(made)
    return b"".join(stream)


def judges_as_the_model(stream, of):
    same(run(["check"], stream) == check(stream), True, of)
    same(run(["check", "--values"], stream) == check(stream, tells_values=True), True, f"{of}, values too")


def test_drawn_frames_have_the_text():
    judges_as_the_model(drawn(1, 6000), "drawn frames")


def test_fault_ends_a_long_text():
    stream = drawn(2, 1500)
    judges_as_the_model(stream + b"\x05" + stream, "a fault in the midst")
    judges_as_the_model(stream[:-1], "the last byte missing")


def test_frames_of_each_size_have_the_text():
    for length in (0, 11, 1024):
        stream = b"".join(frame(SEND, 0, 1, number, value=length * b"x") for number in range(200_000 // (56 + length)))
        judges_as_the_model(stream, f"values of {length} bytes")
        judges_as_the_model(stream[1080:], f"values of {length} bytes, cut off in front")


# ---- devices

DESK = ["desk", "--genesis", EXAMPLE_GENESIS, "--keys", example_keys(0)]


def test_words_refused_to_nobody():
    with open("/dev/full", "wb") as sink:
        for words in (["fly"], ["desk"], ["check", "--genesis", "nope"]):
            how = {"stdin": subprocess.DEVNULL, "stdout": subprocess.PIPE, "stderr": sink, "timeout": SECONDS}
            done = subprocess.run([payd(), *words], **how)
            same((done.returncode, done.stdout), (2, b""), words)


def plain(done):
    return told_plainly(done.stderr.decode())


def test_devices_that_fail():
    """A pipe that nobody reads, a full disk, and a folder as input; of a desk too."""
    source, closed = os.pipe()
    os.close(source)
    with open("/dev/full", "wb") as full, open(closed, "wb") as unread:
        for words, stream in (([], BAD_TAG), (DESK, b"FRONT\n")):
            how = {"stderr": subprocess.PIPE, "timeout": SECONDS}
            for sink in (full, unread):
                done = subprocess.run([payd(), *words], input=stream, stdout=sink, **how)
                same((done.returncode, plain(done)), (3, "payd: engine 3 Write\n"), f"{words}: {sink.name}")
            folder = os.open(TOP, os.O_RDONLY)
            done = subprocess.run([payd(), *words], stdin=folder, stdout=subprocess.PIPE, **how)
            os.close(folder)
            same((done.returncode, done.stdout, plain(done)), (3, b"", "payd: engine 2 Read\n"), f"{words}: a folder")
