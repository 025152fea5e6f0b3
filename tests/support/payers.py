"""Orders that are paid by `payd pay` while it is killed at any moment, for the black-box tests and tests/kills."""

import os
import random
import subprocess
import time

from support.nodes import until
from support.restarts import Folders
from support.runs import SECONDS, TOP, same

PAY = os.path.join(TOP, "tools", "pay")
# One is killed so many seconds after its start, at most: it takes about half of this to pay.
LATEST = 0.4


def pay(folder, *words):
    """Status, output and errors of a payment by whoever isn't at a terminal."""
    how = {"stdin": subprocess.DEVNULL, "capture_output": True, "timeout": SECONDS}
    done = subprocess.run([PAY, "--data", folder, *words], **how)
    return done.returncode, done.stdout.decode(), done.stderr.decode()


def is_killed(seeded, words):
    """Whether a run of these words is killed before it ends."""
    child = subprocess.Popen(words, stdout=subprocess.DEVNULL, stderr=subprocess.DEVNULL)
    time.sleep(seeded.random() * LATEST)
    child.kill()
    status = child.wait()
    same(status in (-9, 0), True, f"how a payment ends: {status}")
    return status == -9


def payments_are_killed(kills, seed):
    """Orders whose payments are killed so many times, each until it is paid. How many orders there were."""
    seeded, amounts = random.Random(f"payer {seed}"), []
    with Folders([10**9, 0, 0, 0]) as group:
        folder, killed = os.path.join(group.place.name, "data-0"), 0
        while killed < kills:
            amounts.append(len(amounts) + 1)
            words = ["--yes", "--order", f"order {amounts[-1]}", "1", f"{amounts[-1]}"]
            for _ in range(seeded.randrange(1, 4)):
                killed += is_killed(seeded, [PAY, "--data", folder, *words])
            status, output, errors = pay(folder, *words)
            same((status, output.startswith("settled: ")), (0, True), f"the order in the end: {errors}")
        judge(group, amounts)
    return len(amounts)


def judge(group, amounts):
    """Each order is paid once, and nothing else."""
    group.settle([len(amounts), 0, 0, 0])
    for own in range(4):
        until(lambda own=own: group.nodes[own].ask("BALANCE 1"), f"balance 1 {sum(amounts)}", of="what came")
    lines = [line for line in group.nodes[0].statement(0) if line.startswith("out ")]
    same(sorted(int(line.split(" ")[4]) for line in lines), amounts, "what was paid")
