"""Black-box tests of payd demo: four members with pages, of which nothing stays."""

import http.client
import json
import os
import re
import signal
import subprocess
from contextlib import contextmanager
from urllib.parse import urlsplit

from support.nodes import PATIENCE, until
from support.runs import SECONDS, TOP, same

DEMO = os.path.join(TOP, "tools", "demo")
PAGE = re.compile(r"  (\w+): (http://127\.0\.0\.1:\d+/\?token=\S+)\n")


@contextmanager
def demo(folder, *words):
    """One that runs, the pages of its members, and the folder that it prints."""
    how = {"cwd": folder, "stdout": subprocess.PIPE, "stderr": subprocess.PIPE, "text": True}
    given = {**os.environ, "TMPDIR": str(folder)}
    with subprocess.Popen([DEMO, *words], env=given, **how) as child:
        try:
            lines = []
            while not lines or lines[-1] not in ("Ctrl-C ends all.\n", ""):
                lines.append(child.stdout.readline())
            same(lines[-1] != "", True, "that it starts")
            yield child, dict(PAGE.findall("".join(lines))), "".join(lines)
        finally:
            child.kill()


def state(address):
    """What a page tells, or None where nobody serves it."""
    at = urlsplit(address)
    line = http.client.HTTPConnection(at.netloc, timeout=PATIENCE)
    try:
        line.request("GET", "/state", headers={"X-Token": at.query.partition("=")[2]})
        return json.loads(line.getresponse().read())
    except OSError:
        return None
    finally:
        line.close()


def test_demo_shows_a_payment_and_leaves_nothing(folder):
    for each in (signal.SIGINT, signal.SIGTERM):
        with demo(folder) as (child, pages, text):
            same([*pages], ["ada", "bob", "cy", "dee"], text)
            same('ada paid 12.50 EUR to bob "Pizza Friday". Each member has a page:\n' in text, True, text)
            for name, balance in zip(pages, ("87.50", "112.50", "100.00", "100.00")):
                until(lambda: state(pages[name])["balance"], balance, of=f"the balance of {name}")
            until(lambda: [it["note"] for it in state(pages["bob"])["entries"]], ["Pizza Friday"], of="the payment")
            child.send_signal(each)
            output, errors = child.communicate(timeout=SECONDS)
            same((child.returncode, output, errors), (0, "All have ended.\n", ""), f"the end by {each.name}")
        same([state(it) for it in pages.values()], [None] * 4, "whether pages are left")
        same(os.listdir(folder), [], "what is left")


def test_demo_that_is_kept_goes_on(folder):
    with demo(folder, "--keep", "kept") as (child, _, text):
        child.send_signal(signal.SIGINT)
        output = child.communicate(timeout=SECONDS)[0]
        same((child.returncode, output), (0, f"All have ended; {folder}/kept is left.\n"), text)
    how = {"cwd": folder, "capture_output": True, "text": True, "timeout": SECONDS}
    done = subprocess.run([os.path.join(TOP, "payd"), "export", "--data", "kept/ada"], **how)
    same(json.loads(done.stdout)["balances"][:2], [8750, 11250], "the export of a member")
    done = subprocess.run([DEMO, "--keep", "kept"], **how)
    said = "payd demo: kept: File exists: --keep takes a folder that isn't there yet\n"
    same((done.returncode, done.stdout, done.stderr), (1, "", said), "a folder that is there")
