"""Stands in for pytest where it isn't installed, with what ./test and the tests use of it."""

import contextlib
import glob
import importlib
import inspect
import io
import multiprocessing
import os
import re
import sys
import time
import traceback
from collections import Counter
from types import SimpleNamespace
from unittest import SkipTest

TESTS = os.path.dirname(os.path.dirname(os.path.realpath(__file__)))
fixture = contextlib.contextmanager
mark = SimpleNamespace(needs=lambda *args: lambda test: vars(test).setdefault("marks", []).append(args) or test)


def skip(reason):
    raise SkipTest(reason)


def begin(numbers, count):
    with numbers.get_lock():
        os.environ.update(PYTEST_XDIST_WORKER=f"gw{numbers.value}", PYTEST_XDIST_WORKER_COUNT=f"{count}")
        numbers.value += 1
    sys.path.insert(0, TESTS)
    importlib.import_module("conftest")


def outcome_of(job):
    """What came of a test, what is said of it, its name, and how many seconds it took."""
    begun, name = time.monotonic(), "::".join(job)
    outcome, line = run(job, name)
    return outcome, line, name, time.monotonic() - begun


def run(job, name):
    said = io.StringIO()
    try:
        with contextlib.ExitStack() as given, contextlib.redirect_stdout(said):
            conftest, module = sys.modules["conftest"], importlib.import_module(job[0])
            test = getattr(module, job[1])
            marks = [SimpleNamespace(args=it) for it in vars(test).get("marks", [])]
            conftest.pytest_runtest_setup(SimpleNamespace(iter_markers=lambda _: marks))
            names = inspect.signature(test).parameters
            test(**{it: given.enter_context((getattr(module, it, None) or getattr(conftest, it))()) for it in names})
    except SkipTest as reason:
        return "skipped", f"SKIPPED {name}: {reason}"
    except Exception:
        return "failed", f"FAILED {name}\n{said.getvalue()}{traceback.format_exc()}"
    return "passed", f"PASSED {name}"


if __name__ == "__main__":
    asked, jobs, counts = dict(zip(sys.argv[1::2], sys.argv[2::2])), [], Counter()
    for path in sorted(glob.glob(f"{TESTS}/test_*.py")):
        with open(path, encoding="utf-8") as file:
            jobs += [(os.path.basename(path)[:-3], it) for it in re.findall(r"(?m)^def (test_\w+)\(", file.read())]
    jobs = [it for it in jobs if asked.get("-k", "") in "::".join(it)]
    processes = int(asked["-n"])
    with multiprocessing.Pool(processes, begin, (multiprocessing.Value("i", 0), processes)) as pool:
        took = []
        for outcome, line, name, seconds in pool.imap_unordered(outcome_of, jobs):
            counts[outcome] += 1
            took.append((seconds, name))
            print(line, flush=True)
    for seconds, name in sorted(took, reverse=True)[: int(asked.get("--durations", 0))]:
        print(f"{seconds:.1f} s {name}")
    print(", ".join(f"{counts[it]} {it}" for it in ("passed", "failed", "skipped")))
    sys.exit(1 if counts["failed"] or not jobs else 0)
