"""What the tests are given, whether pytest runs them or what stands in for it (tests/fallback)."""

import shutil
import signal
import tempfile

import pytest

from support import damaged_logs, fake_toolchain, hostile

# Children take each signal as usual. Run in the background or by nohup this process ignores some, and its children
# would too, but for those that it takes itself. (Two of them Python ignores, and gives its children as usual.)
for number in signal.valid_signals() - {signal.SIGPIPE, signal.SIGXFSZ}:
    if signal.getsignal(number) is signal.SIG_IGN:
        signal.signal(number, lambda *_: None)


def pytest_configure(config):
    config.addinivalue_line("markers", "needs(programs): skipped where there is none of them")


def pytest_runtest_setup(item):
    """Skips a test that needs a program which only some machines have, and this one doesn't."""
    for mark in item.iter_markers("needs"):
        if not any(map(shutil.which, mark.args)):
            pytest.skip(f"no {' or '.join(mark.args)}")


def pytest_terminal_summary(terminalreporter):
    """The line by which ./test counts."""
    passed, failed, errors, skipped = (
        len(terminalreporter.stats.get(it, [])) for it in ("passed", "failed", "error", "skipped")
    )
    terminalreporter.write_line(f"{passed} passed, {failed + errors} failed, {skipped} skipped")


@pytest.fixture
def library():
    """The library that refuses what a run asks for, which says how often."""
    with hostile.Hostile() as made:
        yield made
        for kind, count in made.refused.items():
            print(f"{kind}: {count} refused in turn")


@pytest.fixture
def damage():
    with damaged_logs.damage_of_a_log() as made:
        yield made


@pytest.fixture
def folder():
    with tempfile.TemporaryDirectory() as made:
        yield made


@pytest.fixture
def repository():
    with tempfile.TemporaryDirectory() as folder:
        yield fake_toolchain.Repository(folder)
