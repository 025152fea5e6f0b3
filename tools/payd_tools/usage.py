"""What a script says of how it is called."""

from __future__ import annotations

import argparse
import contextlib
import functools
import os
import re
import sys
from typing import Callable, Iterator, NoReturn, Optional

# A standard stream that was closed is opened here, before a file or a socket gets its number.
while (descriptor := os.open(os.devnull, os.O_RDWR)) <= 2:
    os.set_inheritable(descriptor, True)
os.close(descriptor)
for number, (name, mode) in enumerate({"stdin": "r", "stdout": "w", "stderr": "w"}.items()):
    if getattr(sys, name) is None:
        setattr(sys, name, open(number, mode, encoding="utf-8", closefd=False))
# (a name that the terminal's letters can't write is no reason to end)
sys.stdout.reconfigure(errors="backslashreplace")

# As argparse ends where words are wrong, and as the program where a file can't be read or written.
WRONG_USAGE, UNWRITTEN = 2, 3


def shown(text: object) -> str:
    """Returns a text in one line, in which characters that can't be printed are escaped."""
    return "".join(it if it.isprintable() else ascii(it)[1:-1] for it in str(text))


def tell(text: object, of: str | None = None) -> None:
    """Says a line on standard error, of the tool that runs or of this, also where nobody can read it."""
    of = f"payd {os.path.basename(sys.argv[0])}: " if of is None else of
    with contextlib.suppress(OSError):
        os.write(2, f"{of}{shown(text)}\n".encode())


class Parser(argparse.ArgumentParser):
    def error(self, message: str) -> NoReturn:
        super().error(shown(message))


def parser(text: str) -> Parser:
    """Returns a parser of words whose help is this text: what it is about, its usage, and more."""
    about, usage, *more = text.strip().split("\n\n")
    usage = usage[len("usage: ") :]
    how = {"prog": " ".join(usage.split()[:2]), "usage": usage, "description": "\n\n".join([about, *more])}
    return Parser(**how, formatter_class=argparse.RawDescriptionHelpFormatter)


# Digits 0 to 9, without sign and leading zeros.
NUMBER = re.compile("0|[1-9][0-9]{0,38}")


def meant(word: str) -> str:
    """Returns what would do in place of a word that is no number: of `1_000`, `+5` or digits of another script, the
    number that it may mean; else any."""
    with contextlib.suppress(ValueError):
        found = str(int(word)) if len(word) < 40 else ""
        if NUMBER.fullmatch(found):
            return f"write {found}"
    return "write digits, as 1000"


def no_number(word: str) -> str:
    return f"{shown(word)} is no number: {meant(word)}"


def number(most: int = 2**63 - 1, least: int = 0) -> Callable[[str], int]:
    """Returns a reader of words that say a number between these."""

    def read(word: str) -> int:
        if not NUMBER.fullmatch(word):
            raise argparse.ArgumentTypeError(no_number(word))
        if not least <= int(word) <= most:
            raise argparse.ArgumentTypeError(f"{word} won't do: write a number from {least} to {most}")
        return int(word)

    return read


def numbers(word: str) -> list[int]:
    """Returns the numbers of a word that has a comma between each two."""
    return [number()(it) for it in word.split(",")]


class Failure(Exception):
    """Why a tool doesn't do what it is for."""


# The main function of a tool, which returns its status, or nothing where that is 0.
Main = Callable[[], Optional[int]]


def reason_of(error: OSError) -> str:
    """Returns what an error of the system is about, a path or else the output, and the reason."""
    what = "the output can't be written" if error.filename is None else error.filename
    return f"{what}: {error.strerror or error}"


@contextlib.contextmanager
def at(path: str) -> Iterator[None]:
    """Has errors of the system that name no path name this one."""
    try:
        yield
    except OSError as error:
        error.filename = path if error.filename is None else error.filename
        raise


def drop_output() -> None:
    """Has nothing more written to standard output: what couldn't be written would be tried once more at the end."""
    with contextlib.suppress(OSError):
        os.dup2(os.open(os.devnull, os.O_WRONLY), sys.stdout.fileno())


def tool(
    of: type[Exception] = Failure, status: int = 1, unwritten: int = UNWRITTEN
) -> Callable[[Main], Callable[[], NoReturn]]:
    """Has the main function of a tool end the process with the status that it returns. Errors of the type `of` say what
    is wrong with what the tool was given, and end it with `status`. If it can't read or write, it ends with
    `unwritten`."""

    def decorated(main: Main) -> Callable[[], NoReturn]:
        @functools.wraps(main)
        def run() -> NoReturn:
            try:
                sys.exit(main())
            except of as why:
                tell(why)
                sys.exit(status)
            except OSError as error:
                drop_output()
                tell(reason_of(error))
                sys.exit(unwritten)

        return run

    return decorated


def read_words(text: str, takes: Callable[[list[str]], bool] = lambda words: not words) -> list[str]:
    """Returns the words that this script was called with. It ends here where they ask for this text, its usage, and
    where it doesn't take them."""
    words = sys.argv[1:]
    if "--help" in words or "-h" in words:
        print(text.strip())
        sys.exit(0)
    if not takes(words):
        refuse(text.strip())
    return words


def refuse(why: object) -> NoReturn:
    """Ends the script for its words."""
    with contextlib.suppress(OSError):
        # (so that it ends with its own status where nobody can read that)
        os.write(2, f"{why}\n".encode())
    sys.exit(WRONG_USAGE)


def are_names(words: list[str]) -> bool:
    """Returns whether there are words, and none that looks like an option."""
    return words != [] and not any(it.startswith("-") for it in words)
