"""Prints what the program says of itself, by its sources, where none is compiled yet.

usage: tools/about -- [COMMAND] --help
       tools/about -- --version

./payd calls this for words that ask about the program, so that they compile nothing. What is printed are the program's
own words. Standard error says that there is no program yet.
"""

from __future__ import annotations

import os
import re
import sys

from payd_tools import usage
from payd_tools.repository import building
from payd_tools.repository.toolchain import TOP

SOURCES = os.path.join(TOP, "crates", "pay_cli", "src")
HELP, VERSION = ("-h, --help", "Print help"), ("-V, --version", "Print version")
# In the sources: a text of helps.rt; in words.rt a command with its words, a word that is made of texts, and one that
# isn't.
TEXT = re.compile(r'const (\w+): &str =\s*"(?:\\\n)?([^"]*)"')
MADE = re.compile(r'titled_command\(\s*alloc,\s*"(\w+)"(.*?)\n}\n', re.DOTALL)
WORD = re.compile(r'\.arg\((\w+)\(\s*alloc((?:,\s*"[^"]*")*)')
PLAIN = re.compile(r'\nfn (\w+)<\'a>\(alloc: Global\) -> Arg<\'a>(.*?)\n}\n', re.DOTALL)


def read(name: str) -> str:
    with open(os.path.join(SOURCES, f"{name}.rt"), encoding="utf-8") as file:
        return file.read()


def option_of(maker: str, name: str, *texts: str) -> tuple[list[str], str, bool]:
    """Returns an option as help shows it, what it is for, and whether it has to be there."""
    *takes, about = texts
    if maker != "flag":
        takes = takes or ["FOLDER" if maker == "required_folder" else "FILE"]
    return [f"--{name}", *(f"<{it}>" for it in takes)], about, maker.startswith("required")


def plain_of(body: str) -> tuple[str, str]:
    """Returns a word without a name as help shows it, and what it is for."""
    (name,), (about,) = re.findall(r'value_name\("(\w+)"\)', body), re.findall(r'help\("([^"]*)"\)', body)
    shown = f"<{name}>" if "required(true)" in body else f"[{name}]"
    return shown + ("..." if "Append" in body else ""), about


def listed(head: str, rows: list[tuple[str, str]]) -> list[str]:
    """Returns the lines of a part of help, or none without rows."""
    wide = max((len(it) for it, _ in rows), default=0)
    return [f"{head}:", *(f"  {it:{wide}}  {about}" for it, about in rows), ""] if rows else []


def words_of(name: str) -> tuple[list[tuple[list[str], str, bool]], list[tuple[str, str]]]:
    """Returns the options of a command, and its words without a name."""
    source = read("words")
    made, plain = dict(MADE.findall(source))[name], dict(PLAIN.findall(source))
    found = [(maker, re.findall('"([^"]*)"', given)) for maker, given in WORD.findall(made)]
    options = [option_of(maker, *given) for maker, given in found if given]
    return options, [plain_of(plain[maker]) for maker, given in found if not given]


def texts() -> dict[str, str]:
    """Returns the texts of help, by the names of their constants."""
    return dict(TEXT.findall(read("helps")))


def commands_in(texts: dict[str, str]) -> dict[str, str]:
    """Returns the commands, each with what it does in short."""
    return {it[: -len("_ABOUT")].lower(): text for it, text in texts.items() if it.endswith("_ABOUT")}


def help_of(name: str, texts: dict[str, str]) -> list[str]:
    """Returns what a command's --help prints."""
    options, words = words_of(name)
    needed = [" ".join(shown) for shown, _, is_needed in options if is_needed]
    any_left = ["[OPTIONS]"] if len(needed) < len(options) else []
    lines = [texts[f"{name.upper()}_ABOUT"], ""]
    lines += [" ".join(["Usage: payd", name, *any_left, *needed, *(it for it, _ in words)]), ""]
    rows = [(f"    {' '.join(shown)}", about) for shown, about, _ in options]
    return [*lines, *listed("Arguments", words), *listed("Options", [*rows, HELP]), texts[f"{name.upper()}_HELP"]]


def help_of_all(texts: dict[str, str]) -> list[str]:
    """Returns what the program's --help prints, and the words of the tools."""
    lines = [texts["ABOUT"], "", "Usage: payd [COMMAND]", "", *listed("Commands", [*commands_in(texts).items()])]
    with open(os.path.join(TOP, "tools", "words"), encoding="utf-8") as file:
        return [*lines, *listed("Options", [HELP, VERSION])[:-1], file.read().rstrip("\n")]


@usage.tool()
def main() -> None:
    if sys.argv[1:2] != ["--"] or not sys.argv[2:]:
        usage.read_words(__doc__, lambda _: False)
    words, found = sys.argv[2:], texts()
    if words[-1] in VERSION[0].split(", "):
        lines = [f"payd {found['VERSION']}"]
    elif len(words) == 1:
        lines = help_of_all(found)
    elif f"{words[0].upper()}_HELP" in found:
        lines = help_of(words[0], found)
    else:
        why = f"unrecognized subcommand '{usage.shown(words[0])}'"
        usage.refuse(f"payd: {why}\npayd: For more information, try '--help'.")
    print("\n".join(lines), flush=True)
    building.say(f"not compiled yet: the first run does that, {building.HOW_LONG}")
