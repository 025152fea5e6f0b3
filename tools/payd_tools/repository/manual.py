"""Manual pages: of what the program's --help says, and of the parts of the documents that are about files.

Of Markdown it reads what those parts have: paragraphs, lists, tables, blocks of code, and words in it.
"""

from __future__ import annotations

import re
from typing import Callable, Iterator

FILES = (
    ("formats.md", ("JSON files", "The group's file", "Signatures", "The folder of a member", "A member's log")),
    ("errors.md", ("Faults of files", "Faults of a log")),
)
# How wide the columns of a table may be, but for the last one.
WIDE = 40


def escaped(text: str) -> str:
    """Returns text as a manual page has it, each line as it stands."""
    lines = text.replace("\\", "\\e").replace("-", "\\-").split("\n")
    return "\n".join(f"\\&{line}" if line[:1] in ".'" else line for line in lines)


def of_commands(version: str, about: str, helps: dict[str, str], read: Callable) -> str:
    """Returns the page of the program, and of each of its commands and tools; of the documents as they are read."""
    parts = [f'.TH PAYD 1 "" "payd {version}"', ".SH NAME", "payd \\- a payment ledger without consensus"]
    parts += [".SH SYNOPSIS", ".nf", *(escaped(it) for text in helps.values() for it in usage_in(text)), ".fi"]
    parts += [".SH DESCRIPTION", ".nf", escaped(about.strip()), ".fi"]
    for command, text in helps.items():
        parts += [f".SH {escaped(command.upper())}", ".nf", escaped(text.strip()), ".fi"]
    parts += [".SH EXIT STATUS", *roff(section(read("errors.md"), "Exit status")), ".SH SEE ALSO", ".BR payd (5)"]
    return "\n".join(["'\\\" t", *parts]) + "\n"


def usage_in(text: str) -> list[str]:
    """Returns the lines by which a command or a tool is called, of what it says of itself."""
    lines = text[text.lower().index("usage: ") :].partition("\n\n")[0].split("\n")
    return [it[len("usage: ") :] for it in lines]


def of_files(version: str, read: Callable) -> str:
    """Returns the page of the formats of files, of the documents as they are read."""
    parts = ["'\\\" t", f'.TH PAYD 5 "" "payd {version}"', ".SH NAME", "payd \\- files of payd"]
    for page, heads in FILES:
        text = read(page)
        for head in heads:
            parts += [f".SH {escaped(head).upper()}", *roff(section(text, head))]
    parts += [".SH SEE ALSO", ".BR payd (1)"]
    return "\n".join(parts) + "\n"


def section(text: str, head: str) -> str:
    """Returns what stands below a heading of the second level, without comments."""
    text = re.split(r"^## .*$", text.partition(f"\n## {head}\n")[2], maxsplit=1, flags=re.MULTILINE)[0]
    return re.sub(r"^<!--.*-->\n", "", text, flags=re.MULTILINE)


def roff(text: str) -> Iterator[str]:
    """Yields the lines of a page for each block of a text."""
    for block in re.split(r"\n\n+", text.strip()):
        lines = block.split("\n")
        if lines[0].startswith("|"):
            yield from table([cells(line) for line in lines if not re.fullmatch(r"[|\- ]+", line)])
        elif lines[0].startswith("- "):
            for line in lines:
                yield from (".IP \\(bu 2", words(line[2:]))
        elif lines[0].startswith("    "):
            yield from (".PP", ".nf", escaped("\n".join(line[4:] for line in lines)), ".fi")
        else:
            yield from (".PP", words(" ".join(lines)))


def cells(line: str) -> list[str]:
    return [words(it.strip()) for it in line.strip().strip("|").split("|")]


def table(rows: list[list[str]]) -> Iterator[str]:
    """Yields a table, whose last column takes the room that is left; or a list, where another is wide."""
    if max(len(it) for row in rows for it in row[:-1]) > WIDE:
        for first, *others in rows[1:]:
            yield from (".TP", first, "; ".join(f"{head}: {it}" for head, it in zip(rows[0][1:], others)))
        return
    yield ".TS"
    yield f"{' '.join(['lb'] * len(rows[0]))}"
    yield f"{' '.join(['l'] * (len(rows[0]) - 1))} lx."
    for row in rows:
        yield "\t".join([*row[:-1], f"T{{\n{row[-1]}\nT}}"])
    yield ".TE"


def words(text: str) -> str:
    """Returns a line's words: code is bold, and a link is its text."""
    text = re.sub(r"\[([^\]]*)\]\([^)]*\)", r"\1", text)
    text = re.sub(r"`([^`]*)`|\*\*([^*]*)\*\*", lambda it: f"\0B{it[1] or it[2]}\0R", text)
    text = re.sub(r"(?<![\w*])\*([^*]+)\*(?![\w*])", "\0I\\1\0R", text)
    return escaped(text).replace("\0", "\\f")
