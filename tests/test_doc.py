"""Whether what the pages name is there: files and headings that links lead to, and calls; whether their made parts are
what the sources give, and their sentences short; and whether each script says how it is called."""

import itertools
import os
import re
import subprocess
from concurrent.futures import ThreadPoolExecutor

from payd_tools.repository.inventory import files_below, read_crates, read_file
from payd_tools.repository.parts import faults_of_marks, faults_of_pages, names_of_promises, promises, remade
from support.prose import count_words, retired_words, sentences
from support.runs import SECONDS, TOP, same

PAGES = ["README.md", "CONTRIBUTING.md", "CHANGELOG.md", "vectors/README.md"]
PAGES += [f"docs/{it}" for it in files_below(f"{TOP}/docs", ".md")]
PUBLIC = re.compile(r"^ *pub fn (\w+)", re.MULTILINE)
# What may be a call, a type, a crate or a clause, on pages whose names are those of the tree.
CALL = re.compile(r"`(\w+(?:::\w+)*)`")
OF_NAMES = "guarantees", "clauses", "formats", "decisions", "commands", "errors", "theorem", "architecture"
OF_NAMES += "assumptions", "concepts", "guide", "MAP"
# What may be a path of the tree or the name of a crate.
PATH = re.compile(r"`((?:[a-z]\w*/)*[\w-]+(?:\.\w+)?)`", re.ASCII)
# What definitions are compared with, and what others call their own: packages, libraries, words of formats.
OF_OTHERS = {"sentecho", "sentready"}
# How long the sentences of a page are on average at most, and the longest of them.
MEAN_WORDS, MOST_WORDS = 20, 35
# The faults that a user can meet, of which each stands on the page of errors.
FAULTS = "Desk", "Log", "Link", "Frame", "Genesis", "Keys", "Ports", "Export", "Liar", "Engine"


def headings_of(page):
    """What a link may name after '#', as a page's reader makes it of the headings."""
    heads = re.findall(r"^#+ (.*)$", read_file(f"{TOP}/{page}"), re.MULTILINE)
    return [re.sub(r"[^\w\- ]", "", it.lower()).strip().replace(" ", "-") for it in heads]


def links_of(page):
    """Where a page's links lead to in the repository: each a file and a heading, which may be empty."""
    for link in re.findall(r"\]\(([^)\s]+)\)", read_file(f"{TOP}/{page}")):
        if "://" not in link:
            path, _, heading = link.partition("#")
            yield os.path.normpath(os.path.join(os.path.dirname(page), path)) if path else page, heading


def names_of_the_tree():
    """Each word of the crates' sources and definitions, of the scripts and of the tests."""
    names = set()
    for top in "crates", "tests", "tools", "bench", "examples":
        for folder, folders, files in os.walk(f"{TOP}/{top}"):
            folders[:] = [it for it in folders if it not in ("out", "refused", "__pycache__")]
            for file in [*folders, *files]:
                names.update(re.split(r"\W", file))
            for file in files:
                if file.endswith((".rt", ".antt", ".py")) or "." not in file:
                    names.update(re.findall(r"\w+", read_file(os.path.join(folder, file))))
    return names


def paths_named(page):
    """The paths of the tree that a page names in backticks, those in a crate as of the crate that was named last."""
    crate = ""
    for path in PATH.findall(read_file(f"{TOP}/{page}")):
        first = path.partition("/")[0]
        if os.path.isdir(f"{TOP}/crates/{first}"):
            crate = first
        if first in ("src", "specs", "proofs"):
            path = f"{crate}/{path}"
        if "/" in path and "NAME" not in path:
            yield path


def test_named_paths_stand():
    for page in PAGES:
        for path in paths_named(page):
            stands = any(os.path.exists(f"{TOP}/{it}/{path}") for it in ("", "crates"))
            same(stands, True, f"{page}: the path {path}")


def test_links_lead_somewhere():
    headings = {page: headings_of(page) for page in PAGES}
    for page in PAGES:
        for path, heading in links_of(page):
            same(os.path.exists(f"{TOP}/{path}"), True, f"{page}: a link to {path}")
            same(not heading or heading in headings.get(path, []), True, f"{page}: a link to {path}#{heading}")


def test_made_parts_are_what_the_sources_give():
    crates = read_crates()
    same([*faults_of_marks(crates, promises()), *faults_of_pages(crates)], [], "tools/contracts --write")


def test_sentences_are_short():
    """Of each page but for tables, code and made parts."""
    for page in PAGES:
        counted = {it: count_words(it) for it in sentences(read_file(f"{TOP}/{page}"))}
        same([it for it, count in counted.items() if count > MOST_WORDS], [], f"{page}: sentences that are too long")
        mean = sum(counted.values()) / max(len(counted), 1)
        same(mean <= MEAN_WORDS, True, f"{page}: {mean:.1f} words a sentence")


def test_sentences_are_counted():
    page = "# Head\n\nOne `a b` two. Three [four](five)!\n\n| not | this |\n\n- Six, seven\n  eight.\n- Nine.\n"
    same([count_words(it) for it in sentences(page)], [3, 2, 3, 1], "words of each sentence")
    same([*retired_words("The `liar` is *lied*, \"lies\".\n\n    lies\n")], [], "what is quoted")
    found = [it.partition(" (")[0] for it in retired_words("A liar, whose tag\nis brought. An authentication tag.\n")]
    same(found, ["liar", "tag", "whose", "brought"], "words that aren't used")


def test_pages_have_the_words_of_the_trade():
    for page in PAGES:
        same([*retired_words(read_file(f"{TOP}/{page}"))], [], f"{page}: words that pages don't use")


def test_each_fault_has_its_line():
    page = read_file(f"{TOP}/docs/errors.md")
    entry, found = re.compile(r'(\w+)Fault::\w+(?:\(_\))? => \((\d+), "(\w+)"\)'), []
    for path in (it for it in files_below(f"{TOP}/crates", ".rt") if "/src/" in it):
        for kind, number, name in entry.findall(read_file(f"{TOP}/crates/{path}")):
            found += [f"{number} {name}"] if kind in FAULTS else []
    same(len(found) > 50, True, f"faults: {len(found)}")
    missing = [it for it in found if it not in page and it != "1 Frame"]
    same(missing, [], "faults that the page of errors lacks")


def test_contracts_of_all_are_printed():
    """Each public function and each mutant of a crate stands in its part of what tools/contracts prints."""
    done = subprocess.run([f"{TOP}/tools/contracts"], capture_output=True, text=True, timeout=SECONDS)
    same((done.returncode, done.stderr), (0, ""), done.stdout[:1000])
    found = 0
    for crate in sorted(it for it in os.listdir(f"{TOP}/crates") if not it.endswith("_tests")):
        folder = f"{TOP}/crates/{crate}"
        sources = [read_file(f"{folder}/src/{it}") for it in files_below(f"{folder}/src", ".rt")]
        wanted = {name for text in sources for name in PUBLIC.findall(text)}
        if os.path.isdir(f"{folder}/mutants"):
            wanted |= {it.removesuffix(".edit") for it in os.listdir(f"{folder}/mutants")}
        named = set(re.findall(r"\w+", done.stdout.partition(f"\n## {crate}\n")[2].partition("\n## ")[0]))
        same(sorted(wanted - named), [], f"what the page lacks of {crate}")
        found += len(wanted)
    same(found > 700, True, f"functions and mutants: {found}")


def test_wrong_mark_is_told_of():
    """A clause that is gone, one of another name, and a promise that is none."""
    page = read_file(f"{TOP}/docs/clauses.md")
    same(names_of_promises()["nothing is lost"], "sync before send", "the name of a guarantee")
    for change, fault in (
        (lambda it: it.ensures.remove("gated"), "pay_durable: {} has no clause gated"),
        (lambda it: it.marks.append(("nothing is won", [])), "pay_durable: {}: there is no promise nothing is won"),
        (lambda it: setattr(it, "marks", []), "pay_durable: a promise is named above what is no function"),
    ):
        crates = read_crates()
        marked = (it for crate in crates for it in crate.functions if ("nothing is lost", ["gated"]) in it.marks)
        function = next(marked)
        change(function)
        same(fault.format(function.path()) in faults_of_marks(crates, promises()), True, fault)
    function.name = "other"
    same(remade(page, crates) == page, False, "a page of other names")


def test_named_calls_stand():
    names = names_of_the_tree()
    for page in ("README.md", *(f"docs/{it}.md" for it in OF_NAMES)):
        called = {part for it in CALL.findall(read_file(f"{TOP}/{page}")) for part in it.split("::")}
        unknown = {it for it in called - names - OF_OTHERS if not it[0].isdigit()}
        same(sorted(unknown), [], f"{page}: names that nothing has")


def scripts():
    """All that a person calls but ./payd, which hands each word on to the program."""
    for folder in "", "tools", "tests", "bench", "examples":
        for name in sorted(os.listdir(os.path.join(TOP, folder))):
            path = os.path.join(TOP, folder, name)
            if os.path.isfile(path) and os.access(path, os.X_OK) and name != "payd":
                yield path


def says_usage(call):
    """A script called with one word ends so, and says its usage there and nothing elsewhere."""
    path, (word, status) = call
    done = subprocess.run([path, word], stdin=subprocess.DEVNULL, capture_output=True, text=True, timeout=SECONDS)
    said, other = (done.stderr, done.stdout) if status else (done.stdout, done.stderr)
    was = done.returncode, re.search("usage", said, re.IGNORECASE) is not None, other
    same(was, (status, True, ""), f"{os.path.relpath(path, TOP)} {word}: {said[:200]}")


def test_each_script_says_how_it_is_called():
    """On standard output where it is asked, and on standard error, with a status of its own, where words are wrong."""
    found = list(scripts())
    same(len(found) > 35, True, f"scripts: {len(found)}")
    calls = itertools.product(found, (("--help", 0), ("-h", 0), ("--no-such-word", 2)))
    with ThreadPoolExecutor(len(os.sched_getaffinity(0))) as pool:
        list(pool.map(says_usage, calls))


# A line of a list of options that has none, or one with no words behind it.
WORDLESS = re.compile(r"^  ([a-z-](?:\S| (?! ))*)\n(?!      )", re.MULTILINE)


def test_each_option_has_words():
    """Of each tool, and of each command of `payd group`."""
    tools = re.findall(r"^  ([a-z-]+) ", read_file(f"{TOP}/tools/words"), re.MULTILINE)
    of_group = "new", "public", "make", "show", "keys", "next", "check-next", "tunnels"
    for words in [*([it] for it in tools), *(["group", it] for it in of_group)]:
        call = [f"{TOP}/tools/{words[0]}", *words[1:], "--help"]
        done = subprocess.run(call, capture_output=True, text=True, timeout=SECONDS)
        same((done.returncode, done.stderr), (0, ""), f"{call}")
        said = done.stdout
        listed = said.partition("positional arguments:\n")[2] or said.partition("options:\n")[2]
        same(WORDLESS.findall(listed), [], f"payd {' '.join(words)}: options without words")
