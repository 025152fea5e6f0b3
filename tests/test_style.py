"""Whether the Python files keep to the rules in pyproject.toml, as far as what is at hand can tell."""

import ast
import os
import re
import shutil
import subprocess

import pytest

from support.runs import SECONDS, TOP, read_text, same

OF_TESTS = (f"tests/{it}" for it in ("fallback", "models", "mutants", "support"))
FOLDERS = (".", "bench", "examples", "tests", *OF_TESTS, "tools", "tools/payd_tools", "tools/payd_tools/repository")
LONGEST = 120
LINTERS = "ruff", "pyflakes3", "pyflakes"

# The oldest Python that the program's scripts run with; of what it doesn't have, what is likely to be called; and the
# scripts.
OLDEST = (3, 8)
NEWER = re.compile(
    r"\.(?:removeprefix|removesuffix|randbytes|waitstatus_to_exitcode)\(|\bfunctools\.cache\b|, strict="
)
OF_PROGRAM = ("examples/", "tools/")


def is_python(path):
    with open(path, "rb") as file:
        return path.endswith(".py") or b"python3" in file.readline()


def python_files():
    for folder in FOLDERS:
        paths = (os.path.join(TOP, folder, it) for it in sorted(os.listdir(os.path.join(TOP, folder))))
        files = (it for it in paths if os.path.isfile(it) and not os.path.islink(it))
        yield from (os.path.normpath(it) for it in files if is_python(it))


def faults_of(path):
    """The lines of a file that break a rule which needs no linter."""
    text = read_text(path)
    for number, line in enumerate(text.splitlines(), 1):
        if len(line) > LONGEST or line != line.rstrip() or "\t" in line:
            yield f"{os.path.relpath(path, TOP)}:{number}"
    if not text.endswith("\n") or text.endswith("\n\n"):
        yield f"{os.path.relpath(path, TOP)}: its end"


def test_lines_keep_their_length():
    same([it for path in python_files() for it in faults_of(path)], [], f"lines longer than {LONGEST}, tabs, spaces")


def test_oldest_python_reads_all_files():
    for path in python_files():
        text, name = read_text(path), os.path.relpath(path, TOP)
        try:
            ast.parse(text, feature_version=OLDEST)
        except SyntaxError as error:
            raise AssertionError(f"{name}:{error.lineno}: {error.msg}") from error
        if name.startswith(OF_PROGRAM):
            same(NEWER.findall(text), [], f"{name}: what Python {OLDEST} doesn't have")


@pytest.mark.needs(*LINTERS)
def test_linter_finds_nothing():
    """By ruff with the rules of pyproject.toml, else by pyflakes alone."""
    linter = next(filter(shutil.which, LINTERS))
    words = [linter, "check", "--no-cache"] if linter == "ruff" else [linter]
    done = subprocess.run([*words, *python_files()], cwd=TOP, capture_output=True, text=True, timeout=4 * SECONDS)
    same(done.returncode, 0, f"{linter}: {done.stdout}{done.stderr}")


# Lines of Rattle, except attributes, which `rt fmt` keeps on one line, and texts: those of --help, and tests' data.
LONGEST_OF_RATTLE = 100
TEXTS = ("crates/pay_cli/src/helps.rt", "crates/pay_library_tests/src/")


def long_lines():
    """The lines of src/ and specs/ that are too long, by their places."""
    for folder, inner, files in os.walk(os.path.join(TOP, "crates")):
        inner[:] = [it for it in inner if it not in ("out", "proofs")]
        for path in (os.path.relpath(os.path.join(folder, it), TOP) for it in files):
            if path.endswith((".rt", ".antt")) and not path.startswith(TEXTS):
                with open(os.path.join(TOP, path), encoding="utf-8") as file:
                    for number, line in enumerate(file, 1):
                        if len(line.rstrip("\n")) > LONGEST_OF_RATTLE and not line.lstrip().startswith("#["):
                            yield f"{path}:{number}"


def test_lines_of_rattle_keep_their_length():
    same(sorted(long_lines()), [], f"lines longer than {LONGEST_OF_RATTLE}")


# What a doc comment doesn't begin with: words that lean on what stands outside of it.
LEANING = re.compile(r"//[/!] (?:So many|The same|Whether|It|Its|They|One|Those|That|Such|As|Of|Where|Whose|Behind)\b")


def leaning_comments():
    """The doc comments of src/ that begin with such a word, by their places."""
    for folder, _, files in os.walk(os.path.join(TOP, "crates")):
        place = os.path.relpath(folder, TOP)
        for file in sorted(files) if "/src" in place and "/pay_library_tests/" not in place else ():
            lines = [it.strip() for it in read_text(os.path.join(folder, file)).splitlines()]
            for number, (before, line) in enumerate(zip(["", *lines], lines), 1):
                if LEANING.match(line) and not before.startswith(line[:3]):
                    yield f"{place}/{file}:{number}"


def test_doc_comments_stand_alone():
    same(list(leaning_comments()), [], "doc comments that begin with a word that leans on another")


# The most parameters of a definition in specs/: one that has more relates things that want a name of their own.
MOST_PARAMETERS = 7
# A definition in one line: its name, its parameters, if it is a type, and its type.
DEFINITION = re.compile(
    r"(?m)^(?:pub )?(?:(?:record|data) (\w+)(.*?) where\b|(?:abbrev |unfoldable )?(?:pub )?(\w+)( : .*))"
)
BINDER = re.compile(r"[({]([\w ]+) : ")


def cut_outside(text, mark):
    """The parts of a text between the marks that stand in no brackets."""
    depth, parts = 0, [""]
    for letter in text:
        depth += (letter in "({[") - (letter in ")}]")
        if letter == mark and depth == 0:
            parts.append("")
        else:
            parts[-1] += letter
    return parts


def count_parameters(part):
    """How many parameters stand before an arrow: those that `(a b : T) {S : U}` names in round brackets, or one."""
    groups = [it.strip() for it in cut_outside(re.sub(r"(?<=[)}]) (?=[({])", "\0", part), "\0") if it.strip()]
    named = [BINDER.match(it) for it in groups]
    return sum(len(it[1].split()) for it in named if it[0][0] == "(") if all(named) else 1


def definitions():
    """The definitions of specs/, each with how many parameters it has, without those in braces."""
    for folder, inner, files in os.walk(os.path.join(TOP, "crates")):
        inner[:] = [it for it in inner if it != "out"]
        for file in sorted(files) if os.path.basename(folder) == "specs" else ():
            text = re.sub(r" *--.*", "", read_text(os.path.join(folder, file)))
            for of_type, head, other, whole in DEFINITION.findall(re.sub(r"\n +", " ", text)):
                named, *answered = cut_outside(head or whole, ":")
                takes = cut_outside(":".join(answered), "→")[:-1]
                yield of_type or other, sum(map(count_parameters, [named, *takes]))


def test_definitions_have_few_parameters():
    more = {name: count for name, count in definitions() if count > MOST_PARAMETERS}
    same(more, {}, f"definitions with more than {MOST_PARAMETERS} parameters")


# ---- the package


def package_files():
    return [it for it in python_files() if os.path.relpath(it, TOP).startswith("tools/payd_tools/")]


def without_types(path):
    """The functions of a file of which a parameter or the result has no type."""
    for function in ast.walk(ast.parse(read_text(path))):
        if isinstance(function, ast.FunctionDef):
            given = function.args
            named = [*given.posonlyargs, *given.args, *given.kwonlyargs, given.vararg, given.kwarg]
            typed = [it.annotation for it in named if it is not None and it.arg not in ("self", "cls")]
            if None in (function.returns, *typed):
                yield f"{os.path.relpath(path, TOP)}: {function.name}"


def test_functions_of_the_package_have_types():
    files = package_files()
    same(len(files) > 40, True, f"files of the package: {len(files)}")
    same([it for path in files for it in without_types(path)], [], "functions without types")


def test_package_needs_nothing_of_the_tests():
    others = {name for it in ("support", "models", "mutants") for name in (it, *modules_in(f"tests/{it}"))}
    for path in package_files():
        imports = [it for it in ast.walk(ast.parse(read_text(path))) if isinstance(it, (ast.Import, ast.ImportFrom))]
        names = {it.module or "" for it in imports if isinstance(it, ast.ImportFrom)}
        names |= {name.name for it in imports if isinstance(it, ast.Import) for name in it.names}
        same(sorted(it for it in names if it.split(".")[0] in others), [], f"what {path} imports")


def modules_in(folder):
    return [it[:-3] for it in os.listdir(os.path.join(TOP, folder)) if it.endswith(".py") and it != "payd_tools.py"]
