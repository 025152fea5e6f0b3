"""The program answers the vectors for other implementations as they say, and these are what the models make."""

import importlib.machinery
import importlib.util
import json
import os

from payd_tools import groups
from support.runs import TOP, key_texts, of_file, run, same, with_files

TOOL = os.path.join(TOP, "tests", "make-vectors")


def vectors(name, least=100):
    with open(os.path.join(TOP, "vectors", f"{name}.json"), encoding="ascii") as file:
        rows = json.load(file)
    same(len(rows) >= least, True, f"vectors of {name}")
    return rows


def shown(row, was, status, lines):
    text = "".join(f"{line}\n" for line in lines)
    same(was, (status, text, ""), row["for"])


def test_vectors_of_frames():
    for row in vectors("frames"):
        shown(row, run(["check"], bytes.fromhex(row["stream"])), row["status"], row["lines"])


def test_vectors_of_scripts():
    for row in vectors("scripts"):
        shown(row, run(["sim"], row["script"].encode("ascii")), row["status"], row["lines"])


def test_vectors_of_the_desk():
    for row in vectors("desk"):
        keys = {"own": row["own"], "keys": key_texts(row["own"], row["genesis"]["members"])}
        lines, answers = zip(*row["exchange"])
        stream = "".join(f"{line}\n" for line in lines).encode("latin-1")
        words = ["desk", "--genesis", "genesis", "--keys", "keys"]
        answers = [it.encode("latin-1").decode() for it in answers]
        shown(row, with_files({"genesis": row["genesis"], "keys": keys}, words, stream), 0, answers)


def test_vectors_of_exports():
    for row in vectors("exports"):
        files = {f"{place}.json": given for place, given in enumerate(row["exports"])}
        was = with_files(files, ["audit", *files])
        if "fault" in row:
            same(was, (2, "", of_file(f"export {row['fault']}", "0.json")), row["for"])
        else:
            shown(row, was, 0 if row["line"] == "clean" else 1, [row["line"]])


def test_vectors_of_groups():
    for row in vectors("groups", 24):
        group = groups.Group(row["group"])
        same(group.canonical().decode("ascii"), row["canonical"], f"the text of {row['for']}")
        same(" ".join(group.fingerprint()), row["fingerprint"], f"the fingerprint of {row['for']}")
        same(json.loads(group.keys(bytes.fromhex(row["secret"]))), row["keys"], f"the keys of {row['for']}")


def test_vectors_are_those_of_the_models():
    loader = importlib.machinery.SourceFileLoader("make_vectors", TOOL)
    tool = importlib.util.module_from_spec(importlib.util.spec_from_loader(loader.name, loader))
    loader.exec_module(tool)
    for name in tool.VECTORS:
        with open(os.path.join(TOP, "vectors", f"{name}.json"), encoding="ascii") as file:
            same(file.read() == tool.text_of(name), True, f"vectors/{name}.json is what tests/make-vectors writes")
