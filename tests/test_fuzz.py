"""Short runs of the fuzzer among the black-box tests."""

import os
import subprocess

from support.runs import TOP, same


def runs_cases(cases, *more):
    words = [os.path.join(TOP, "tests", "fuzz"), "--cases", f"{cases}", *more]
    done = subprocess.run(words, capture_output=True, text=True, timeout=600)
    last = done.stdout.splitlines()[-1:]
    same((done.returncode, last), (0, [f"{cases} passed, 0 failed"]), f"{words}: {done.stdout}{done.stderr}")


def test_damaged_input_as_the_models_have_it():
    runs_cases(700)


def test_random_lists_of_exports_as_the_model_has_them():
    runs_cases(400, "--only", "exports")
