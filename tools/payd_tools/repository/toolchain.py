"""The toolchain's command rt as a module: what it knows of a repository's crates, and how it builds and checks them."""

from __future__ import annotations

import importlib.machinery
import importlib.util
import os
import shutil
import subprocess
import sys
from pathlib import Path
from typing import Any

# The folder of the repository.
TOP = str(Path(__file__).resolve().parents[3])


class BuildError(Exception):
    """Why there is no program to run."""


def load_rt() -> Any:
    """Loads the module, or returns nothing where the command isn't on the path."""
    path = shutil.which("rt")
    if path is None:
        return None
    # the toolchain's folder may be another user's
    sys.dont_write_bytecode = True
    loader = importlib.machinery.SourceFileLoader("rt", os.path.realpath(path))
    module = importlib.util.module_from_spec(importlib.util.spec_from_loader("rt", loader))
    loader.exec_module(module)
    return module


def load_needed() -> Any:
    """Loads the module, without which nothing can be built."""
    rt = load_rt()
    if rt is None:
        raise BuildError("the toolchain's command rt is not on the path")
    return rt


def identity() -> str:
    """Returns what the toolchain calls itself, or '' where there is none."""
    if shutil.which("rt") is None:
        return ""
    how = {"stdin": subprocess.DEVNULL, "stdout": subprocess.PIPE, "stderr": subprocess.DEVNULL}
    ran = subprocess.run(["rt", "version"], **how, errors="replace")
    return "" if ran.returncode else " ".join(ran.stdout.split())
