"""The figures of a node that runs, by the file `status.prom` in its folder, and what they tell of its group."""

from __future__ import annotations

import os
import re
import time
from typing import Any

FIGURES, FIGURE = "status.prom", re.compile(r"^payd_(\w+) (\d+)$", re.MULTILINE)
OF_PEER = re.compile(r'^payd_peer_(\w+)\{peer="(\d+)"\} (\d+)$', re.MULTILINE)
VERSION = re.compile(r'^payd_build_info\{version="([^"]*)"\} 1$', re.MULTILINE)
# Figures of so many seconds tell nothing of now: the node writes them every five. For so many after its start a node
# may not have met its peers yet.
OLD, STARTING = 20, 10


def read_figures(folder: str) -> dict[str, Any]:
    """Returns the figures of a node that runs, and how many seconds old they are; or none."""
    try:
        with open(os.path.join(folder, FIGURES), encoding="ascii") as file:
            text = file.read()
            figures = {name: int(value) for name, value in FIGURE.findall(text)}
            version = VERSION.search(text)
            figures["version"] = version and version[1]
            figures["peers"] = {}
            for name, peer, value in OF_PEER.findall(text):
                figures["peers"].setdefault(int(peer), {})[name] = int(value)
            return {**figures, "age": max(0, round(time.time() - os.fstat(file.fileno()).st_mtime))}
    except OSError:
        return {}


def is_starting(figures: dict[str, Any]) -> bool:
    return time.time() - figures.get("start_time_seconds", 0) < STARTING


def standstill(figures: dict[str, Any], faults: int) -> str | None:
    """Returns why no payment can settle, or None: more than (N + f) / 2 of N members have to run."""
    met, members = figures.get("peers_met"), len(figures.get("peers", ())) + 1
    if met is None or faults is None or figures["age"] > OLD or is_starting(figures):
        return None
    needed = (members + faults) // 2 + 1
    why = f"payments stand still: {met + 1} of {members} members run, {needed} are needed"
    return why if met + 1 < needed else None
