"""Stands for the package tools/payd_tools, which the scripts of this folder import."""

import os

__path__ = [os.path.join(os.path.dirname(__file__), "..", "tools", "payd_tools")]
