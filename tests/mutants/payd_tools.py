"""Stands for the package tools/payd_tools, which these modules import."""

import os

__path__ = [os.path.join(os.path.dirname(__file__), "..", "..", "tools", "payd_tools")]
