"""Stands for the package tests/support, which the scripts of this folder import."""

import os

__path__ = [os.path.join(os.path.dirname(__file__), "..", "tests", "support")]
