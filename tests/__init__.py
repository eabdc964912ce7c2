"""The tests, modules of unittest: `python3 -m unittest` runs them one after another, `python3 -m tests` side by side.

Their modules and those that they share stand in this folder and name one another without it, since the fuzzers among
them are scripts too.
"""
import pathlib
import sys

sys.path.insert(0, str(pathlib.Path(__file__).resolve().parent))

import repository  # noqa: E402, F401
