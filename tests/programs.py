"""Where the built programs are that the tests try, and the library that refuses them memory, reads and writes.

A program stands at crates/CRATE/out/NAME, or where the environment says by its name in capitals, as in
TFTP_AUDIT=/usr/local/lib/tftp-audit/tftp-audit; the library where TFTP_REFUSE says.
"""
from __future__ import annotations

import atexit
import functools
import os
import pathlib
import shutil
import subprocess
import tempfile
from dataclasses import dataclass

from repository import TOP

# Where this stands in the environment, what is not built fails the tests that need it, and is skipped elsewhere.
REQUIRED, REFUSE = "TFTP_PROGRAMS_REQUIRED", "TFTP_REFUSE"


@dataclass(frozen=True)
class Program:
    """A program of a crate, which has the crate's name, or that of its tests, which has `_tests` behind it."""

    crate: str
    further: str = ""

    @property
    def name(self) -> str:
        return self.crate + self.further

    @property
    def path(self) -> str:
        return os.environ.get(self.name.upper()) or str(TOP / "crates" / self.crate / "out" / self.name)

    def lacks(self) -> str:
        """Why it cannot be tried, or nothing."""
        is_there = os.path.isfile(self.path) and os.access(self.path, os.X_OK)
        return "" if is_there else f"the program {self.name} is not built: there is no {self.path}"


AUDIT, TRANSFERS, MATCH = Program("tftp_audit"), Program("tftp_transfers"), Program("tftp_match")
TOOLS = Program("tests_tools")


def is_required() -> bool:
    return bool(os.environ.get(REQUIRED))


def build_refusing(folder: pathlib.Path) -> str:
    """The library of refuse.c, built there."""
    library = folder / "refuse.so"
    source = TOP / "tests" / "refuse.c"
    subprocess.run(["cc", "-O1", "-shared", "-fPIC", "-o", library, source, "-ldl"], check=True)
    return str(library)


@functools.lru_cache(maxsize=None)
def refusing() -> str:
    """The library that is preloaded: that which the environment names, or one that is built once."""
    if given := os.environ.get(REFUSE):
        return given
    folder = tempfile.mkdtemp()
    atexit.register(shutil.rmtree, folder, ignore_errors=True)
    return build_refusing(pathlib.Path(folder))
