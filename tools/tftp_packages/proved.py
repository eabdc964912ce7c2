"""The files of a package that say what it is: PROVED and SHA256SUMS."""
from __future__ import annotations

import re
from pathlib import Path

from tftp_packages.checkout import LOGS, PROGRAMS, Commit, answer, digest, libc_needed

# What rt says of a build: the sum of the logic that its proofs are checked in; of each crate its name, and the verdict.
LOGIC = re.compile(r"^logic \S+: (.*)$")
CRATE = re.compile(r"^(?:crate (\w+): |== (\w+(?:: its tests)?)$)")
VERDICT = re.compile(r"^logic=proved .*$")
# How the gate ends: whether each proof was done anew.
ENDED = re.compile(r"^rt: ok; .*$")


def verdicts(log: Path) -> list[str]:
    """What rt said of the proofs, by crate; of one that an earlier run had proved a build says nothing."""
    told: list[str] = []
    crate = ""
    for line in log.read_text(errors="replace").splitlines():
        if found := CRATE.match(line):
            crate = found[1] or found[2]
        elif VERDICT.match(line):
            told.append(f"{crate}: {line}")
        elif ENDED.match(line):
            told.append(line)
        elif (found := LOGIC.match(line)) and (said := f"logic: {found[1]}") not in told:
            told.append(said)
    return told


def told_of(commit: Commit, folder: Path) -> str:
    """PROVED: of which commit the programs below a folder were built, by which kit, and what it said of their proofs."""
    lines = [
        f"commit {commit.name} of {commit.time:%Y-%m-%d %H:%M:%S} UTC",
        f"proved and built by {answer('rt', 'version')}",
        f"needs glibc {libc_needed()} or later, on {PROGRAMS[0].architecture()}",
        *(f"{program.name}: sha256 {digest(program.path())}" for program in PROGRAMS),
        *(f"{program.name}, stripped: sha256 {digest(folder / program.place)}" for program in PROGRAMS),
        "",
        "This file is the word of who built them, and no proof. To prove it again: that commit, `make test`.",
        "README.md says what is proved, what is only tested, and what is trusted. SHA256SUMS has the sum of each file:",
        "`sha256sum -c` in the folder that has bin. The programs are those that were built, without their symbols, which",
        "`strip` takes away. Below, what the kit said of each crate that it proved in its last gate, and in the builds",
        "after it.",
    ]
    for log in sorted(LOGS.glob("*.log")):
        lines += ["", f"{log.stem}:", *(f"    {line}" for line in verdicts(log))]
    return "\n".join(lines) + "\n"


def sums_of(folder: Path) -> str:
    """SHA256SUMS: a line for each file below a folder, as `sha256sum -c` reads them; links have none."""
    files = (path for path in folder.rglob("*") if path.is_file() and not path.is_symlink())
    named = sorted((path.relative_to(folder).as_posix(), path) for path in files)
    return "".join(f"{digest(path)}  {name}\n" for name, path in named)
