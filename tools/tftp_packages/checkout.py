"""What a package says of where it comes from: the commit, the kit, and what the programs need of a machine."""
from __future__ import annotations

import dataclasses
import datetime
import hashlib
import re
import shutil
import struct
import subprocess
from pathlib import Path

from tftp_tools.words import version

TOP = Path(__file__).resolve().parent.parent.parent
# Where the launchers keep what rt said of the last gate and of the builds after it, each in NAME.log.
LOGS = TOP / "out"
# By e_machine of ELF, Debian's names.
ARCHITECTURES = {62: "amd64", 183: "arm64"}
NEEDED = re.compile(r"\bName: GLIBC_(\d+(?:\.\d+)+)")


class Refused(Exception):
    """Why no package is made."""


def digest(path: Path) -> str:
    return hashlib.sha256(path.read_bytes()).hexdigest()


def answer(*words: str) -> str:
    """What a command writes, without the last line's end."""
    try:
        done = subprocess.run(words, cwd=TOP, capture_output=True, text=True, check=False)
    except FileNotFoundError:
        raise Refused(f"'{words[0]}' is not installed") from None
    if done.returncode != 0:
        raise Refused(f"'{' '.join(words)}' failed: {done.stderr.strip()}")
    return done.stdout.strip("\n")


@dataclasses.dataclass(frozen=True)
class Commit:
    """The commit of which a package is made: all that it holds but the programs is in it."""

    name: str
    time: datetime.datetime
    by: str

    @classmethod
    def current(cls) -> Commit:
        """The commit that is checked out; a changed checkout is refused, since no commit names what it has."""
        changed = answer("git", "status", "--porcelain")
        if changed:
            raise Refused(f"the checkout has what is not committed:\n{changed}")
        name, time, by = answer("git", "log", "-1", "--format=%H%n%ct%n%an <%ae>").split("\n")
        return cls(name, datetime.datetime.fromtimestamp(int(time), datetime.timezone.utc), by)

    def seconds(self) -> int:
        return int(self.time.timestamp())


@dataclasses.dataclass(frozen=True)
class Program:
    """A program that was built, in the crate of this name, and its name and its place once it is installed."""

    crate: str
    name: str
    place: str

    def path(self) -> Path:
        return TOP / "crates" / self.crate / "out" / self.crate

    def built_for(self) -> str:
        """What the launcher that built it wrote down: for which processors of the architecture."""
        try:
            return self.path().with_name(f"{self.crate}.processor").read_text().strip()
        except OSError:
            raise Refused(f"it is not known for which processors '{self.path()}' was built") from None

    def proved_sum(self) -> str:
        """The SHA-256 that the launcher wrote down when it had built the program with its proofs, or nothing."""
        record = self.path().with_name(f"{self.crate}.sha256")
        return record.read_text().split(" ")[0].strip() if record.exists() else ""

    def check_sum(self) -> None:
        """Refuses another program in its place."""
        if not self.path().is_file():
            raise Refused(f"the program '{self.path()}' is not built")
        now = digest(self.path())
        if now != self.proved_sum():
            raise Refused(
                f"'{self.path()}' is not the program that was built with its proofs: its SHA-256 is {now}, and"
                f" {self.proved_sum() or 'none'} was recorded; remove it, and it is built again"
            )

    def architecture(self) -> str:
        """Debian's name of the machine that it runs on."""
        head = self.path().read_bytes()[:20]
        if head[:4] != b"\x7fELF" or len(head) < 20:
            raise Refused(f"'{self.path()}' is no program of ELF")
        (machine,) = struct.unpack_from("<H" if head[5] == 1 else ">H", head, 18)
        if machine not in ARCHITECTURES:
            raise Refused(f"'{self.path()}' is of the machine {machine} of ELF, of which no name is known")
        return ARCHITECTURES[machine]

    def libc(self) -> tuple[int, ...]:
        """The lowest version of glibc that has every symbol which it names."""
        if not shutil.which("readelf"):
            raise Refused("'readelf' (binutils) is not installed, which tells what a program needs of the C library")
        told = NEEDED.findall(answer("readelf", "--version-info", str(self.path())))
        if not told:
            raise Refused(f"'{self.path()}' names no version of glibc")
        return max(tuple(map(int, version.split("."))) for version in told)


PROGRAMS = (
    Program("tftp_audit", "tftp-audit", "lib/tftp-audit/tftp-audit"),
    Program("tftp_transfers", "tftp-transfers", "lib/tftp-audit/tftp-transfers"),
    Program("tftp_match", "tftp-match", "bin/tftp-match"),
)


def check_changed() -> None:
    """Refuses a program that was changed since it was built; one that is not there, or of which no sum was recorded, is
    built before a package is made."""
    for program in PROGRAMS:
        if program.path().exists() and program.proved_sum():
            program.check_sum()


def check_sums() -> None:
    """Refuses a program that is not the one that was built with its proofs."""
    for program in PROGRAMS:
        program.check_sum()


def check_processors() -> None:
    """Refuses a program that does not run on each machine of its architecture."""
    for program in PROGRAMS:
        if program.built_for() != "any":
            raise Refused(f"'{program.path()}' was built for {program.built_for()}, and a package is for any processor")


def libc_needed() -> str:
    """The lowest version of glibc that all programs run with."""
    return ".".join(map(str, max(program.libc() for program in PROGRAMS)))


def version_of(commit: Commit) -> str:
    """The version that the programs tell, with the commit's day, time and name: a later commit's sorts after it."""
    return f"{version()}+{commit.time:%Y%m%d.%H%M%S}.{commit.name[:8]}"
