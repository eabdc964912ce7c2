"""A scratch copy of what the launchers and the Makefile need, with small sources and a stand-in for rt."""
from __future__ import annotations

import dataclasses
import os
import pathlib
import shutil
import subprocess
from collections.abc import Sequence
from typing import Union

from repository import TOP

Word = Union[str, pathlib.Path]
SCRIPTS = ("tftp-explain", "tftp-extract", "tftp-ladder", "tftp-report", "tftp-trial")
# What programs are built for where the processor has AVX2 and what came with it, and what these are by Linux's names.
V3 = "x86-64-v3"
# What is installed beside the pages.
PAPERS = ("README.md", "CHANGELOG.md", "SECURITY.md", "LICENSE", "LICENSE-MIT", "LICENSE-APACHE")
NEEDED = ("avx2", "bmi1", "bmi2", "f16c", "fma", "abm", "movbe")
# What the script writes, what it writes as errors, its status, and how often rt was called.
Ran = tuple[str, str, int, int]
# A build reads the source at its start; $MEANWHILE is done while the crate $TRIED is built, and a source that says
# 'broken' fails. A program that is built for such processors alone says so after its source.
# As rt's, its ci first sets aside what stands in out/, and runs nothing.
STAND_IN = r"""#!/bin/sh
build() {
    mkdir -p out
    text=$(cat src/main.rt)
    echo "rt: progress on $text" >&2
    echo "crate $1: modules loaded=0 checked=1" >&2
    echo "logic=proved functions=1 sum=5a" >&2
    [ "$1" = "$TRIED" ] && eval "${MEANWHILE:-}"
    case $text in *broken*) echo "error: $text" >&2 && return 1 ;; esac
    cat >out/$1 <<'END'
#!/bin/sh
echo "BUILT_OF: $# words $*: $(cat)"
case $1 in check | */client.capture) exit STATUS ;; *) exit 2 ;; esac
END
    status=$(echo "$text" | tr -cd 0-9)
    sed -i "s/BUILT_OF/$text${2:+ for $2}/; s/STATUS/${status:-0}/" out/$1
    chmod +x out/$1
}
echo "rt: $* in ${PWD##*/}" >>"$CALLS"
if [ "$1" = ci ]; then
    for crate in tftp_audit tftp_transfers tftp_match; do
        (cd crates/$crate && rm -rf out && build $crate) || exit 1
    done
    echo "3 passed, 0 failed"
    exit 0
fi
crate=$(basename "$PWD")
if [ "$1" = lib ]; then
    mkdir -p out/rlib
    echo "logic=proved functions=1 sum=5a" >&2
    case ${BROKEN:-} in "$crate") echo "error: $crate" >&2 && exit 1 ;; esac
    exit 0
fi
cpu=
case $2 in --cpu=*) cpu=${2#--cpu=} && shift ;; esac
build "$crate" "$cpu" || exit 1
shift 2
exec "out/$crate" "$@"
"""
# In the place of the tests that `make test` runs; those fail that $BROKEN names, by their part or by what is told of
# them.
TESTED = r"""import os, subprocess, sys
done = subprocess.run(["crates/tftp_audit/out/tftp_audit", "check"], input="", capture_output=True, text=True)
line = f"{sys.argv[1][2:]} were tried on {done.stdout.partition(':')[0]}"
with open(os.environ["CALLS"], "a") as calls:
    calls.write(f"{line}\n")
sys.exit(os.environ["BROKEN"] in (sys.argv[1], line))
"""


@dataclasses.dataclass(frozen=True)
class Launcher:
    """A launcher, the crate of its program, how long it says that a build takes, words that read standard input, and
    others, right and wrong ones."""

    name: str
    crate: str
    takes: str
    words: tuple[str, ...]
    others: tuple[tuple[str, ...], ...]

    def said(self, message: str) -> str:
        return f"{self.name}: {message}"

    def says_time(self) -> str:
        return self.said(f"proving and building the program: {self.takes} from nothing")


AUDIT = Launcher("tftp-audit", "tftp_audit", "about a quarter of an hour", ("check",), (("show",), ("count",)))
TRANSFERS = Launcher(
    "tftp-transfers", "tftp_transfers", "half an hour or so", ("check", "-"), (("-",), ("check", "-", "x")),
)
MATCH = Launcher(
    "tftp-match", "tftp_match", "half an hour or so", ("./client.capture", "-"), (("-",), ("-", "x")),
)
LAUNCHERS = (AUDIT, TRANSFERS, MATCH)


class Scratch:
    """A copy of the launchers and the Makefile, with small sources, in a folder whose name has spaces; one launcher of
    them is tried. What programs are built for is said in `cpu`; where that is empty the processor tells it."""

    def __init__(self, folder: pathlib.Path, launcher: Launcher) -> None:
        self.top, self.launcher, self.cpu = folder / "the top", launcher, "any"
        crates = self.top / "crates"
        self.source, self.program = crates / launcher.crate / "src" / "main.rt", self.program_of(launcher)
        self.calls, self.bin, self.home = folder / "calls", folder / "bin", folder / "a home"
        of_low = ("src", "specs", "proofs/deep", "must-fail")
        for part in (*(f"{it.crate}/src" for it in LAUNCHERS), *(f"tftp_low/{it}" for it in of_low)):
            (crates / part).mkdir(parents=True)
            (crates / part / "first.rt").write_text("first")
        for name in (*(it.name for it in LAUNCHERS), "Makefile", ".gitignore", *PAPERS):
            shutil.copy(TOP / name, self.top)
        for name in ("tools", "docs", "share"):
            shutil.copytree(TOP / name, self.top / name, ignore=shutil.ignore_patterns("__pycache__"))
        (self.top / "crates.txt").write_text("tftp_audit: tftp_low\n")
        (self.top / "HANDLES").write_text("Handles allowed: none.\n")
        for file, text, mode in (
            (self.top / "examples" / "one-block.capture", "an example", 0o644),
            (self.top / "tests" / "__main__.py", TESTED, 0o644),
            (self.top / "tests" / "here.sh", (TOP / "tests" / "here.sh").read_text(), 0o644),
            (self.bin / "rt", STAND_IN, 0o755),
        ):
            file.parent.mkdir(exist_ok=True)
            file.write_text(text)
            file.chmod(mode)
        for it in LAUNCHERS:
            (crates / it.crate / "src" / "main.rt").write_text("one" if it == launcher else "other")

    def run(
        self, *words: Word, script: Word | None = None, folder: pathlib.Path | None = None, given: str = "",
        meanwhile: str = "", errors: int = subprocess.PIPE, on_path: pathlib.Path | None = None, broken: str = "",
    ) -> Ran:
        """What the launcher writes, what it writes as errors, its status, and how often rt was called."""
        self.calls.write_text("")
        path = f"{on_path or self.bin}:{self.bin}:{os.environ['PATH']}"
        environment = {"PATH": path, "CALLS": str(self.calls), "TFTP_AUDIT_CPU": self.cpu}
        environment |= {"MEANWHILE": meanwhile, "TRIED": self.launcher.crate, "BROKEN": broken, "HOME": str(self.home)}
        done = subprocess.run(
            [script or self.top / self.launcher.name, *words],
            input=given, cwd=folder or self.top, env=environment, stdout=subprocess.PIPE, stderr=errors, timeout=60,
            encoding="utf-8", errors="surrogateescape",
        )
        return done.stdout, done.stderr, done.returncode, self.calls.read_text().count("rt: run ")

    def call(self, given: str = "", meanwhile: str = "") -> Ran:
        """The same of the words that read standard input."""
        return self.run(*self.launcher.words, given=given, meanwhile=meanwhile)

    def make(self, target: str, meanwhile: str = "", broken: str = "") -> tuple[int, str, bool]:
        """The status of a target of the Makefile, what it writes as errors, and whether the tests were run."""
        words = target, f"DESTDIR={self.top.parent}", "PREFIX=/a prefix"
        _, errors, status, _ = self.run(*words, script="make", meanwhile=meanwhile, broken=broken)
        return status, errors, "were tried on" in self.calls.read_text()

    def program_of(self, launcher: Launcher) -> pathlib.Path:
        return self.top / "crates" / launcher.crate / "out" / launcher.crate

    def built_for(self, launcher: Launcher | None = None) -> str:
        """What a program is recorded to be built for; nothing where that is not recorded."""
        program = self.program_of(launcher or self.launcher)
        record = program.with_name(f"{program.name}.processor")
        return record.read_text().rstrip("\n") if record.exists() else ""

    def installed(self) -> pathlib.Path:
        return self.prefix() / "bin" / self.launcher.name

    def prefix(self) -> pathlib.Path:
        return self.top.parent / "a prefix"


def said_of(words: Sequence[Word]) -> str:
    """What the stand-in's program says of its words."""
    return f"{len(words)} words {' '.join(map(str, words))}"
