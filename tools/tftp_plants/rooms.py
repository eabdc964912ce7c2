"""Copies of the repository outside it, in which checks run, so that no check changes the tree."""
from __future__ import annotations

import contextlib
import os
import pathlib
import shutil
import signal
import subprocess
import tempfile
from collections.abc import Iterable, Mapping

from tftp_tools import crates

PARTS = ("src", "specs", "proofs")


class NotProved(Exception):
    """Why a crate's edits cannot be tried: it is not proved as it stands."""


class Stopped(Exception):
    """No check begins any more."""


def share(source: str, to: str) -> None:
    """Copies a file; what was proved and what is built, which a check only reads or writes anew, gets a second name."""
    try:
        if source.endswith(".oantt") or "/out/rlib/" in source:
            os.link(source, to)
            return
    except OSError:
        pass
    shutil.copy2(source, to)


def stamps_of(folder: pathlib.Path) -> list[tuple[str, int, int]]:
    """When each file below a folder was written, and its size; an empty one may only say when it was last read."""
    files = sorted(it for it in folder.glob("**/*") if it.is_file() and it.stat().st_size)
    return [(str(it), it.stat().st_mtime_ns, it.stat().st_size) for it in files]


class Rooms:
    """A copy of the repository, in which each crate is checked once, and the rooms that are copied from it."""

    def __init__(self, top: pathlib.Path, folder: str, seconds: int, is_fresh: bool) -> None:
        self.base, self.seconds, self.is_fresh = pathlib.Path(folder) / "base", seconds, is_fresh
        self.top, self.libraries, self.is_over = top, crates.crates_of(top), False
        self.running: set[int] = set()
        for crate in self.libraries:
            self.copy_texts(top, self.base, crate)
        shutil.copy(top / "crates.txt", self.base)

    def below(self, crate: str) -> set[str]:
        """The crates that a crate is built over."""
        return crates.below(self.top, crate)

    def copy_texts(self, top: pathlib.Path, to: pathlib.Path, crate: str) -> None:
        for part in PARTS:
            if (top / "crates" / crate / part).is_dir():
                shutil.copytree(top / "crates" / crate / part, to / "crates" / crate / part)

    def texts_of(self, crate: str) -> dict[str, str]:
        """The texts of a crate's files, by their paths."""
        folder = self.base / "crates" / crate
        files = sorted(it for part in PARTS for it in folder.glob(f"{part}/**/*") if it.is_file())
        return {str(it.relative_to(folder)): it.read_text(encoding="utf-8") for it in files}

    def prove(self, crate: str) -> str:
        """Checks a crate as it stands, over what an earlier check has kept in the tree, and answers what it says."""
        for it in (crate, *self.below(crate)):
            kept, to = self.top / "crates" / it / "out", self.base / "crates" / it / "out"
            for part in () if self.is_fresh else ("incremental", "rlib"):
                if (kept / part).is_dir() and not (to / part).exists():
                    shutil.copytree(kept / part, to / part)
        status, text = self.check(self.base, crate, [], None)
        if status:
            raise NotProved(f"{crate} is not proved as it stands:\n{text[-2000:]}")
        return text

    def check(
        self, top: pathlib.Path, crate: str, words: Iterable[str], seconds: int | None
    ) -> tuple[int | None, str]:
        """The status and the text of a check in a room, or None and the text so far if it has not ended by then."""
        if self.is_over:
            raise Stopped
        ran = subprocess.Popen(
            ["rt", "check", *words], cwd=top / "crates" / crate, stdin=subprocess.DEVNULL, stdout=subprocess.PIPE,
            stderr=subprocess.STDOUT, start_new_session=True, encoding="utf-8", errors="replace",
        )
        self.running.add(ran.pid)
        try:
            text, _ = ran.communicate(timeout=seconds)
            return ran.returncode, text
        except subprocess.TimeoutExpired:
            self.end(ran.pid)
            return None, ran.communicate()[0]
        except BaseException:
            self.end(ran.pid)
            raise
        finally:
            self.running.discard(ran.pid)

    def end(self, pid: int) -> None:
        with contextlib.suppress(ProcessLookupError):
            os.killpg(pid, signal.SIGKILL)

    def end_all(self) -> None:
        """Ends the checks that run, and lets no other begin."""
        self.is_over = True
        for pid in list(self.running):
            self.end(pid)

    def kept_of(self, crate: str) -> list[tuple[str, int, int]]:
        """What there is to see of the work that a crate's own check has kept."""
        return stamps_of(self.base / "crates" / crate / "out" / "incremental")

    def tried(self, crate: str, texts: Mapping[str, str], words: Iterable[str]) -> tuple[int | None, str]:
        """Checks a crate with other texts in a room of its own, over the work that its own check has kept."""
        with tempfile.TemporaryDirectory(prefix="room-", dir=self.base.parent) as folder:
            room = pathlib.Path(folder)
            shutil.copy(self.base / "crates.txt", room)
            for it in self.libraries:
                self.copy_texts(self.base, room, it)
            for it, part in [(crate, "incremental"), *((it, "rlib") for it in self.below(crate))]:
                kept = pathlib.Path("crates") / it / "out" / part
                shutil.copytree(self.base / kept, room / kept, copy_function=share)
            for file, text in texts.items():
                (room / "crates" / crate / file).write_text(text, encoding="utf-8")
            for file in set(self.texts_of(crate)) - set(texts):
                (room / "crates" / crate / file).unlink()
            return self.check(room, crate, ["--jobs", "1", *words], self.seconds)
