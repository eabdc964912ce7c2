"""Files that are made in a folder, by names that were asked for over the network: none leads out of the folder, and
none is written over."""
from __future__ import annotations

import contextlib
import hashlib
import os
import re
from collections.abc import Iterator
from dataclasses import dataclass

from .errors import Refused, told

# So many bytes of UTF-8 a name has at most.
MOST = 200
# What stands behind the name of a file that did not come over whole.
PARTIAL = ".partial"
ENDS_PARTIAL = re.compile(r"\.partial(?:\.[0-9]+)*\Z")
UNNAMED = "unnamed"
PIECE = 1 << 20


def cut(name: str, most: int) -> str:
    """So many bytes of a name, and none of a sign that is not whole then."""
    return name.encode()[:most].decode(errors="ignore")


def safe(asked: bytes) -> str:
    """A name for what was asked for: no folder, no dots in a row, no sign that is not printed, none in front that a
    shell or a program takes for something else."""
    signs = asked.decode(errors="surrogateescape")
    plain = "".join(it if it.isprintable() and it not in "/\\" else "_" for it in signs)
    plain = re.sub(r"\.{2,}", lambda dots: "_" * len(dots[0]), plain)
    return cut(re.sub(r"\A[.-]", "_", plain), MOST) or UNNAMED


def numbered(name: str, number: int, is_partial: bool) -> str:
    """The name of the file of this number among those of a name; only one that is not whole ends as such."""
    behind = (PARTIAL if is_partial else "") + (f".{number}" if number > 1 else "")
    whole = cut(name, MOST - len(behind)) + behind
    if is_partial or not ENDS_PARTIAL.search(whole):
        return whole
    return f"{cut(name, MOST - len(behind) - 1)}_{behind}"


@dataclass(frozen=True)
class NewFile:
    """A file that was made and is open."""

    name: str
    descriptor: int

    def write(self, content: bytes) -> None:
        view = memoryview(content)
        while view:
            view = view[os.write(self.descriptor, view) :]

    def sum(self) -> tuple[int, str]:
        """Its length and its SHA-256, read from it."""
        digest, size = hashlib.sha256(), 0
        os.lseek(self.descriptor, 0, os.SEEK_SET)
        while piece := os.read(self.descriptor, PIECE):
            digest.update(piece)
            size += len(piece)
        return size, digest.hexdigest()


class Folder:
    """A folder in which files are made; it is made where it is not there."""

    def __init__(self, path: str) -> None:
        self.path = path
        with told(f"cannot make files in the folder {path!r}"):
            with contextlib.suppress(FileExistsError):
                os.mkdir(path)
            self.descriptor = os.open(path, os.O_RDONLY | os.O_DIRECTORY)
        # the number that is tried next of a name
        self.next: dict[tuple[str, bool], int] = {}

    def made(self, name: str, is_partial: bool) -> NewFile:
        """A new file of this name, with the next number that no other has."""
        how = os.O_RDWR | os.O_CREAT | os.O_EXCL
        for number in range(self.next.get((name, is_partial), 1), 1 << 31):
            whole = numbered(name, number, is_partial)
            with told(f"cannot make the file {whole!r} in {self.path!r}"), contextlib.suppress(FileExistsError):
                descriptor = os.open(whole.encode(), how, 0o666, dir_fd=self.descriptor)
                self.next[name, is_partial] = number + 1
                return NewFile(whole, descriptor)
        raise Refused(f"there is no number left for {name!r} in {self.path!r}")

    @contextlib.contextmanager
    def file(self, name: str, is_partial: bool = False) -> Iterator[NewFile]:
        """A new file that is to be written, and is gone where that fails."""
        made = self.made(name, is_partial)
        try:
            with told(f"cannot write the file {made.name!r} in {self.path!r}"):
                yield made
        except BaseException:
            self.next[name, is_partial] -= 1
            with contextlib.suppress(OSError):
                os.unlink(made.name.encode(), dir_fd=self.descriptor)
            raise
        finally:
            os.close(made.descriptor)
