"""The files of a package in a scratch folder, as `make install` puts them."""
from __future__ import annotations

import contextlib
import os
import tempfile
from collections.abc import Iterator
from pathlib import Path

from tftp_packages.checkout import PROGRAMS, Commit, answer
from tftp_packages.proved import sums_of, told_of


@contextlib.contextmanager
def staged(prefix: str) -> Iterator[tuple[Path, Path]]:
    """A scratch folder, and below it the prefix with all that is installed there, the programs without symbols."""
    with tempfile.TemporaryDirectory(prefix="tftp-audit-") as name:
        root = Path(name) / "root"
        folder = root / prefix
        folder.mkdir(parents=True)
        answer("sh", "tools/install.sh", "install", str(folder))
        for program in PROGRAMS:
            answer("strip", "--strip-all", "--remove-section=.comment", str(folder / program.place))
        # who unpacks a package has a list of his own
        (folder / "lib" / "tftp-audit" / "installed").unlink()
        yield root, folder


def add_papers(folder: Path, place: Path, commit: Commit) -> None:
    """PROVED and SHA256SUMS in a place; the sums are of what is below a folder."""
    (place / "PROVED").write_text(told_of(commit, folder))
    (place / "SHA256SUMS").write_text(sums_of(folder))


def even_out(root: Path, commit: Commit) -> list[Path]:
    """Gives all below a folder the modes and the time that it has in any checkout of the commit; all, by name."""
    paths = sorted(root.rglob("*"), key=lambda path: path.relative_to(root).as_posix())
    for path in (*paths, root):
        if not path.is_symlink():
            path.chmod(0o755 if path.is_dir() or path.stat().st_mode & 0o100 else 0o644)
        os.utime(path, (commit.seconds(), commit.seconds()), follow_symlinks=False)
    return paths
