"""The tar of all that is installed."""
from __future__ import annotations

import gzip
import tarfile
from pathlib import Path

from tftp_packages.checkout import Commit, version_of
from tftp_packages.staged import add_papers, even_out, staged


def owned_by_root(entry: tarfile.TarInfo) -> tarfile.TarInfo:
    entry.uid = entry.gid = 0
    entry.uname = entry.gname = "root"
    return entry


def make_tar(commit: Commit, into: Path) -> Path:
    """dist/tftp-audit-VERSION.tar.gz, which has one folder of that name; the same bytes whenever it is made."""
    name = f"tftp-audit-{version_of(commit)}"
    made = into / f"{name}.tar.gz"
    with staged(name) as (root, folder):
        add_papers(folder, folder, commit)
        unpacked = root.with_suffix(".tar")
        with tarfile.open(unpacked, "w", format=tarfile.GNU_FORMAT) as tar:
            for path in even_out(root, commit):
                tar.add(path, path.relative_to(root).as_posix(), recursive=False, filter=owned_by_root)
        made.write_bytes(gzip.compress(unpacked.read_bytes(), 9, mtime=commit.seconds()))
    return made
