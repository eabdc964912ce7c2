"""The package of Debian."""
from __future__ import annotations

import gzip
import hashlib
import os
import re
import subprocess
import textwrap
from email.utils import format_datetime
from pathlib import Path

from tftp_packages.checkout import PROGRAMS, TOP, Commit, Refused, libc_needed, version_of
from tftp_packages.staged import add_papers, even_out, staged

NAME = "tftp-audit"
ABOUT = """\
Description: auditor of recorded TFTP transfers
 tftp-transfers reads a recording of the network and says of each TFTP transfer
 in it whether it was lawful, and if not, which frame broke which rule.
 tftp-audit says it of a text capture of one transfer. Scripts explain a
 verdict, draw the exchange, and write a report.
"""
# By the architecture, the folder of /usr/lib in which Wireshark has its plugins.
LIBRARIES = {"amd64": "x86_64-linux-gnu", "arm64": "aarch64-linux-gnu"}
# Debian's form of a copyright file; the text of the Apache licence is in the folder that it names.
COPYRIGHT = """\
Format: https://www.debian.org/doc/packaging-manuals/copyright-format/1.0/
Upstream-Name: tftp-audit

Files: *
Copyright: {holders}
License: MIT or Apache-2.0

License: MIT
{mit}
License: Apache-2.0
 Licensed under the Apache License, Version 2.0 (the "License"); you may not use
 this file except in compliance with the License.
 .
 Unless required by applicable law or agreed to in writing, software
 distributed under the License is distributed on an "AS IS" BASIS, WITHOUT
 WARRANTIES OR CONDITIONS OF ANY KIND, either express or implied. See the License
 for the specific language governing permissions and limitations under the
 License.
 .
 On Debian systems the whole text of the Apache License, Version 2.0, is in
 /usr/share/common-licenses/Apache-2.0.
"""
HOLDERS = re.compile(r"(?m)^Copyright \(c\) (.*)\n+")
# What Python made of the modules is of no package, and would stay.
BEFORE_REMOVAL = """\
#!/bin/sh
set -e
rm -rf /usr/lib/tftp-audit/tftp_tools/__pycache__
"""


def compress(path: Path) -> None:
    """NAME becomes NAME.gz, without a name or a time in it."""
    path.with_name(f"{path.name}.gz").write_bytes(gzip.compress(path.read_bytes(), 9, mtime=0))
    path.unlink()


def changes(commit: Commit) -> str:
    """Debian's own list of changes, with the one entry of this commit."""
    entry = f"{NAME} ({version_of(commit)}) unstable; urgency=medium\n\n  * Built of commit {commit.name}.\n"
    news = "    What changed for users is in /usr/share/doc/tftp-audit/CHANGELOG.md.\n"
    return f"{entry}{news}\n -- {commit.by}  {format_datetime(commit.time)}\n"


def control(commit: Commit, root: Path) -> str:
    """The fields that dpkg reads."""
    sizes = (path.stat().st_size for path in root.rglob("*") if path.is_file() and not path.is_symlink())
    fields = {
        "Package": NAME,
        "Version": version_of(commit),
        "Architecture": PROGRAMS[0].architecture(),
        "Maintainer": commit.by,
        "Installed-Size": str(sum((size + 1023) // 1024 for size in sizes)),
        "Depends": f"libc6 (>= {libc_needed()}), python3 (>= 3.9)",
        "Suggests": "wireshark | tshark",
        "Section": "net",
        "Priority": "optional",
    }
    return "".join(f"{name}: {value}\n" for name, value in fields.items()) + ABOUT


def sums(root: Path) -> str:
    """The sums by which dpkg --verify tells a changed file."""
    files = sorted(path for path in root.rglob("*") if path.is_file() and not path.is_symlink())
    return "".join(
        f"{hashlib.md5(path.read_bytes()).hexdigest()}  {path.relative_to(root).as_posix()}\n" for path in files
    )


def copyright_told() -> str:
    """Debian's copyright file, of the licences of the checkout."""
    text = (TOP / "LICENSE-MIT").read_text()
    found = HOLDERS.search(text)
    if not found:
        raise Refused("LICENSE-MIT names no holder of the copyright")
    lines = (line or "." for line in text[found.end() :].rstrip("\n").split("\n"))
    return COPYRIGHT.format(holders=found[1], mit=textwrap.indent("\n".join(lines) + "\n", " "))


def link_plugin(folder: Path) -> None:
    """Puts the plugin where Wireshark and tshark look for those that all users have."""
    place = folder / "lib" / LIBRARIES[PROGRAMS[0].architecture()] / "wireshark" / "plugins"
    place.mkdir(parents=True)
    (place / f"{NAME}.lua").symlink_to(f"../../../../share/{NAME}/wireshark/{NAME}.lua")


def fill(folder: Path, commit: Commit) -> None:
    """Debian's places and papers, in a folder that has what is installed."""
    share = folder / "share"
    pages = share / "doc" / NAME
    (share / "zsh" / "site-functions").rename(share / "zsh" / "vendor-completions")
    (pages / "changelog").write_text(changes(commit))
    for path in (*(share / "man" / "man1").glob("*.1"), pages / "changelog"):
        compress(path)
    (pages / "copyright").write_text(copyright_told())
    link_plugin(folder)
    add_papers(folder, pages, commit)


def make_deb(commit: Commit, into: Path) -> Path:
    """dist/tftp-audit_VERSION_ARCHITECTURE.deb; the same bytes whenever the same dpkg-deb makes it."""
    made = into / f"{NAME}_{version_of(commit)}_{PROGRAMS[0].architecture()}.deb"
    with staged("usr") as (root, folder):
        fill(folder, commit)
        papers = {"control": control(commit, root), "md5sums": sums(root), "prerm": BEFORE_REMOVAL}
        place = root / "DEBIAN"
        place.mkdir()
        for name, text in papers.items():
            (place / name).write_text(text)
        (place / "prerm").chmod(0o755)
        even_out(root, commit)
        words = ["dpkg-deb", "--root-owner-group", "-Zxz", "--build", str(root), str(made)]
        environment = {**os.environ, "SOURCE_DATE_EPOCH": str(commit.seconds())}
        try:
            done = subprocess.run(words, env=environment, capture_output=True, text=True, check=False)
        except FileNotFoundError:
            raise Refused("'dpkg-deb' is not installed, so no package of Debian is made") from None
        if done.returncode != 0:
            raise Refused(f"dpkg-deb failed: {done.stderr.strip()}")
    return made
