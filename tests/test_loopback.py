"""What the program says of real transfers, which are recorded over the loopback, and the files that are written of
them."""
from __future__ import annotations

import json
import pathlib
import subprocess

from loopback import CASES, SIZES, UPLOADS, Case, OverLoopback, are_wanted, at_each_end, not_between, record
from programs import AUDIT, TRANSFERS
from repository import TOP


class Loopback(OverLoopback):
    """Transfers that are recorded at both ends at once."""

    needs = (AUDIT, TRANSFERS)

    def test_cases(self) -> None:
        self.try_each(CASES, self.try_case)

    def try_case(self, case: Case, folder: pathlib.Path) -> None:
        recording = self.kept / f"loopback-{case.name}.pcap"
        record(case, recording, folder)
        got = at_each_end(TRANSFERS.path, recording)
        self.check(f"{case.name}, the verdicts", are_wanted(case, got), got)
        differing = not_between(TRANSFERS.path, recording)
        self.check(f"{case.name}, accepted between the ends", not differing, differing)
        for place, sizes in (("client", SIZES), ("root", UPLOADS)):
            other = folder / ("root" if place == "client" else "client")
            for name in sizes:
                copy = folder / place / name
                same = not copy.exists() or copy.read_bytes() == (other / name).read_bytes()
                self.check(f"{case.name}, {name} came over", same == (name not in case.spoilt))
        self.try_files(case, folder, recording)

    def try_files(self, case: Case, folder: pathlib.Path, recording: pathlib.Path) -> None:
        """Of each accepted transfer the file is written that its sender has."""
        into = folder / "extracted"
        words = ("--program", AUDIT.path, "--transfers", TRANSFERS.path, "--json", str(into), str(recording))
        done = subprocess.run([str(TOP / "tools" / "tftp-extract"), *words], capture_output=True, text=True, timeout=60)
        found = [json.loads(line) for line in done.stdout.splitlines()]
        for it in found:
            is_accepted = all(row["verdict"].startswith("accepted ") for row in it["verdicts"])
            sent = folder / ("root" if it["kind"] == "get" else "client") / it["asked"].strip('"')
            written = (into / it["written"]["name"]).read_bytes() if it["written"] else None
            holds = written == (sent.read_bytes() if is_accepted else None)
            self.check(f"{case.name}, the file of transfer {it['number']}", holds, it)
        is_whole = all(it["written"] for it in found)
        self.check(f"{case.name}, files", bool(found) and done.returncode == int(not is_whole), done)
