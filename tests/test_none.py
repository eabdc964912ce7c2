"""A recording without a transfer is no recording of accepted ones: it is told, and the status is of its own."""
from __future__ import annotations

import subprocess

from captures import ack, data
from checks import Check, Checks
from made import C, S, file_of, late_block, read
from programs import TRANSFERS
from recorded import Datagram

NOTHING = b"no request passed, so there is no transfer"
SOUND, REFUSED = read("a", 40_000, 41_000), late_block()
# What begins behind the request, and what is no TFTP.
BEGUN, QUERY = SOUND[1:], [Datagram(C, 5_353, S, 53, b"\x12\x34\1\0")]
# Each recording, or several, with the place that is named, the status, and how often it is said that there is no transfer.
CASES: tuple[tuple[str, tuple[list[Datagram], ...], int, int], ...] = (
    ("a read", (SOUND,), 0, 0),
    ("no frame", ([],), 3, 1),
    ("a read without its request", (BEGUN,), 3, 1),
    ("no TFTP", (QUERY,), 3, 1),
    ("a request to another port", ([Datagram(C, 40_000, S, 41_000, ack(1)[0])],), 3, 1),
    ("a read, and no frame", (SOUND, []), 3, 1),
    ("no frame, twice", ([], []), 3, 2),
    ("a refused read, and no frame", (REFUSED, []), 1, 1),
)


class WithoutTransfers(Checks):
    needs = (TRANSFERS,)

    def test_status(self) -> None:
        self.check_each(self.told(*case) for case in CASES)

    def told(self, name: str, recordings: tuple[list[Datagram], ...], status: int, told: int) -> Check:
        files = [self.file_of(f"{number}.pcap", file_of(passed)) for number, passed in enumerate(recordings)]
        done = self.done("--end", "server", *files)
        found = done.returncode, done.stderr.count(NOTHING)
        return Check(name, found == (status, told), f"{found}, {done!r}")

    def test_begun(self) -> None:
        """Of a transfer without its request it is told who talked, in which frames."""
        passed = []
        for number in (5, 6):
            passed.append(Datagram(S, 41_000, C, 40_000, data(number, b"x" * 512)[0]))
            passed.append(Datagram(C, 40_000, S, 41_000, ack(number)[0]))
        done = self.done(self.file_of("begun.pcap", file_of([*QUERY, *passed])))
        words = (
            f"4 datagrams between {S}:41000 and {C}:40000 look like a transfer that began before the recording"
            " (frames 2 to 5)"
        )
        self.check("begun", words.encode() in done.stderr and done.returncode == 3, done)
        few = self.done(self.file_of("few.pcap", file_of(passed[:2])))
        self.check("few", b"look like a transfer" not in few.stderr and few.returncode == 3, few)

    def test_unread(self) -> None:
        """What can't be read is a fault, whatever else there is."""
        files = [self.file_of("sound.pcap", file_of(SOUND)), self.file_of("cut.pcap", file_of([])[:20])]
        done = self.done(*files)
        self.check("cut", done.returncode == 2 and NOTHING not in done.stderr, done)

    def file_of(self, name: str, content: bytes) -> str:
        path = self.folder / name
        path.write_bytes(content)
        return str(path)

    def done(self, *words: str) -> subprocess.CompletedProcess[bytes]:
        return subprocess.run([TRANSFERS.path, "check", *words], capture_output=True, check=False)
