"""What the programs say of machines that boot: U-Boot and iPXE in QEMU load files from QEMU's own TFTP server, which
records what passes. Each file must come over, and be written as the server has it."""
from __future__ import annotations

import hashlib
import itertools
import json
import pathlib
import random
import shutil
import subprocess
import threading
import time
from typing import Any

from checks import Checks
from programs import AUDIT, TRANSFERS
from repository import TOP

QEMU = "qemu-system-x86_64"
U_BOOT = pathlib.Path("/usr/lib/u-boot/qemu-x86_64/u-boot.rom")
I_PXE = tuple(pathlib.Path(folder) / "pxe-e1000.rom" for folder in ("/usr/lib/ipxe/qemu", "/usr/share/qemu"))
SERVER = "10.0.2.2"
# So many seconds a machine has to come to the next prompt.
LIMIT = 60.0
# So many bytes are more than 65,535 blocks of 512.
LARGE = 34_000_000
FILES = {"image.bin": 100_000, "whole.bin": 1428 * 4, "empty.bin": 0}
LOADS = ("imgfetch", "image.bin"), ("imgfetch", "missing.bin ||"), ("chain", "last.ipxe")
CHAIN = "#!ipxe\n" + "".join(f"{command} tftp://{SERVER}/{name}\n" for command, name in LOADS)
LAST = "#!ipxe\n# " + "x" * 3000 + "\nshell\n"


class Machine:
    """A machine in QEMU, whose network is QEMU's own, with a TFTP server of a folder."""

    def __init__(self, folder: pathlib.Path, recording: pathlib.Path, words: list[str], bootfile: str = "") -> None:
        network = f"user,id=n,tftp={folder}" + (f",bootfile={bootfile}" if bootfile else "")
        words = ["-m", "256", "-nographic", "-netdev", network, "-device", "e1000,netdev=n", *words]
        dump = f"filter-dump,id=f,netdev=n,file={recording}"
        self.process = subprocess.Popen(
            [QEMU, *words, "-object", dump], stdin=subprocess.PIPE, stdout=subprocess.PIPE, stderr=subprocess.STDOUT
        )
        self.told = bytearray()
        threading.Thread(target=self.read, daemon=True).start()

    def read(self) -> None:
        assert self.process.stdout
        while sign := self.process.stdout.read(1):
            self.told += sign

    def wait(self, word: bytes, times: int = 1) -> bool:
        """Whether a word comes so often in time."""
        end = time.monotonic() + LIMIT
        while self.told.count(word) < times and time.monotonic() < end:
            time.sleep(0.05)
        return self.told.count(word) >= times

    def say(self, line: str) -> None:
        assert self.process.stdin
        self.process.stdin.write(f"{line}\n".encode())
        self.process.stdin.flush()

    def end(self) -> None:
        self.process.kill()
        self.process.wait()


class Boots(Checks):
    """Machines that boot."""

    needs = (AUDIT, TRANSFERS)

    def setUp(self) -> None:
        super().setUp()
        if not shutil.which(QEMU):
            self.skipTest(f"{QEMU} is not installed")

    def served(self) -> pathlib.Path:
        """A folder with files."""
        folder, chance = self.folder / "served", random.Random(7)
        folder.mkdir()
        for name, size in FILES.items():
            (folder / name).write_bytes(chance.randbytes(size))
        (folder / "first.ipxe").write_text(CHAIN)
        (folder / "last.ipxe").write_text(LAST)
        return folder

    def try_recording(self, served: pathlib.Path, recording: pathlib.Path, names: list[str]) -> None:
        """Each of these files is accepted and written as it is there; of one that is not there the ERROR is told."""
        into = self.folder / "extracted"
        words = ("--program", AUDIT.path, "--transfers", TRANSFERS.path, "--json", str(into), str(recording))
        done = subprocess.run([str(TOP / "tools" / "tftp-extract"), *words], capture_output=True, text=True, timeout=60)
        found = {it["asked"].strip('"'): it for it in map(json.loads, done.stdout.splitlines())}
        self.check("the files that were asked for", sorted(found) == sorted(names), found)
        for name, it in found.items():
            content = (served / name).read_bytes() if (served / name).exists() else None
            written = it["written"]["sha256"] if it["written"] else None
            self.check(f"{name} is as it is there", written == (sha256(content) if content is not None else None), it)
        self.try_missing(recording)

    def try_missing(self, recording: pathlib.Path) -> None:
        command = [TRANSFERS.path, "check", "--json", str(recording)]
        done = subprocess.run(command, capture_output=True, text=True, timeout=60)
        rows: list[dict[str, Any]] = [json.loads(line) for line in done.stdout.splitlines()]
        ended = [row["ended"] for row in rows if row["ended"]["how"] == "error"]
        holds = [(it["role"], it["code"], it["message"]) for it in ended] == [("server", 1, "File not found")]
        self.check("the ERROR of the file that is not there", holds, rows)

    def loads(self, served: pathlib.Path, recording: pathlib.Path, lines: list[str]) -> None:
        """U-Boot is told these lines, one at each prompt."""
        if not U_BOOT.exists():
            self.skipTest("U-Boot for QEMU is not installed")
        machine = Machine(served, recording, ["-bios", str(U_BOOT)])
        self.addCleanup(machine.end)
        self.check("U-Boot starts", machine.wait(b"autoboot"), bytes(machine.told))
        machine.say("")
        lines = ["setenv autoload no", "dhcp", *lines]
        for place, line in enumerate(lines, 1):
            machine.wait(b"=> ", place)
            machine.say(line)
        self.check("U-Boot loads", machine.wait(b"=> ", len(lines) + 1), bytes(machine.told))
        machine.end()

    def test_u_boot(self) -> None:
        served, recording = self.served(), self.folder / "u-boot.pcap"
        names = ["image.bin", "whole.bin", "missing.bin"]
        self.loads(served, recording, [f"tftpboot 1000000 {SERVER}:{name}" for name in names])
        self.try_recording(served, recording, names)

    def test_u_boot_large(self) -> None:
        """Of more than 65,535 blocks, which go on with number 0: the file is accepted by that, and by 1 it is refused."""
        served, recording, content = self.served(), self.folder / "large.pcap", random.Random(8).randbytes(LARGE)
        (served / "large.bin").write_bytes(content)
        self.loads(served, recording, ["setenv tftpblocksize 512", f"tftpboot 1000000 {SERVER}:large.bin"])
        accepted = f"accepted get octet blocks {LARGE // 512 + 1} bytes {LARGE}"
        for end, given in itertools.product(("client", "server", "between"), ("0", "1")):
            words = [TRANSFERS.path, "check", "--json", "--end", end, "--rollover", given, str(recording)]
            row = json.loads(subprocess.run(words, capture_output=True, text=True, timeout=120).stdout)
            holds = row["verdict"] == accepted if given == "0" else row["verdict"].startswith("refused ")
            self.check(f"at the {end}, by {given}", holds, row)
        text = subprocess.run([TRANSFERS.path, "text", "1", "client", str(recording)], capture_output=True, timeout=120)
        words = [AUDIT.path, "extract", "--rollover", "0"]
        done = subprocess.run(words, input=text.stdout, capture_output=True, timeout=120)
        self.check("the file", (done.stdout == content, done.returncode) == (True, 0), done.stderr)

    def test_ipxe(self) -> None:
        if not any(path.exists() for path in I_PXE):
            self.skipTest("iPXE for QEMU is not installed")
        served, recording = self.served(), self.folder / "ipxe.pcap"
        machine = Machine(served, recording, ["-boot", "n"], "first.ipxe")
        self.addCleanup(machine.end)
        self.check("iPXE loads", machine.wait(b"iPXE>"), bytes(machine.told))
        machine.end()
        self.try_recording(served, recording, ["first.ipxe", "image.bin", "missing.bin", "last.ipxe"])


def sha256(content: bytes) -> str:
    return hashlib.sha256(content).hexdigest()
