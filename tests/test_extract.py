"""The files that tools/tftp-extract writes: their bytes beside those that servers had and those that tshark finds,
their names, which lead nowhere else and write over nothing, and what came of transfers that are not accepted."""
from __future__ import annotations

import hashlib
import json
import os
import pathlib
import shutil
import subprocess
from collections import Counter
from collections.abc import Sequence
from typing import Any

import made
from captures import Capture, ack, blocks, data, error, netascii, oack, read_request, write_request
from checks import Checks
from loopback import SIZES, UPLOADS
from programs import AUDIT, TRANSFERS
from recorded import Datagram
from refusals import Rule
from repository import TOP
from tftp_tools.capture import read_capture
from tftp_tools.errors import Refused
from tftp_tools.extracted import asked_in
from tftp_tools.newfiles import MOST, Folder, numbered, safe
from tftp_tools.partial import Part, part_of

SCRIPT, EXAMPLES = TOP / "tools" / "tftp-extract", TOP / "examples"
SESSION = EXAMPLES / "loopback-session.pcap"
# What may be asked for, and the name that it has then.
NAMES = (
    (b"boot.cfg", "boot.cfg"), (b"/boot/grub.cfg", "_boot_grub.cfg"), (b"C:\\boot\\bcd", "C:_boot_bcd"),
    (b"../../etc/passwd", "______etc_passwd"), (b"..", "__"), (b".", "_"), (b".profile", "_profile"), (b"-rf", "_rf"),
    (b"a..b", "a__b"), (b"a.b.c", "a.b.c"), (b"", "unnamed"), (b"a\x1b[31m\nb\x7f", "a_[31m_b_"), (b"a b", "a b"),
    ("gr\u00f6\u00dfe".encode(), "gr\u00f6\u00dfe"), (b"\xff\xfea", "__a"), ("\u202efdp.exe".encode(), "_fdp.exe"),
    (b"a\xc3", "a_"), (b"a/./b", "a_._b"), (b"~root", "~root"),
)
# The lines that are written, those that are told, and the status.
Ran = tuple[list[str], list[str], int]
# Recordings of examples/ in which each transfer is accepted and is no text, for tshark.
WHOLE = ("loopback-curl-hpa-6", "loopback-dnsmasq", "loopback-fragments", "loopback-lost-and-repeated", "recorded-read")


def content_of(name: str) -> bytes:
    """What the clients and servers of tests/loopback.py have by this name."""
    size = {**SIZES, **UPLOADS}[name]
    return b"".join(b"%s line %05d\n" % (name.encode(), number) for number in range(size // 16 + 1))[:size]


def sha256(content: bytes) -> str:
    return hashlib.sha256(content).hexdigest()


def files_in(folder: pathlib.Path) -> dict[str, bytes]:
    """The files of a folder by their names."""
    return {path.name: path.read_bytes() for path in folder.iterdir()}


def late_in_write() -> list[Datagram]:
    """A write in two blocks, the first of which passes once more after the second: at the client it was sent against
    the lock step, and at the server it came late."""
    out, back = (made.C, 40_000, made.S, 41_000), (made.S, 41_000, made.C, 40_000)
    asked = Datagram(made.C, 40_000, made.S, 69, write_request("a", "octet")[0])
    first, last = (Datagram(*out, data(*block)[0]) for block in ((1, b"." * 512), (2, b"!")))
    acks = [Datagram(*back, ack(number)[0]) for number in range(3)]
    return [asked, acks[0], first, acks[1], last, first, acks[2]]


def text_of(*packets: tuple[str, tuple[bytes, str]], end: str = "client") -> bytes:
    """A capture text of packets by their senders."""
    capture = Capture("client" if end == "client" else "server")
    for sender, packet in packets:
        capture.put("client" if sender == "client" else "server", packet)
    return capture.text()


class Names(Checks):
    """What needs no program: the names, the folder, and the blocks that are taken."""

    def test_names(self) -> None:
        for asked, wanted in NAMES:
            self.check(f"{asked!r}", safe(asked) == wanted, safe(asked))
        every = [safe(asked) for asked, _ in NAMES] + [safe(bytes([byte])) for byte in range(256)]
        for name in every:
            holds = "/" not in name and "\0" not in name and ".." not in name and name[:1] not in ("", ".", "-")
            self.check(f"{name!r} leads nowhere", holds and name.isprintable())

    def test_lengths(self) -> None:
        """A name is cut at whole signs, its number with it."""
        for name, number, is_partial, wanted in (
            ("x" * 300, 1, False, "x" * 200), ("x" * 300, 2, False, "x" * 198 + ".2"),
            ("x" * 300, 10, True, "x" * 189 + ".partial.10"), ("\u00f6" * 150, 1, False, "\u00f6" * 100),
            ("\u00f6" * 150, 100, False, "\u00f6" * 98 + ".100"),
        ):
            got = numbered(safe(name.encode()), number, is_partial)
            self.check(f"{number} of {name[:1]}..", got == wanted and len(got.encode()) <= MOST, got)

    def test_partial_names(self) -> None:
        """Only what is not whole has a name that says so."""
        for name, number, wanted in (
            ("a", 1, "a"), ("a", 2, "a.2"), ("a.partial", 1, "a.partial_"), ("a.partial", 2, "a.partial_.2"),
            ("a.partial.3", 1, "a.partial.3_"), ("a.partial.3", 2, "a.partial.3_.2"), ("a.partially", 1, "a.partially"),
            ("x" * 192 + ".partial", 1, "x" * 192 + ".partia_"),
        ):
            got = numbered(name, number, False)
            self.check(f"{name[-14:]}, {number}", got == wanted, got)
        self.check("what is not whole", numbered("a.partial", 3, True) == "a.partial.partial.3")

    def test_folder(self) -> None:
        """A file that is there stays, also a link to one that is not; one that cannot be written is taken away."""
        inner, outside = self.folder / "files", self.folder / "outside"
        folder = Folder(str(inner))
        (inner / "a").write_bytes(b"mine")
        (inner / "a.2").symlink_to(outside)
        for wanted in ("a.3", "a.4"):
            with folder.file("a") as file:
                file.write(b"new")
                self.check(f"the name {wanted}", file.name == wanted, file.name)
                self.check(f"the sum of {wanted}", file.sum() == (3, sha256(b"new")), file.sum())
        failed = False
        try:
            with folder.file("a"):
                raise OSError(28, "No space left on device")
        except Refused as refused:
            failed = "cannot write the file 'a.5'" in str(refused) and "No space left" in str(refused)
        self.check("a file that cannot be written", failed)
        with folder.file("a", is_partial=True) as part, folder.file("a") as again:
            self.check("the next names", (part.name, again.name) == ("a.partial", "a.5"), (part.name, again.name))
        names = sorted(path.name for path in inner.iterdir())
        self.check("the files", names == ["a", "a.2", "a.3", "a.4", "a.5", "a.partial"], names)
        self.check("the first stays", (inner / "a").read_bytes() == b"mine" and not outside.exists())
        again_made = Folder(str(inner))
        with again_made.file("a") as file:
            self.check("the next number", file.name == "a.6", file.name)
        nowhere = self.folder / "no" / "where"
        for path, why in ((inner / "a", "Not a directory"), (nowhere, "No such file or directory")):
            told = ""
            try:
                Folder(str(path))
            except Refused as refused:
                told = str(refused)
            self.check(f"no folder {path.name}", told == f"cannot make files in the folder {str(path)!r}: {why}", told)

    def test_asked(self) -> None:
        """The name in a text's request, whatever else its lines say."""
        text = text_of(("client", read_request("boot/a", "octet")), ("server", data(1, b"hi")))
        self.check("a read", asked_in(text) == b"boot/a")
        asked = "client", write_request("\u00f6", "octet")
        text = b"# transfer 1 of out 1 1 00016200\n" + text_of(asked, end="server")
        self.check("a write, behind a comment", asked_in(text) == "\u00f6".encode())
        self.check("no request", asked_in(text_of(("server", data(1, b"hi")))) == b"")

    def try_part(self, name: str, text: bytes, wanted: Part) -> None:
        got = part_of(read_capture(text))
        self.check(name, got == wanted, got)

    def test_parts(self) -> None:
        """The blocks that are taken, and why no more are."""
        asked, full, other = ("client", read_request("a", "octet")), b"." * 512, b"," * 512
        first, acked = ("server", data(1, full)), ("client", ack(1))
        short = "block 2 is the last, as it is shorter than 512 bytes"
        for name, packets, wanted in (
            ("no block", [asked], Part((), "block 1 is not there")),
            ("a block", [asked, first, acked], Part((full,), "block 2 is not there")),
            ("the last ACK is missing", [asked, first, acked, ("server", data(2, b"!"))], Part((full, b"!"), short)),
            ("a gap", [asked, first, ("server", data(3, b"!"))], Part((full,), "block 2 is not there")),
            ("a repeat", [asked, first, first, acked], Part((full,), "block 2 is not there")),
            ("a changed block", [asked, first, acked, ("server", data(1, other)), ("server", data(2, b"!"))],
             Part((), "block 1 passed with 2 contents")),
            ("a changed block 2", [asked, first, ("server", data(2, b"!")), ("server", data(2, b"?"))],
             Part((full,), "block 2 passed with 2 contents")),
            ("too long a block", [asked, first, ("server", data(2, full + b"."))],
             Part((full,), "block 2 is longer than 512 bytes")),
            ("a block behind the last", [asked, first, ("server", data(2, b"!")), ("server", data(3, b"?"))],
             Part((full, b"!"), short)),
            ("a block from the reader", [asked, ("client", data(1, full))], Part((), "block 1 is not there")),
            ("an ERROR after it", [asked, first, ("server", error(3, "full"))], Part((full,), "block 2 is not there")),
        ):
            self.try_part(name, text_of(*packets), wanted)
        text = text_of(("client", read_request("a", "octet", blksize=8)), ("server", oack(blksize=8)),
                       ("client", ack(0)), ("server", data(1, b"12345678")), ("server", data(2, b"123")), end="server")
        self.try_part("blocks of 8 bytes, at the server", text,
                      Part((b"12345678", b"123"), "block 2 is the last, as it is shorter than 8 bytes"))
        text = text_of(("client", write_request("a", "octet")), ("server", ack(0)), ("client", data(1, full)))
        self.try_part("a write", text, Part((full,), "block 2 is not there"))


class Told(Checks):
    """What is done by what the programs say, which are others here."""

    def program(self, name: str, text: str) -> pathlib.Path:
        path = self.folder / name
        path.write_text(f"#!/bin/sh\n{text}")
        path.chmod(0o755)
        return path

    def rows(self, *rows: tuple[str, str]) -> str:
        """Rows of verdicts by their places."""
        told = ({"number": 1, "place": place, "verdict": it, "doubts": [], "frame": None, "accused": None}
                for place, it in rows)
        return "".join(f"{json.dumps(it)}\n" for it in told)

    def transfers(self, rows: str, status: int) -> pathlib.Path:
        """In the place of tftp-transfers: it has one transfer, and says these rows of it."""
        text = text_of(("client", read_request("a", "octet")), ("server", data(1, b"hi")), ("client", ack(1)))
        listed = {"number": 1, "client": "192.0.2.7:1", "server": "192.0.2.1:2", "kind": "get", "mode": "octet",
                  "file": '"a"', "options": "-", "datagrams": 3, "first_frame": 1, "last_frame": 3}
        of_words = (("rows", rows), ("list", json.dumps(listed)), ("text", text.decode()))
        for name, content in of_words:
            (self.folder / name).write_text(content)
        reads = f'cat {self.folder}/"$of"'
        return self.program("transfers", f"of=$1\n[ $1 != check ] || of=rows\n[ $1 != texts ] || exit 0\n{reads}\n"
                            f"[ $1 = check ] || exit 0\nexit {status}\n")

    def try_it(self, name: str, programs: tuple[pathlib.Path, pathlib.Path], wanted: tuple[dict[str, bytes], int, str]
               ) -> None:
        """The files that are made, the status, and what is told."""
        audit, transfers = programs
        into, recording = self.folder / f"files of {name}", self.folder / "recording"
        recording.write_bytes(b"\xa1\xb2\xc3\xd4")
        command = map(str, (SCRIPT, "--program", audit, "--transfers", transfers, into, recording))
        done = subprocess.run([*command], capture_output=True, text=True, timeout=60)
        got, told = files_in(into), done.stderr
        files, status, says = wanted
        self.check(name, (got, done.returncode) == (files, status) and says in told, (got, done))
        self.check(f"{name}, a line for each file", done.stdout.count("\n") == len(files), done.stdout)

    def test_told(self) -> None:
        """A file stays where both programs agree on it, and no end's refusal is passed over."""
        accepted, refused = "accepted get octet blocks 1 bytes 2", f"refused datagram 3 rule {Rule.ACK_AHEAD}"
        of_two = self.rows(("client", accepted), ("server", refused))
        cases: tuple[tuple[str, str, str, int, tuple[dict[str, bytes], int, str]], ...] = (
            ("agreed", "printf hi", self.rows(("both", accepted)), 0, ({"a": b"hi"}, 0, "")),
            ("another length", "printf long", self.rows(("both", accepted)), 0, ({}, 2, " wrote 4 bytes of what ")),
            ("at no end", "exit 1", self.rows(("between", accepted)), 0,
             ({}, 1, f"between the ends: {accepted}, but the text of no end is accepted alone")),
            ("a fault", "printf hi; exit 2", self.rows(("both", accepted)), 0, ({}, 2, "wrote no whole file")),
            ("an end refused", "printf hi", of_two, 0, ({"a": b"hi"}, 1, f"at the server: {refused}\n")),
            ("a recording that is cut", "printf hi", self.rows(("both", accepted)), 2, ({"a": b"hi"}, 2, "")),
            ("refused", "printf hi", self.rows(("between", refused)), 1, ({}, 1, f"between the ends: {refused}\n")),
        )
        for name, extract, rows, status, wanted in cases:
            self.try_it(name, (self.program("audit", f"{extract}\n"), self.transfers(rows, status)), wanted)


class Extract(Checks):
    """The files that are written."""

    needs = (AUDIT, TRANSFERS)
    programs = "--program", AUDIT.path, "--transfers", TRANSFERS.path

    def setUp(self) -> None:
        super().setUp()
        self.into = self.folder / "files"

    def run_it(self, *words: object, given: bytes = b"", through: Sequence[str] = ()) -> Ran:
        """What it writes and what it tells, in lines, and its status."""
        command = [*through, str(SCRIPT), *self.programs, *map(str, words)]
        done = subprocess.run(command, input=given, capture_output=True, timeout=120)
        return done.stdout.decode().splitlines(), done.stderr.decode().splitlines(), done.returncode

    def recording(self, passed: Sequence[Datagram], name: str = "made.pcap") -> pathlib.Path:
        path = self.folder / name
        path.write_bytes(made.file_of(passed))
        return path

    def test_session(self) -> None:
        """The files of a session of a client, of which one was not there; and once more into the same folder."""
        output, told, status = self.run_it(self.into, SESSION)
        client = "client 192.0.2.1:34056, server 192.0.2.1"
        asked = (
            ("boot.cfg", "get", 51973, 1), ("boot.cfg.2", "get", 54848, 2), ("whole.img", "get", 36322, 4),
            ("upload.log", "put", 60212, 5),
        )
        files = {name: content_of(name.removesuffix(".2")) for name, *_ in asked}
        self.check("the files", files_in(self.into) == files, sorted(files_in(self.into)))
        for line, (name, kind, port, number) in zip(output, asked):
            part = f'{kind} "{name.removesuffix(".2")}" octet, {client}:{port}, transfer {number} of {SESSION}'
            wanted = [name, str(len(files[name])), sha256(files[name]), part]
            self.check(f"the line of {name}", line.split("\t") == wanted, line)
        refused = f"tftp-extract: transfer 3 of {SESSION}, at both ends: refused datagram 3 rule {Rule.ACK_AHEAD}"
        self.check("what is told", (told, len(output), status) == ([refused], 4, 1), (told, output, status))
        (self.into / "boot.cfg.3").write_bytes(b"mine")
        output, _, _ = self.run_it(self.into, SESSION)
        names = [line.split("\t")[0] for line in output]
        self.check("once more", names == ["boot.cfg.4", "boot.cfg.5", "whole.img.2", "upload.log.2"], names)
        kept = {**files, "boot.cfg.3": b"mine"}
        self.check("nothing is written over", kept.items() <= files_in(self.into).items())

    def test_tshark(self) -> None:
        """The same bytes as tshark exports."""
        if not shutil.which("tshark"):
            self.leave("the files by tshark", "tshark is not installed")
            return
        for name in WHOLE:
            recording, ours, theirs = EXAMPLES / f"{name}.pcap", self.folder / name, self.folder / f"{name} by tshark"
            _, told, status = self.run_it(ours, recording)
            exported = ["tshark", "-q", "-r", str(recording), "--export-objects", f"tftp,{theirs}"]
            subprocess.run(exported, capture_output=True, check=True)
            got, wanted = (Counter(map(sha256, files_in(it).values())) for it in (ours, theirs))
            self.check(f"{name}, accepted", (told, status) == ([], 0), (told, status))
            self.check(f"{name}, as tshark has it", got == wanted and bool(got), (got, wanted))

    def test_names(self) -> None:
        """What was asked for leads to no other folder, and each file has what came over."""
        passed, wanted = list[Datagram](), dict[str, bytes]()
        for place, (asked, name) in enumerate(NAMES):
            content = b"%d" % place
            # a request without a name is no request that is lawful
            if asked and asked.decode(errors="replace").encode() == asked:
                passed += made.read(asked.decode(), 40_000 + place, 41_000 + place, content=content)
                wanted[name if name not in wanted else f"{name}.2"] = content
        inner = self.folder / "deep" / "files"
        inner.parent.mkdir()
        _, told, status = self.run_it("--end", "client", inner, self.recording(passed))
        self.check("all are accepted", (told, status) == ([], 0), (told, status))
        self.check("the names", files_in(inner) == wanted, sorted(files_in(inner)))
        beside = sorted(path.name for path in (*self.folder.iterdir(), *inner.parent.iterdir()))
        self.check("nothing beside the folder", beside == ["deep", "files", "made.pcap"], beside)

    def test_link(self) -> None:
        """A link in the folder is not followed."""
        self.into.mkdir()
        outside = self.folder / "outside"
        (self.into / "a").symlink_to(outside)
        output, _, status = self.run_it("--end", "client", self.into, self.recording(made.read("a", 40_000, 41_000)))
        holds = (self.into / "a.2").read_bytes() == b"hi" and not outside.exists()
        self.check("a link", holds and status == 0 and output[0].startswith("a.2\t2\t"), output)

    def test_texts(self) -> None:
        """A file in netascii is what its receiver has: LF for CR LF, and CR for CR NUL."""
        file = b"a line\nanother\rend" + b"\n" * 300
        asked, passed = read_request("a.txt", "netascii")[0], list[Datagram]()
        passed.append(Datagram(made.C, 40_000, made.S, 69, asked))
        for packet, _ in blocks(netascii(file), 512):
            passed.append(Datagram(made.S, 41_000, made.C, 40_000, packet))
            passed.append(Datagram(made.C, 40_000, made.S, 41_000, ack(int.from_bytes(packet[2:4], "big"))[0]))
        output, told, status = self.run_it("--end", "client", self.into, self.recording(passed))
        self.check("netascii", files_in(self.into) == {"a.txt": file}, files_in(self.into))
        holds = output[0].split("\t")[:3] == ["a.txt", str(len(file)), sha256(file)] and (told, status) == ([], 0)
        self.check("netascii, its line", holds, (output, told, status))

    def ends_of(self, passed: Sequence[Datagram], *words: str) -> tuple[Any, int]:
        """What JSON says was written, and the status."""
        output, _, status = self.run_it("--json", *words, self.into, self.recording(passed))
        return json.loads(output[0])["written"], status

    def test_ends(self) -> None:
        """Of what is accepted between the ends that end's text is taken which is accepted too, the client's first."""
        content = b"." * 512 + b"!"
        for name, passed, end in (("a read", made.late_block(), "client"), ("a write", late_in_write(), "server")):
            got, status = self.ends_of(passed, "--end", "between")
            wanted: dict[str, Any] = {"bytes": 513, "sha256": sha256(content), "end": end, "partial": None}
            holds = got is not None and {**got, "name": ""} == {**wanted, "name": ""} and status == 0
            self.check(f"a late block of {name}, the end whose text has it", holds, (got, status))
        self.check("its bytes", set(files_in(self.into).values()) == {content}, files_in(self.into))

    def test_partial(self) -> None:
        """What came of a transfer that is not accepted is written where that is asked for, and is so named."""
        path, first = self.recording(made.late_block()[:3]), b"." * 512
        output, told, status = self.run_it("--end", "client", self.into, path)
        line = f"tftp-extract: transfer 1 of {path}, at the client: incomplete after 3"
        self.check("nothing by itself", (output, told, status) == ([], [line], 1), (output, told, status))
        self.check("no file", files_in(self.into) == {})
        output, told, status = self.run_it("--end", "client", "--partial", self.into, path)
        ends = f"transfer 1 of {path}, block 1: block 2 is not there"
        holds = output[0].split("\t")[:3] == ["a.partial", "512", sha256(first)] and output[0].endswith(f", {ends}")
        self.check("the part", holds and (told, status) == ([line], 1), (output, told, status))
        self.check("its bytes", files_in(self.into) == {"a.partial": first})
        path = self.recording(made.late_block()[:1])
        output, told, status = self.run_it("--end", "client", "--partial", self.into, path)
        nothing = f"tftp-extract: transfer 1 of {path}: nothing: block 1 is not there"
        self.check("nothing came", (output, told[1:], status) == ([], [nothing], 1), (output, told, status))
        output, told, status = self.run_it("--partial", self.into, SESSION)
        names = [line.split("\t")[0] for line in output]
        self.check("a session", names == ["boot.cfg", "boot.cfg.2", "whole.img", "upload.log"], (names, told))
        whole = made.read("a.partial", 40_000, 41_000)
        output, _, status = self.run_it("--end", "client", self.into, self.recording(whole))
        self.check("a whole file of such a name", output[0].startswith("a.partial_\t2\t") and status == 0, output)

    def test_json(self) -> None:
        """An object for each transfer, what is not accepted among them."""
        output, told, status = self.run_it("--json", "--partial", self.into, SESSION)
        found = [json.loads(line) for line in output]
        self.check("each transfer", [it["number"] for it in found] == [1, 2, 3, 4, 5] and status == 1, output)
        boot = content_of("boot.cfg")
        verdict = {"place": "both", "verdict": "accepted get octet blocks 3 bytes 1300", "doubts": []}
        wanted = {
            "file": str(SESSION), "number": 1, "client": "192.0.2.1:34056", "server": "192.0.2.1:51973", "kind": "get",
            "mode": "octet", "asked": '"boot.cfg"', "verdicts": [verdict],
            "written": {"name": "boot.cfg", "bytes": 1300, "sha256": sha256(boot), "end": "client", "partial": None},
        }
        self.check("the first", found[0] == wanted, found[0])
        refused = {"place": "both", "verdict": f"refused datagram 3 rule {Rule.ACK_AHEAD}", "doubts": []}
        self.check("the third", (found[2]["verdicts"], found[2]["written"]) == ([refused], None), found[2])
        self.check("it is told too", len(told) == 2 and told[1].endswith("nothing: block 1 is not there"), told)
        got, status = self.ends_of(made.late_block()[:3], "--end", "client", "--partial")
        part = {"blocks": 1, "why": "block 2 is not there"}
        wanted = {"name": "a.partial", "bytes": 512, "sha256": sha256(b"." * 512), "end": "client", "partial": part}
        self.check("a part", (got, status) == (wanted, 1), got)

    def test_several(self) -> None:
        """A file that cannot be read stops no other; the status is that of the worst."""
        accepted, missing = self.recording(made.read("a", 40_000, 41_000)), self.folder / "missing.pcap"
        none = self.recording([Datagram(made.C, 40_000, made.S, 53, b"query")], "none.pcap")
        text = EXAMPLES / "one-block.capture"
        cut = self.folder / "cut.pcap"
        cut.write_bytes(made.file_of(made.read("a", 40_000, 41_000))[:-2])
        for name, paths, status, count, says in (
            ("one", [accepted], 0, 1, ""), ("two", [accepted, SESSION], 1, 5, "rule 26"),
            ("one is missing", [missing, accepted], 2, 1, "cannot read the file"),
            ("one is a text", [text, accepted], 2, 1, "is no recording"),
            ("one is cut", [cut, accepted], 2, 1, "the recording is cut"),
            ("one has none", [none, accepted], 3, 1, "none.pcap"), ("none", [none], 3, 0, "none.pcap"),
            ("one has none and one is refused", [none, SESSION], 1, 4, "none.pcap"),
        ):
            folder = self.folder / f"files of {name}"
            output, told, got = self.run_it("--end", "client", folder, *paths)
            holds = (len(output), len(files_in(folder)), got) == (count, count, status)
            self.check(name, holds and says in "\n".join(told), (output, told, got))
        output, told, status = self.run_it(self.folder / "given", "-", given=SESSION.read_bytes())
        self.check("standard input", len(output) == 4 and status == 1 and output[0].endswith("transfer 1 of -"), output)

    def test_faults(self) -> None:
        """What cannot be written is taken away; where the list cannot be written nothing goes on."""
        limited = "sh", "-c", 'ulimit -f 1; exec "$@"', "sh"
        output, told, status = self.run_it(self.into, SESSION, through=limited)
        holds = (output, status) == ([], 2) and any("wrote no whole file" in line for line in told)
        self.check("too long a file", holds and files_in(self.into) == {}, (output, told, status))
        closed = "sh", "-c", 'exec "$@" >&-', "sh"
        output, told, status = self.run_it(self.into, SESSION, through=closed)
        holds = status == 2 and told == ["tftp-extract: standard output cannot be written: Bad file descriptor"]
        self.check("closed output", holds and len(files_in(self.into)) == 1, (told, status))
        output, told, status = self.run_it(EXAMPLES / "one-block.capture", SESSION)
        holds = (output, status) == ([], 2) and len(told) == 1 and told[0].endswith(": Not a directory")
        self.check("a file as the folder", holds, (told, status))
        words = [str(SCRIPT), "files"]
        done = subprocess.run(words, capture_output=True, text=True, cwd=self.folder)
        holds = (done.stdout, done.returncode) == ("", 2) and "--help says more" in done.stderr
        self.check("no recording", holds and not os.path.exists(self.folder / "files" / "files"), done)
