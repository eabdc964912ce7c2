"""Recordings of real transfers over the loopback, in a network namespace of their own: of tftp-hpa, atftp and curl as
clients, tftpd-hpa, atftpd and dnsmasq as servers, as far as they are installed. The recordings stay in a folder, where
the environment names one as TFTP_RECORDINGS.
"""
from __future__ import annotations

import contextlib
import ctypes
import dataclasses
import os
import pathlib
import re
import shutil
import signal
import subprocess
import time
from collections import Counter
from collections.abc import Callable, Iterator, Sequence
from typing import Literal, Optional

from captures import EndName
from checks import Checks
from judged import Row, checked
from refusals import Rule, refusal
from tftp_tools.pairs import OTHER
from tftp_tools.relay import Endpoint, Fate, Relay, stay_on_one_processor

# A sender, the place among the datagrams of that sender, from 1, and what becomes of the datagram there.
Disturbance = tuple[EndName, int, Literal["lost", "repeated", "delayed", "changed"]]
SERVICE = 69
# Longer than an end waits until it sends again, of those that wait one second.
DELAY = 1.4
SERVER, CLIENT, RELAY = "192.0.2.1", "192.0.2.7", "192.0.2.2"
SERVER_6, CLIENT_6 = "2001:db8::1", "2001:db8::7"
KEPT = "TFTP_RECORDINGS"
# The kind of namespace that a network is (sched.h).
CLONE_NEWNET = 0x40000000
CLIENTS = ("curl", "tftp", "atftp")
CLIENT_SECONDS = "60"
ALWAYS = ("tcpdump", "ip")
SIZES = {"boot.cfg": 1_300, "whole.img": 1_024, "kernel.img": 9_000, "empty.txt": 0}
# What the clients send.
UPLOADS = {"upload.log": 1_536, "report.bin": 5_000}


def named(program: str) -> Optional[str]:
    """Where a program stands; the servers' one common name is that of tftpd-hpa here."""
    found = shutil.which(program, path=f"{os.environ['PATH']}:/usr/sbin:/sbin")
    if found and program == "in.tftpd" and pathlib.Path(found).resolve().name == "atftpd":
        return None
    return found


@dataclasses.dataclass(frozen=True)
class Case:
    """A recording: the server, what the clients do, and of each transfer the verdicts at the client and at the server.

    A verdict is a regular expression, since what passes in which order is not always the same.
    """

    name: str
    server: str
    clients: tuple[str, ...]
    verdicts: tuple[tuple[str, str], ...]
    # what the relay between the two does to datagrams, where there is one
    disturbed: tuple[Disturbance, ...] = ()
    # the files that come over as others
    spoilt: tuple[str, ...] = ()


def read(blocks: int, size: int, mode: str = "octet") -> str:
    return f"accepted get {mode} blocks {blocks} bytes {size}"


def write(blocks: int, size: int, mode: str = "octet") -> str:
    return f"accepted put {mode} blocks {blocks} bytes {size}"


def both(*verdicts: str) -> tuple[tuple[str, str], ...]:
    return tuple((verdict, verdict) for verdict in verdicts)


HPA = f"in.tftpd -L -c -u root -a {SERVER}:69 -s ROOT"
HPA_6 = f"in.tftpd -L -c -u root -a [{SERVER_6}]:69 -s ROOT"
ATFTPD = f"atftpd --daemon --no-fork --user root --group root --bind-address {SERVER} --no-multicast --logfile LOG ROOT"
DNSMASQ = f"dnsmasq --no-daemon --conf-file=/dev/null --port=0 --enable-tftp --tftp-root=ROOT --listen-address={SERVER}"
DNSMASQ += " --user=root --group=root --log-facility=LOG"
SESSION = r"mode octet\nget boot.cfg\nget boot.cfg\nget missing.cfg\nget whole.img\nput upload.log\n"
CURL = "curl -s -S --max-time 30"
CASES = (
    # one port for all that a session of tftp asks for, with a missing file in it and one file twice
    Case(
        "session", HPA,
        (f"printf '{SESSION}' | tftp -4 {SERVER}",),
        (
            *both(read(3, 1300), read(3, 1300)),
            (refusal(3, Rule.ACK_AHEAD), refusal(3, Rule.ACK_AHEAD)),
            *both(read(3, 1024), write(4, 1536)),
        ),
    ),
    Case(
        "curl-hpa", HPA,
        (
            f"{CURL} --interface {CLIENT} -o kernel.img --tftp-blksize 1400 tftp://{SERVER}/kernel.img",
            f"{CURL} --interface {CLIENT} -o boot.cfg --tftp-no-options tftp://{SERVER}/boot.cfg",
            f"{CURL} --interface {CLIENT} -T report.bin tftp://{SERVER}/report.bin",
            f"{CURL} --interface {CLIENT} -o missing.cfg tftp://{SERVER}/missing.cfg",
        ),
        (
            *both(read(7, 9000), read(3, 1300), write(10, 5000)),
            ("aborted by peer code 1", "aborted by local code 1"),
        ),
    ),
    Case(
        "curl-hpa-6", HPA_6,
        (
            f"{CURL} --interface {CLIENT_6} -o kernel.img --tftp-blksize 1024 tftp://[{SERVER_6}]/kernel.img",
            f"{CURL} --interface {CLIENT_6} -T report.bin tftp://[{SERVER_6}]/report.bin",
        ),
        both(read(9, 9000), write(10, 5000)),
    ),
    Case(
        "atftp-atftpd", ATFTPD,
        (
            f'atftp -g -r kernel.img -l kernel.img --option "blksize 512" --option "windowsize 4" {SERVER}',
            f'atftp -g -r boot.cfg -l boot.cfg --option "windowsize 8" --option "tsize 0" {SERVER}',
            f"atftp -p -l report.bin -r report.bin {SERVER}",
        ),
        both(read(18, 9000), read(3, 1300), write(10, 5000)),
    ),
    Case(
        "dnsmasq", DNSMASQ,
        (
            f"atftp -g -r kernel.img -l kernel.img --option 'blksize 1024' --option 'timeout 5' {SERVER}",
            f"tftp -4 -m octet {SERVER} -c get boot.cfg",
            f"{CURL} -o whole.img tftp://{SERVER}/whole.img",
        ),
        both(read(9, 9000), read(3, 1300), read(3, 1024)),
    ),
    Case(
        "dnsmasq-single-port", f"{DNSMASQ} --tftp-single-port",
        (f"{CURL} -o kernel.img tftp://{SERVER}/kernel.img", f"{CURL} -o boot.cfg tftp://{SERVER}/boot.cfg"),
        both(read(18, 9000), read(3, 1300)),
    ),
    # blocks that IP sends in fragments
    Case(
        "fragments", HPA,
        (
            "ip link set lo mtu 1500",
            f"{CURL} -o kernel.img --tftp-blksize 8192 tftp://{SERVER}/kernel.img",
            "ip link set lo mtu 65536",
        ),
        both(read(2, 9000)),
    ),
    # between the two ends block 2 is lost once and ACK 3 comes twice; each leg is a transfer of its own
    Case(
        "lost-and-repeated", HPA,
        (f"{CURL} -o boot.cfg --tftp-blksize 256 tftp://{RELAY}/boot.cfg",),
        both(read(6, 1300), read(6, 1300)),
        (("server", 3, "lost"), ("client", 6, "repeated")),
    ),
    # curl takes the second OACK for one of a new transfer, sends its second 512 bytes as block 1, and says nothing
    Case(
        "repeated-oack", HPA,
        (f"{CURL} -T report.bin tftp://{RELAY}/report.bin",),
        both(*[f"refused datagram [0-9]+ rule {Rule.BLOCK_CHANGED}"] * 2),
        (("server", 1, "repeated"),),
        ("report.bin",),
    ),
)


class Disturbing(Relay):
    """A relay between the clients and the server that does to some datagrams what is listed; it changes the last bit of
    those that are to be changed."""

    def __init__(self, disturbed: Sequence[Disturbance]) -> None:
        self.listed = {(sender, place): what for sender, place, what in disturbed}
        # what was sent on in the place of another
        self.changed: list[bytes] = []
        super().__init__(Endpoint(RELAY, SERVICE), Endpoint(SERVER, SERVICE), self.fate, DELAY)

    def fate(self, sender: EndName, place: int) -> Fate:
        what = self.listed.get((sender, place), "passed")
        return "passed" if what == "changed" else what

    def carried(self, sender: EndName, payload: bytes) -> bytes:
        if self.listed.get((sender, self.count[sender])) != "changed":
            return payload
        self.changed.append(payload[:-1] + bytes([payload[-1] ^ 1]))
        return self.changed[-1]

    def payloads(self, leg: EndName, is_ours: bool) -> Counter[bytes]:
        """How often each payload passed on a leg, sent by the relay, or by the end there."""
        # a client may have the relay's own address
        ours, passed = {side.at for side in self.sides.values()}, (it.datagram for it in self.legs[leg])
        return Counter(it.payload for it in passed if (Endpoint(it.source, it.source_port) in ours) == is_ours)

    def counts(self) -> tuple[int, int]:
        """How many datagrams were lost and repeated, by how often each payload came and went."""
        pairs = [(self.payloads(end, False), self.payloads(OTHER[end], True)) for end in self.legs]
        each = [(came[it], went[it]) for came, went in pairs for it in came | went]
        return sum(max(0, came - went) for came, went in each), sum(max(0, went - came) for came, went in each)


def make_files(folder: pathlib.Path) -> None:
    root, client = folder / "root", folder / "client"
    for place, sizes in ((root, SIZES), (client, UPLOADS)):
        place.mkdir()
        place.chmod(0o777)
        for name, size in sizes.items():
            text = b"".join(b"%s line %05d\n" % (name.encode(), number) for number in range(size // 16 + 1))
            (place / name).write_bytes(text[:size])
            (place / name).chmod(0o666)


@contextlib.contextmanager
def running(command: str, folder: pathlib.Path, ready: str = "") -> Iterator[None]:
    """A program that runs meanwhile, and is ended then."""
    words = command.replace("ROOT", str(folder / "root")).replace("LOG", str(folder / "log")).split()
    words[0] = named(words[0]) or words[0]
    with subprocess.Popen(words, stdout=subprocess.DEVNULL, stderr=subprocess.PIPE, text=True) as process:
        if ready and process.stderr:
            while ready not in process.stderr.readline() and process.poll() is None:
                pass
        time.sleep(0.4)
        try:
            yield
        finally:
            process.send_signal(signal.SIGINT if ready else signal.SIGTERM)
            time.sleep(0.2)
            if process.poll() is None and not ready:
                process.kill()


@contextlib.contextmanager
def on_one_processor() -> Iterator[None]:
    """What is begun meanwhile runs on the relay's processor: no two send at once, so what passes has its order."""
    before = os.sched_getaffinity(0)
    stay_on_one_processor(SERVICE)
    try:
        yield
    finally:
        os.sched_setaffinity(0, before)


@on_one_processor()
def record(case: Case, recording: pathlib.Path, folder: pathlib.Path) -> Optional[Disturbing]:
    """The recording of a case, and the relay, where there is one."""
    relay = Disturbing(case.disturbed) if case.disturbed else None
    recorder = f"tcpdump -i lo -s 0 -U -Z root -w {recording} udp or icmp or icmp6 or ip[6:2]&0x3fff!=0"
    with running(recorder, folder, "listening on"), running(case.server, folder), contextlib.ExitStack() as stack:
        if relay:
            stack.enter_context(relay)
        for client in case.clients:
            subprocess.run(
                ["timeout", CLIENT_SECONDS, "sh", "-c", client], cwd=folder / "client", stdin=subprocess.DEVNULL,
                stdout=subprocess.DEVNULL, stderr=subprocess.DEVNULL,
            )
        time.sleep(1)
    if relay and relay.failed:
        raise relay.failed
    return relay


def at_each_end(transfers: str, recording: pathlib.Path) -> list[tuple[list[Row], str, int]]:
    """What tftp-transfers says of a recording, made at the client and made at the server."""
    given = recording.read_bytes()
    return [checked(transfers, given, "--end", end) for end in ("client", "server")]


def not_between(transfers: str, recording: pathlib.Path) -> list[tuple[Row, Row]]:
    """Of the transfers that are accepted at an end, each that is not so between the ends: what is said there, and
    here."""
    there = [row for rows, _, _ in at_each_end(transfers, recording) for row in rows]
    here = {row.number: row for row in checked(transfers, recording.read_bytes(), "--end", "between")[0]}
    accepted = [(row, here[row.number]) for row in there if row.verdict.startswith("accepted")]
    return [(row, it) for row, it in accepted if (it.place, it.verdict) != ("between", row.verdict)]


def are_wanted(case: Case, at_ends: Sequence[tuple[list[Row], str, int]]) -> bool:
    """Whether the rows have the verdicts of the case, without a doubt, and nothing is told beside."""
    for (rows, told, status), wanted in zip(at_ends, zip(*case.verdicts)):
        is_bad = any(not row.verdict.startswith("accepted") for row in rows)
        holds = len(rows) == len(wanted) and told == "" and status == int(is_bad)
        for number, (row, verdict) in enumerate(zip(rows, wanted), 1):
            holds = holds and row.number == number and not row.doubts and bool(re.fullmatch(verdict, row.verdict))
        if not holds:
            return False
    return True


def missing(case: Case) -> list[str]:
    """The programs of a case that are not installed."""
    wanted = {case.server.split()[0]} | {word for text in case.clients for word in text.split() if word in CLIENTS}
    return sorted(word for word in wanted if not named(word))


def enter_network() -> Callable[[], None]:
    """Brings what this thread does, and begins, into a network of its own; answers what brings it back."""
    system = ctypes.CDLL(None, use_errno=True)
    outer = os.open("/proc/thread-self/ns/net", os.O_RDONLY)
    if system.unshare(CLONE_NEWNET) != 0:
        os.close(outer)
        raise OSError(ctypes.get_errno(), os.strerror(ctypes.get_errno()))

    def leave() -> None:
        system.setns(outer, CLONE_NEWNET)
        os.close(outer)

    return leave


def set_up() -> None:
    """The addresses of the loopback."""
    subprocess.run(["ip", "link", "set", "lo", "up"], check=True)
    for address in (f"{SERVER}/32", f"{CLIENT}/32", f"{RELAY}/32", f"{SERVER_6}/128", f"{CLIENT_6}/128"):
        subprocess.run(["ip", "addr", "add", address, "dev", "lo"], check=True)


class OverLoopback(Checks):
    """Tests on recordings that are made meanwhile."""

    def setUp(self) -> None:
        super().setUp()
        if lacking := [name for name in ALWAYS if not named(name)]:
            self.skipTest(f"not installed, so nothing is recorded over the loopback: {', '.join(lacking)}")
        try:
            self.addCleanup(enter_network())
        except OSError as why:
            self.skipTest(f"no network namespace can be had here, as root can: {why}")
        set_up()
        self.kept = pathlib.Path(os.environ.get(KEPT) or self.folder).resolve()

    def try_each(self, cases: Sequence[Case], try_one: Callable[[Case, pathlib.Path], None]) -> None:
        """Each case whose programs are installed, with its files in a folder of its own."""
        for case in cases:
            if lacking := missing(case):
                self.leave(case.name, f"not installed: {', '.join(lacking)}")
                continue
            folder = self.folder / case.name
            folder.mkdir()
            for each in (self.folder, folder):
                each.chmod(0o755)
            make_files(folder)
            try_one(case, folder)
