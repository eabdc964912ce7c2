"""Makes recordings of real transfers at both ends at once, over the loopback and a relay that loses, repeats, delays
and changes datagrams, and tries tftp-match on them: the client's leg is its end's capture, and the server's leg that of
the server. Clients are tftp-hpa, atftp and curl, servers tftpd-hpa, atftpd and dnsmasq, as far as they are installed.
"""
from __future__ import annotations

import json
import pathlib
import re
import subprocess
from typing import Optional

from both import MATCHED, UNMATCHED
from captures import EndName
from fuzzing.transfers import ENDS
from judged import said
from loopback import ATFTPD, CURL, DNSMASQ, HPA, RELAY, SERVER, Case, Disturbance, Disturbing, OverLoopback, record
from programs import MATCH, TRANSFERS
from refusals import Rule

# At its own address alone, beside the relay.
BOUND = f"{DNSMASQ} --bind-interfaces"
DATA = b"\x00\x03"
BEHIND = re.compile(f"refused datagram ([0-9]+) rule {Rule.BLOCK_LENGTH}")
ATFTP = "atftp -g -r kernel.img -l kernel.img --option 'blksize 512'"


def case(name: str, server: str, client: str, *disturbed: Disturbance) -> Case:
    return Case(name, server, (client,), (), disturbed)


CASES = (
    case("curl-hpa", HPA, f"{CURL} -o kernel.img --tftp-blksize 1024 tftp://{RELAY}/kernel.img",
         ("server", 3, "lost"), ("client", 6, "repeated"), ("server", 7, "repeated")),
    case("curl-hpa-delayed", HPA, f"{CURL} -o boot.cfg --tftp-no-options tftp://{RELAY}/boot.cfg",
         ("server", 2, "delayed")),
    case("curl-hpa-changed", HPA, f"{CURL} -o kernel.img --tftp-blksize 1024 tftp://{RELAY}/kernel.img",
         ("server", 2, "repeated"), ("server", 6, "changed")),
    case("curl-hpa-put-changed", HPA, f"{CURL} -T report.bin tftp://{RELAY}/report.bin",
         ("client", 5, "changed")),
    case("hpa-hpa", HPA, f"tftp -4 -m octet {RELAY} -c get boot.cfg",
         ("client", 2, "lost"), ("server", 3, "repeated")),
    case("hpa-hpa-put", HPA, f"tftp -4 -m octet {RELAY} -c put report.bin",
         ("server", 3, "lost"), ("client", 4, "delayed")),
    case("hpa-hpa-put-changed", HPA, f"tftp -4 -m octet {RELAY} -c put report.bin",
         ("server", 2, "repeated"), ("client", 6, "changed")),
    case("hpa-dnsmasq", BOUND, f"tftp -4 -m octet {RELAY} -c get boot.cfg", ("server", 1, "lost")),
    case("atftp-dnsmasq", BOUND, f"{ATFTP} {RELAY}", ("server", 4, "repeated"), ("client", 7, "lost")),
    case("atftp-dnsmasq-changed", BOUND, f"{ATFTP} {RELAY}", ("server", 5, "changed")),
    case("atftp-atftpd", ATFTPD, f"{ATFTP} --option 'windowsize 4' {RELAY}", ("server", 4, "repeated")),
    case("atftp-atftpd-lost", ATFTPD, f"{ATFTP} --option 'windowsize 4' {RELAY}", ("server", 5, "lost")),
    case("atftp-atftpd-delayed", ATFTPD, f"{ATFTP} --option 'windowsize 4' {RELAY}", ("server", 6, "delayed")),
    case("atftp-atftpd-changed", ATFTPD, f"{ATFTP} --option 'windowsize 4' {RELAY}", ("server", 6, "changed")),
)


def legs_of(transfers: str, recording: bytes) -> dict[EndName, int]:
    """The numbers of the client's leg, in which the relay is the server, and of the server's; the first of each."""
    listed = [json.loads(line) for line in said(transfers, ["list", "--json", "-"], recording)[0].splitlines()]
    hosts: dict[EndName, str] = {"client": RELAY, "server": SERVER}
    legs: dict[EndName, int] = {}
    for end, host in hosts.items():
        numbers = [it["number"] for it in listed if it["server"].startswith(f"{host}:")]
        legs.update({end: numbers[0]} if numbers else {})
    return legs


def texts_of(transfers: str, recording: bytes) -> dict[EndName, bytes]:
    """The capture text of each end."""
    words = {end: ["text", str(number), end, "-"] for end, number in legs_of(transfers, recording).items()}
    return {end: said(transfers, asked, recording)[0].encode() for end, asked in words.items()}


def is_datagram(line: str) -> bool:
    return line.startswith(("in ", "out "))


def came_first(text: bytes, payload: bytes) -> Optional[int]:
    """The number of the first datagram that came in with this payload."""
    lines = [line for line in text.decode().splitlines() if is_datagram(line)]
    wanted = payload.hex()
    numbered = enumerate(lines, 1)
    return next((at for at, line in numbered if line.startswith("in ") and line.endswith(f" {wanted}")), None)


def is_behind_last(text: bytes, number: int) -> bool:
    """Whether this datagram is a DATA of no bytes, which comes after a last block that is shorter than the others."""
    payloads = [bytes.fromhex(line.split()[-1]) for line in map(bytes.decode, text.splitlines()) if is_datagram(line)]
    refused, before = payloads[number - 1], payloads[:number - 1]
    blocks = {it[2:4]: len(it) - 4 for it in before if it[:2] == DATA}
    last = (int.from_bytes(refused[2:4], "big") - 1).to_bytes(2, "big")
    return refused[:2] == DATA and len(refused) == 4 and 0 < blocks.get(last, 0) < max(blocks.values())


def is_told(line: str, text: bytes, server: str) -> bool:
    """Whether an end is accepted; or it is refused where it truly sent or took a block behind the last one, as atftpd
    alone sends now and then when its window was disturbed."""
    found = BEHIND.fullmatch(line) if server == ATFTPD else None
    return line.startswith("accepted ") or (found is not None and is_behind_last(text, int(found[1])))


def is_right(lines: list[str], texts: dict[EndName, bytes], case: Case, relay: Disturbing) -> bool:
    """Whether each end is accepted, and the two are matched where nothing was changed, with what was lost and repeated,
    and else unmatched at the datagram that was changed. Of ends that are refused all that is lawful goes together, up
    to what is refused."""
    changes = [sender for sender, _, what in case.disturbed if what == "changed"]
    if len(lines) != 3 or not all(is_told(line, texts[end], case.server) for end, line in zip(ENDS, lines)):
        return False
    third = lines[2]
    if len(relay.changed) != len(changes):
        return False
    behind = [BEHIND.fullmatch(line) for line in lines[:2]]
    if not changes and any(behind):
        client, server = (found[1] if found else "-" for found in behind)
        return third == f"unmatched client datagram {client} server datagram {server}"
    if not changes:
        found = MATCHED.fullmatch(third)
        return found is not None and (not found[1] or (int(found[1]), int(found[2])) == relay.counts())
    found = UNMATCHED.fullmatch(third)
    other: EndName = "client" if changes[0] == "server" else "server"
    number = found[1 if other == "client" else 3] if found else "-"
    return number == str(came_first(texts[other], relay.changed[0]))


class Legs(OverLoopback):
    """Both legs of a relay."""

    needs = (TRANSFERS, MATCH)

    def test_cases(self) -> None:
        self.try_each(CASES, self.try_case)

    def try_case(self, case: Case, folder: pathlib.Path) -> None:
        recording = self.kept / f"legs-{case.name}.pcap"
        relay = record(case, recording, folder)
        texts = texts_of(TRANSFERS.path, recording.read_bytes())
        self.check(f"{case.name}, both legs", len(texts) == 2 and relay is not None, texts.keys())
        if len(texts) < 2 or relay is None:
            return
        for end, text in texts.items():
            (folder / f"{end}.capture").write_bytes(text)
        words = [str(folder / f"{end}.capture") for end in ENDS]
        done = subprocess.run([MATCH.path, *words], capture_output=True, text=True, timeout=60)
        lines = done.stdout.splitlines()
        status = int(any(not line.startswith(("accepted ", "matched")) for line in lines))
        holds = is_right(lines, texts, case, relay) and done.returncode == status
        self.check(case.name, holds, (lines, done.returncode, relay.counts()))
