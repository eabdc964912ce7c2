"""The plugin of share/wireshark in tshark, where that is installed: the item at the refused frame, and the fields of
each frame of a transfer. Its rules are those of the scripts, with tshark or without.
"""
from __future__ import annotations

import functools
import pathlib
import re
import shutil
import subprocess
from collections.abc import Sequence

import made
from captures import ack
from checks import Checks
from programs import TRANSFERS
from recorded import Datagram
from refusals import Rule, refusal
from repository import TOP
from test_rollover import COUNT, FILE, ROUND, recorded

PLUGIN, EXAMPLES = TOP / "share" / "wireshark" / "tftp-audit.lua", TOP / "examples"
RULE = re.compile(r'\[([0-9]+)\] = \{ name = "(\w+)", says = "([^"]*)",\s+whose = "([^"]*)" \},')
FIELDS = ("frame.number", "tftp_audit.transfer", "tftp_audit.place", "tftp_audit.verdict", "tftp_audit.rule")
Rows = list[tuple[str, ...]]


class Tshark:
    """tshark with the plugin."""

    def __init__(self, transfers: str) -> None:
        self.transfers = transfers

    def run(self, file: pathlib.Path, *words: str, program: str = "", of_script: Sequence[str] = ()) -> str:
        options = ["-o", f"tftp_audit.program:{program or self.transfers}"]
        command = ["tshark", "-X", f"lua_script:{PLUGIN}", *of_script, *options, "-r", str(file), *words]
        return subprocess.run(command, capture_output=True, text=True, timeout=120).stdout

    def rows(self, file: pathlib.Path, *words: str, fields: Sequence[str] = FIELDS, program: str = "") -> Rows:
        """The fields of each frame that a filter leaves."""
        asked = [word for field in fields for word in ("-e", field)]
        output = self.run(file, "-T", "fields", *asked, *words, program=program)
        return [tuple(line.split("\t")) for line in output.splitlines()]


def frames_by_text(transfers: str, path: pathlib.Path) -> dict[str, str]:
    """Of each frame of two transfers, which one's text has it, the first where both have."""
    found: dict[str, str] = {}
    for number in ("2", "1"):
        words = [transfers, "text", number, "client", str(path)]
        text = subprocess.run(words, capture_output=True, text=True, timeout=60).stdout
        found |= {frame: number for frame in re.findall(r"(?m)^# frame (\d+)", text)}
    return found


class Rules(Checks):
    """What the plugin has of the rules."""

    def test_rules(self) -> None:
        found = RULE.findall(PLUGIN.read_text())
        wanted = [(str(rule.number), rule.printed, rule.says, rule.whose) for rule in Rule]
        self.check("the plugin's rules", found == wanted, [pair for pair in zip(found, wanted) if pair[0] != pair[1]])


@functools.lru_cache(maxsize=None)
def lacking() -> str:
    """Why the plugin cannot be run, or nothing."""
    if not shutil.which("tshark"):
        return "tshark is not installed, so the plugin is not run"
    if "tftp_audit" in Tshark(TRANSFERS.path).run(EXAMPLES / "loopback-session.pcap", "-G", "protocols"):
        return ""
    listed = subprocess.run(["tshark", "-v"], capture_output=True, text=True).stdout
    return "tshark is built without Lua, so the plugin is not run" if "without Lua" in listed else ""


class Plugin(Checks):
    """What tshark shows with the plugin."""

    needs = (TRANSFERS,)

    def setUp(self) -> None:
        super().setUp()
        if why := lacking():
            self.skipTest(why)
        self.tshark = Tshark(TRANSFERS.path)

    def test_session(self) -> None:
        """The frames of each transfer, by what docs/RECORDING.md lists of this recording."""
        session = EXAMPLES / "loopback-session.pcap"
        frames = {1: range(1, 8), 2: range(8, 15), 3: range(15, 18), 4: range(19, 26), 5: range(26, 36)}
        of_frame = {str(frame): str(number) for number, its in frames.items() for frame in its}
        rows = self.tshark.rows(session)
        self.check("each frame's transfer", {row[0]: row[1] for row in rows} == {**of_frame, "18": ""}, rows)
        refused = refusal(3, Rule.ACK_AHEAD)
        found = self.tshark.rows(session, "-Y", "tftp_audit.rule")
        self.check("a filter by rule", found == [("17", "3", "both", refused, "26")], found)
        found = self.tshark.rows(session, "-Y", "tftp_audit.accused", fields=("frame.number", "tftp_audit.accused"))
        wanted = [(str(frame), "client 192.0.2.1:34056") for frame in frames[3]]
        self.check("who is accused", found == wanted, found)
        found = self.tshark.rows(session, "-Y", 'tftp_audit.verdict matches "^accepted put"')
        self.check("a filter by verdict", [row[0] for row in found] == [str(frame) for frame in frames[5]], found)
        rule = Rule.ACK_AHEAD
        words = f"rule {rule}: an ACK says that its block and all before it came (RFC 1350, section 2, and RFC 7440"
        shown = self.tshark.run(session, "-V", "-Y", "frame.number == 17")
        is_error = f"[Expert Info (Error/Protocol): {words}" in shown and "TFTP audit, transfer 3" in shown
        self.check("the item of the refused frame", is_error, shown[-900:])
        counted = self.tshark.run(session, "-q", "-z", "expert")
        self.check("one error", re.search(r"Errors \(1\)", counted) is not None, counted)
        six = self.tshark.rows(EXAMPLES / "loopback-curl-hpa-6.pcap")
        self.check("IPv6", {row[1] for row in six} == {"1", "2"}, six)

    def test_made(self) -> None:
        """A doubt is no error; two reads from one port at once are told apart; a file's name is no word of the
        shell."""
        path = self.folder / "it's a $(recording).pcap"
        path.write_bytes(made.file_of(made.asked_again()))
        wanted = [("4", "2", "between", refusal(2, Rule.WINDOW_OVERRUN), "22")]
        found = self.tshark.rows(path, "-Y", "tftp_audit.rule && tftp_audit.doubt")
        self.check("a doubt, and a file with a quote", found == wanted, found)
        shown = self.tshark.run(path, "-V", "-Y", "tftp_audit.rule")
        is_warning = f"[Expert Info (Warning/Protocol): doubtful: rule {Rule.WINDOW_OVERRUN}" in shown
        self.check("a doubt is a warning", is_warning, shown[-900:])
        found = self.tshark.rows(path, "-Y", "tftp_audit.accused")
        self.check("a doubtful refusal accuses nobody", found == [], found)
        path.write_bytes(made.file_of(made.at_one_host(made.late_block())))
        accepted, refused = "accepted get octet blocks 2 bytes 513", refusal(5, Rule.GONE_BACK)
        for place, verdict in (("between", accepted), ("server", refused)):
            rows = self.tshark.rows(path, "-o", f"tftp_audit.place:{place}", "-Y", "frame.number == 5")
            self.check(f"the place {place}", [row[2:4] for row in rows] == [(place, verdict)], rows)
        one, other = made.read("a", 40_000, 41_000), made.read("b", 40_000, 42_000)
        mixed = [one[0], one[1], other[0], other[1], one[2], other[2]]
        path.write_bytes(made.file_of(mixed))
        by_text = {row[0]: row[1] for row in self.tshark.rows(path)}
        self.check("two from one port", by_text == frames_by_text(self.tshark.transfers, path), by_text)
        late = [*made.read("a", 40_000, 41_000, service=6969)[:2], Datagram(made.C, 40_000, made.S, 41_000, ack(2)[0])]
        path.write_bytes(made.file_of(late))
        found = self.tshark.rows(
            path, "-o", "tftp_audit.service:6969", "-o", "tftp_audit.place:client", "-Y", "tftp_audit.rule"
        )
        wanted = [("3", "1", "client", refusal(3, Rule.ACK_AHEAD), "26")]
        self.check("a place and a port", found == wanted, found)

    def test_rollover(self) -> None:
        """What comes after block 65535 is a preference: by it is judged what has more blocks."""
        path = self.folder / "large.pcap"
        path.write_bytes(recorded(0))
        accepted, server = f"accepted get octet blocks {COUNT} bytes {len(FILE)}", "server 192.0.2.1:41000"
        refused, beyond = refusal(2 * ROUND + 2, Rule.BLOCK_ZERO), refusal(2 * ROUND, Rule.BEYOND_BLOCK_65535)
        fields = ("tftp_audit.verdict", "tftp_audit.rule", "tftp_audit.doubt", "tftp_audit.accused")
        for place, first, row in (
            ("client", "block 0", (accepted, "", "", "")), ("client", "nothing", (beyond, "", "", server)),
            ("between", "block 0", (accepted, "", "", "")), ("between", "nothing", (beyond, "", "", server)),
        ):
            words = ("-o", f"tftp_audit.place:{place}", "-o", f"tftp_audit.rollover:{first}", "-Y", "frame.number == 9")
            found = self.tshark.rows(path, *words, fields=fields)
            self.check(f"{place}, {first}", found == [row], found)
        words = ("-o", "tftp_audit.place:server", "-o", "tftp_audit.rollover:block 1", "-Y", "tftp_audit.rule")
        found = self.tshark.rows(path, *words, fields=("frame.number", *fields))
        wanted = [(str(2 * ROUND + 2), refused, str(Rule.BLOCK_ZERO.number), "", server)]
        self.check("server, block 1", found == wanted, found)

    def test_failures(self) -> None:
        """Where the program or the file is not found, that is told once."""
        session, fields = EXAMPLES / "loopback-session.pcap", ("_ws.expert.message",)
        for name, program, told in (
            ("no program", "/no/such/program", "the program /no/such/program is not found"),
            ("a program that says nothing", "/bin/false", "tftp-transfers finds no transfer in"),
        ):
            rows = self.tshark.rows(session, "-Y", "tftp_audit.failed", fields=fields, program=program)
            self.check(name, len(rows) == 1 and rows[0][0].startswith(told), rows)
        other = ("-X", f"lua_script1:{EXAMPLES / 'loopback-dnsmasq.pcap'}")
        shown = self.tshark.run(session, "-T", "fields", "-e", "tftp_audit.rule", of_script=other)
        self.check("another file as the script's argument", "26" not in shown.split(), shown)
