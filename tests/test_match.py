"""Captures of both ends of one transfer, matched: made by hand, and of simulated transfers, whole, cut and changed,
over a network that loses, repeats and delays, as texts and as recordings; recordings of several transfers; and with
each growth refused and each read of standard input failing in turn.
"""
from __future__ import annotations

import dataclasses
import json
import os
import pathlib
import re
import subprocess
from random import Random
from typing import Any

from both import copies_in, counts_of
from both_ends import READ, Both, ahead, read_of_two_bytes, repeated, strayed, windowed
from captures import Capture, EndName, ack, data, error, oack, read_request, write_request
from checks import Checks
from fuzzing.meanings import Spelling, meaning_of
from fuzzing.transfers import ENDS, Step, Transfer
from fuzzing.views import View
from made import C, S, file_of, framed, packets_of, read
from launchers import VERSION
from programs import MATCH, refusing
from recorded import Datagram, pcap

# So many simulated transfers, from this seed on.
CASES, SEED = 200, 1

# Words, and which transfers of the files of `several` are taken.
TAKEN: tuple[tuple[str, tuple[int | None, int | None]], ...] = (
    ("ab b", (2, 1)), ("ab b-server", (2, None)), ("a-client ab", (None, 1)), ("b-client aba", (None, 2)),
    ("aba a-server --transfer 1", (1, None)), ("aba a-server --transfer 3", (3, None)),
    ("a-client aba --transfer 3", (None, 3)), ("a-client aba --server-transfer 3", (None, 3)),
    ("aba aba --transfer 3 --server-transfer 1", (3, 1)), ("aba aba --transfer 2", (2, 2)),
    ("ab aba --server-transfer 3", (1, 3)), ("ab ab --transfer 1 --service 6969 --service 70", (1, 1)),
)
# Words that name no one transfer of them, and what is told.
REFUSED: tuple[tuple[str, tuple[str, ...]], ...] = (
    ("aba a-server", ("aba: transfers 1, 3 have the request of a-server: name one by --transfer",)),
    ("a-client aba", ("aba: transfers 1, 3 have the request of a-client: name one by --transfer",)),
    ("ab ab", ("ab: transfers 1, 2 have the request of ab: name one by --transfer",)),
    ("ab ab", ("ab: transfers 1, 2 have the request of ab: name one by --server-transfer",)),
    ("aba aba --transfer 1", ("aba: transfers 1, 3 have the request of aba: name one by --server-transfer",)),
    ("ab c", ("ab: no transfer has the request of c",)),
    ("c-client ab", ("ab: no transfer has the request of c-client",)),
    ("ab b-server --transfer 9", ("ab: there is no transfer 9: the recording has 1 to 2",)),
    ("ab ab --server-transfer 3", ("ab: there is no transfer 3: the recording has 1 to 2",)),
    ("none b-server", ("none: no request passed, so there is no transfer",)),
    ("b-client none", ("none: no request passed, so there is no transfer",)),
    ("cut b-server", ("cut: frame 6: ", "cut: nothing is written, since the recording is not whole")),
    ("a-client a-server --transfer 1", ("a transfer is named, and there is no recording",)),
    ("b b-server --server-transfer 1", ("a transfer at the server is named, and there is no recording of it",)),
    ("b-client b --transfer 1 --server-transfer 1", ("a transfer at the client is named",)),
    ("b none --transfer 0", ("--transfer",)), ("b b --transfer x", ("--transfer",)),
)


# What the blocks of one file say, again and again, at the client and at the server; words; the pair that alone goes
# together.
TRIED: tuple[tuple[str, str, str, tuple[int | None, int | None]], ...] = (
    ("abc", "xyb", "", (2, 3)), ("abc", "cyb", "--transfer 2", (2, 3)), ("abc", "cyb", "--server-transfer 1", (3, 1)),
    ("abc", "b", "", (2, 1)), ("b", "cab", "", (1, 3)), ("abcdefgh", "stuvwxyb", "", (2, 8)),
)
# The same of those of which none goes together, or several do, and what is told.
UNTRIED: tuple[tuple[str, str, str, str], ...] = (
    ("abc", "cyb", "", "client, server: more than one of the pairs with one request goes together: 2 and 3, 3 and 1"),
    ("ab", "xy", "", "server: none of the pairs with one request goes together: 1 and 1, 1 and 2, 2 and 1, 2 and 2"),
    ("abc", "xyz", "--transfer 3", "none of the pairs with one request goes together: 3 and 1, 3 and 2, 3 and 3"),
    ("abcdefghi", "stuvwxyb", "", "client, server: 72 pairs have one request, and 64 at most are tried"),
)


def asked_often(says: str) -> list[Datagram]:
    """A client that asks for one file again and again, each time from another port; what each block says."""
    reads = (read("a", 40_000 + at, 41_000 + at, content=it.encode() * 2) for at, it in enumerate(says))
    return [datagram for passed in reads for datagram in passed]


def text_of(end: EndName, content: bytes) -> bytes:
    """The text of such a read at one end."""
    made = Both()
    made.put("client", read_request("a", "octet"))
    made.put("server", data(1, content))
    made.put("client", ack(1))
    return made.at(end).text()


def matched(lost: int = 0, repeated: int = 0) -> str:
    return f"matched lost {lost} repeated {repeated}"


MATCHED = matched()


def unmatched(client: int | str, server: int | str) -> str:
    return f"unmatched client datagram {client} server datagram {server}"


def written(early: bool = False) -> Both:
    """A write with an option; its first block may be sent, at the client, before its OACK came."""
    both = Both()
    both.put("client", write_request("a", "octet", blksize=512))
    both.put("server", oack(blksize=512))
    both.put("client", data(1, b"hi"))
    if early:
        both.client.lines[1:3] = both.client.lines[2:0:-1]
    both.put("server", ack(1))
    return both


def refused_behind(*ends: EndName) -> Both:
    """A read whose block says another thing at the client; behind it these ends break a rule."""
    both = read_of_two_bytes(b"hj")
    for end in ends:
        both.at(end).put(end, ack(2) if end == "client" else data(3, b"hi"))
    return both


def passed_at(capture: Capture) -> list[Datagram]:
    """The datagrams of a capture between two hosts."""
    mine, theirs = (C, S) if capture.end == "client" else (S, C)
    passed = []
    for line in capture.lines:
        way, local, remote, payload = line.split()
        ends = mine, int(local), theirs, int(remote)
        passed.append(Datagram(*(ends if way == "out" else ends[2:] + ends[:2]), bytes.fromhex(payload)))
    return passed


def of_json_count(it: dict[str, Any]) -> str:
    block = "" if it["block"] is None else f" {it['block']}"
    return f"{it['from']} {it['packet']}{block} sent {it['sent']} taken {it['taken']}"


def third_of(told: dict[str, Any]) -> str:
    """The third line, of what is told in JSON."""
    together = told["together"]
    if together["matched"]:
        return matched(together["lost"], together["repeated"])
    numbers = [(together[f"{end}_datagram"] or "-", together[f"{end}_why"]) for end in ENDS]
    return unmatched(*(f"{number} {why}" if why else number for number, why in numbers))


def merged(ends: tuple[list[Step | None], list[Step | None]]) -> tuple[int, int]:
    """How many of each end's steps go together: what came waits till the other end has sent it."""
    at = [0, 0]
    while True:
        for own in (0, 1):
            sent = [step[1] for step in ends[1 - own][: at[1 - own]] if step and step[0]]
            if at[own] < len(ends[own]):
                step = ends[own][at[own]]
                if step is None or step[0] or step[1] in sent:
                    at[own] += 1
                    break
        else:
            return at[0], at[1]


def third(steps: tuple[list[Step | None], list[Step | None]]) -> str:
    """The line of two lawful captures with these steps."""
    at = merged(steps)
    if all(count == len(own) for count, own in zip(at, steps)):
        return matched(*counts_of(steps))
    client, server = (
        f"{count + 1} {why(own[count], other)}" if count < len(own) else "-"
        for count, own, other in zip(at, steps, steps[::-1])
    )
    return unmatched(client, server)


def why(step: Step | None, other: list[Step | None]) -> str:
    """Whether the other end sends at all what waits."""
    is_sent = step is not None and any(it and it[0] and it[1] == step[1] for it in other)
    return "waits" if is_sent else "unsent"


def changed(chance: Random, view: View) -> bytes:
    """The text of a view where the last byte of a block that came is another one; none where there is no such block."""
    datagrams = list(view.capture.datagrams)
    came = [
        at
        for at, (step, it) in enumerate(zip(view.steps, datagrams))
        if step and not step[0] and step[1].kind == "data" and len(it.payload) > 4
    ]
    if not came:
        return b""
    at = chance.choice(came)
    payload = datagrams[at].payload
    datagrams[at] = dataclasses.replace(datagrams[at], payload=payload[:-1] + bytes([payload[-1] ^ 1]))
    return dataclasses.replace(view.capture, datagrams=tuple(datagrams)).text()


class Matches(Checks):
    """What the program says of both ends."""

    needs = (MATCH,)
    program = MATCH.path

    def call(self, words: list[str], given: bytes = b"") -> tuple[list[str], str, int]:
        done = subprocess.run([self.program, *words], input=given, capture_output=True, timeout=60, check=False)
        return done.stdout.decode().splitlines(), done.stderr.decode(), done.returncode

    def row(self, name: str, texts: tuple[bytes, bytes], lines: list[str], status: int) -> None:
        """The texts have these lines and this status, from files and with either of them on standard input."""
        paths = [str(self.folder / end) for end in ENDS]
        for path, text in zip(paths, texts):
            pathlib.Path(path).write_bytes(text)
        runs = [(paths, b""), (["-", paths[1]], texts[0]), ([paths[0], "-"], texts[1])]
        for words, given in runs:
            got = self.call(words, given)
            self.check(f"{name} {words}", got == (lines, "", status), got)

    def said_of(self, words: str, *further: str) -> tuple[list[str], str, int]:
        """What is said where the words are called in the folder."""
        command = [self.program, *further, *words.split()]
        done = subprocess.run(command, cwd=self.folder, capture_output=True, timeout=60, check=False)
        return done.stdout.decode().splitlines(), done.stderr.decode(), done.returncode

    def of_json(self, words: str) -> tuple[dict[str, Any], str, int]:
        output, errors, status = self.said_of(words, "--json")
        return json.loads(output[0]) if output else {}, errors, status

    def tells(self, name: str, words: list[str], text: str, status: int) -> None:
        """The words make no request, and this is told."""
        output, errors, ended = self.call(words)
        told = "\n".join(output) if status == 0 else errors
        self.check(name, text in told and ended == status, (output, errors, ended))

    def test_rows(self) -> None:
        worked = read_of_two_bytes().texts()
        self.row("worked", worked, [READ, READ, MATCHED], 0)
        self.row(
            "last byte changed", read_of_two_bytes(b"hj").texts(), [READ, READ, unmatched("2 unsent", "3 waits")], 1
        )
        self.row("a block lost", repeated(2, 1).texts(), [READ, READ, matched(lost=1)], 0)
        self.row("a block repeated", repeated(1, 2).texts(), [READ, READ, matched(repeated=1)], 0)
        self.row("strays", strayed().texts(), [READ, READ, MATCHED], 0)
        whole = "accepted get octet blocks 6 bytes 40"
        self.row("windows", windowed().texts(), [whole, whole, MATCHED], 0)
        self.row(
            "a block of a window changed", windowed(2).texts(), [whole, whole, unmatched("6 unsent", "8 waits")], 1
        )
        put = "accepted put octet blocks 1 bytes 2"
        self.row("a write", written().texts(), [put, put, MATCHED], 0)
        client, server = worked
        empty = Capture("client").text(), Capture("server").text()
        none = "incomplete after 0"
        self.row("no datagrams", empty, [none, none, MATCHED], 0)
        self.row("nothing at the server", (client, empty[1]), [READ, none, unmatched("2 unsent", "-")], 1)
        self.row("nothing at the client", (empty[0], server), [none, READ, unmatched("-", "1 unsent")], 1)

    def test_faults(self) -> None:
        client, server = read_of_two_bytes().texts()
        self.row("wrong end of the server", (client, client), [READ, READ, "fault server WrongEnd"], 2)
        self.row("wrong end of the client", (server, server), [READ, READ, "fault client WrongEnd"], 2)
        cut = server.removesuffix(b"total 3\n")
        self.row("no total", (client, cut), [READ, "fault line 7 Truncated", unmatched("-", "-")], 2)
        shorter = b"".join(server.splitlines(keepends=True)[:-2])
        lines = [READ, "fault line 6 Truncated", unmatched("-", "-")]
        self.row("cut before its last datagram", (client, shorter), lines, 2)
        bad = "fault line 1 BadHeader"
        self.row("no header at the client", (b"x\n", server), [bad, READ], 2)
        self.row("no header at the server", (client, b"x\n"), [READ, bad], 2)
        self.row("no header", (b"x\n", b"x\n"), [bad, bad], 2)
        refused = "refused datagram 3 rule"
        got = self.texts_of(ahead())
        holds = got[0][0].startswith(refused) and got[0][1:] == [READ, unmatched(3, 3)] and got[2] == 1
        self.check("a refused side", holds, got)
        got = self.texts_of(written(early=True))
        is_refused = got[0][0].startswith("refused datagram 2") and got[0][2] == unmatched(2, 3)
        self.check("a refused write", is_refused, got)
        shorter = b"".join(client.splitlines(keepends=True)[:-2])
        lines = ["fault line 6 Truncated", READ, unmatched("-", 3)]
        self.row("cut before what the other end took", (shorter, server), lines, 2)
        behind: tuple[tuple[tuple[EndName, ...], str], ...] = (
            (("client",), unmatched("2 unsent", "3 waits")), (("client", "server"), unmatched(2, "3 waits")),
        )
        for ends, third in behind:
            got = self.texts_of(refused_behind(*ends))
            said = [line.startswith("refused datagram 4 rule") for line in got[0][:2]]
            holds = said == ["client" in ends, "server" in ends] and got[0][2] == third and got[2] == 1
            self.check(f"refused behind what waits at {ends}", holds, got)

    def test_recorded(self) -> None:
        """The same as texts and as recordings, from files and from standard input."""
        cases = (
            ("worked", read_of_two_bytes(), 0), ("last byte changed", read_of_two_bytes(b"hj"), 1),
            ("lost", repeated(2, 1), 0), ("repeated", repeated(1, 2), 0), ("windows", windowed(), 0),
            ("a block of a window changed", windowed(2), 1),
            ("a write", written(), 0), ("ahead", ahead(), 1),
        )
        for name, both, status in cases:
            texts = both.texts()
            files = tuple(file_of(passed_at(it)) for it in (both.client, both.server))
            lines = self.texts_of(both)[0]
            for client, server in ((files[0], files[1]), (files[0], texts[1]), (texts[0], files[1])):
                self.row(f"{name}, recorded", (client, server), lines, status)
        swapped = pcap(framed(packets_of(read("a", 40_000, 41_000))), ">")
        self.row("another order of bytes", (swapped, read_of_two_bytes().texts()[1]), [READ, READ, MATCHED], 0)

    def put_several(self) -> None:
        """Recordings of several transfers, and the texts of three, in the folder."""
        one = {name: read(name, 40_000 + at, 41_000 + at) for at, name in enumerate("abc")}
        both, again = [*one["a"], *one["b"]], read("a", 43_000, 44_000)
        files = {
            "ab": file_of(both), "b": file_of(one["b"]), "aba": file_of([*both, *again]), "c": file_of(one["c"]),
            "none": file_of([]), "cut": file_of(both)[:-1],
        }
        for name, file in files.items():
            (self.folder / name).write_bytes(file)
        for name in "abc":
            made = Both()
            made.put("client", read_request(name, "octet"))
            made.put("server", data(1, b"hi"))
            made.put("client", ack(1))
            for end, text in zip(ENDS, made.texts()):
                (self.folder / f"{name}-{end}").write_bytes(text)

    def test_several(self) -> None:
        """Of recordings of several transfers that is taken which is named, or alone has the request of the other."""
        self.put_several()
        for words, numbers in TAKEN:
            got = self.of_json(words)
            there = got[0].get("client", {}).get("number"), got[0].get("server", {}).get("number")
            self.check(words, there == numbers and got[0]["together"]["matched"] and got[1:] == ("", 0), got)
        unlike = "ab ab --transfer 1 --server-transfer 2", "b c", "b c-server", "c-client b", "ab b-server --transfer 1"
        for words in unlike:
            got = self.of_json(words)
            self.check(words, got[0]["together"]["client_datagram"] is not None and got[1:] == ("", 1), got)
        for words, told in REFUSED:
            lines, errors, status = self.said_of(words)
            holds = not lines and all(it in errors for it in told) and status == 2
            self.check(words, holds, (lines, errors, status))

    def test_tried(self) -> None:
        """Of several transfers with the same request the pair is taken that alone goes together."""
        for client, server, words, numbers in TRIED:
            (self.folder / "client").write_bytes(file_of(asked_often(client)))
            (self.folder / "server").write_bytes(file_of(asked_often(server)))
            got = self.of_json(f"client server {words}")
            there = got[0].get("client", {}).get("number"), got[0].get("server", {}).get("number")
            holds = there == numbers and got[0]["together"]["matched"] and got[1:] == ("", 0)
            self.check(f"{client} {server} {words}", holds, got)
        for client, server, words, told in UNTRIED:
            (self.folder / "client").write_bytes(file_of(asked_often(client)))
            (self.folder / "server").write_bytes(file_of(asked_often(server)))
            lines, errors, status = self.said_of(f"client server {words}")
            holds = not lines and told in errors and "name one by --server-transfer" in errors and status == 2
            self.check(f"{client} {server} {words}", holds, (lines, errors, status))

    def test_tried_beside_a_text(self) -> None:
        """Of several transfers with the request of a text that is taken which alone goes together with it."""
        (self.folder / "client").write_bytes(file_of(asked_often("abb")))
        (self.folder / "server").write_bytes(text_of("server", b"aa"))
        got = self.of_json("client server")
        there = got[0]["client"]["number"], got[0]["together"]["matched"], got[2]
        self.check("the first", there == (1, True, 0), got)
        none = "client, server: none of the pairs with one request goes together: 1, 2, 3"
        several = "client, server: more than one of the pairs with one request goes together: 2, 3"
        for content, told in ((b"xx", none), (b"bb", several)):
            (self.folder / "server").write_bytes(text_of("server", content))
            lines, errors, status = self.said_of("client server")
            named = "client: transfers 1, 2, 3 have the request of server: name one by --transfer"
            self.check(told, not lines and told in errors and named in errors and status == 2, (lines, errors, status))
        (self.folder / "server").write_bytes(file_of(asked_often("xab")))
        (self.folder / "client").write_bytes(text_of("client", b"bb"))
        got = self.of_json("client server")
        there = got[0]["server"]["number"], got[0]["together"]["matched"], got[2]
        self.check("the third", there == (3, True, 0), got)

    def test_full(self) -> None:
        """Where the output fails, that is told by name, and the status is 2."""
        for end, text in zip(ENDS, read_of_two_bytes().texts()):
            (self.folder / end).write_bytes(text)
        words: tuple[str, ...]
        for words in ((), ("--json",), ("--counts",)):
            with open("/dev/full", "wb") as full:
                command = [self.program, *words, *(str(self.folder / end) for end in ENDS)]
                done = subprocess.run(command, stdout=full, stderr=subprocess.PIPE, timeout=60, check=False)
            told = done.stderr.decode()
            self.check(f"a full disk {words}", "tftp-match: standard output: " in told and done.returncode == 2, done)

    def test_in_json(self) -> None:
        """What is said in lines is said in JSON too."""
        texts = {"worked": read_of_two_bytes(), "changed": read_of_two_bytes(b"hj"), "ahead": ahead()}
        for name, both in texts.items():
            lines, _, status = self.texts_of(both)
            got, errors, ended = self.of_json("client server")
            told = [got["client"]["verdict"], got["server"]["verdict"], third_of(got)]
            self.check(f"{name} in JSON", told == lines and (errors, ended) == ("", status), (got, lines))
            named = [(got[end]["file"], got[end]["number"]) for end in ENDS]
            self.check(f"{name}, its files", named == [(end, None) for end in ENDS], got)
        client, server = read_of_two_bytes().texts()
        for text, wrong in ((client, "server"), (server, "client")):
            for end in ENDS:
                (self.folder / end).write_bytes(text)
            got, _, ended = self.of_json("client server")
            self.check(
                f"{wrong} WrongEnd", (got["fault"], got["together"], ended) == (f"{wrong} WrongEnd", None, 2), got
            )

    def test_counted(self) -> None:
        """With --counts a line for each packet, with how many copies were sent and taken, in JSON too."""
        asked, acked = "client request sent 1 taken 1", "client ACK 1 sent 1 taken 1"
        block = "server DATA 1 sent 1 taken 1"
        both = repeated(3, 1)
        both.put("client", ack(1), sent=1, taken=2)
        both.put("server", error(3, "full"), taken=0)
        strange = strayed()
        cases: tuple[tuple[str, Both, list[str]], ...] = (
            ("worked", read_of_two_bytes(), [asked, acked, block]),
            ("last byte changed", read_of_two_bytes(b"hj"), [asked, acked, block]),
            ("lost and repeated", both, [
                asked, "client ACK 1 sent 2 taken 3", "server ERROR sent 1 taken 0", "server DATA 1 sent 3 taken 1",
            ]),
            ("strays do not count", strange, [asked, acked, block]),
            ("a write", written(), [
                asked, "client DATA 1 sent 1 taken 1", "server OACK sent 1 taken 1", "server ACK 1 sent 1 taken 1",
            ]),
            ("windows", windowed(), [
                asked, *(f"client ACK {number} sent 1 taken 1" for number in (0, 4, 6)), "server OACK sent 1 taken 1",
                *(f"server DATA {number} sent 1 taken 1" for number in range(1, 7)),
            ]),
            ("a refused side", ahead(), [asked, "client ACK 1 sent 0 taken 1", block]),
        )
        for name, it, wanted in cases:
            lines, _, status = self.texts_of(it)
            got = self.said_of("client server", "--counts")
            self.check(f"{name}, counted", got == ([*lines, *wanted], "", status), (got, wanted))
            told = self.said_of("client server", "--counts", "--json")[0]
            counts = [of_json_count(count) for count in json.loads(told[0])["counts"]]
            self.check(f"{name}, counted in JSON", counts == wanted, (counts, wanted))
        plain = self.of_json("client server")[0]
        self.check("not asked for", plain["counts"] is None, plain)

    def texts_of(self, both: Both) -> tuple[list[str], str, int]:
        paths = [self.folder / end for end in ENDS]
        for path, text in zip(paths, both.texts()):
            path.write_bytes(text)
        return self.call([str(path) for path in paths])

    def test_words(self) -> None:
        self.tells("help", ["--help"], "<CLIENT> <SERVER>", 0)
        self.tells("version", ["--version"], f"tftp-match {VERSION}", 0)
        self.tells("one word", ["x"], "Usage:", 2)
        self.tells("both of standard input", ["-", "-"], "standard input", 2)
        self.tells("no file", [str(self.folder / "none"), "-"], "none: ", 2)

    def test_failing(self) -> None:
        """Each growth refused, and each read failing, in turn: all is said, or the status is 2 and each line that there
        is tells of it or is its own."""
        text, counts = read_of_two_bytes().texts(), ["client request", "client ACK 1", "server DATA 1"]
        (self.folder / "server").write_bytes(text[1])
        for turn, told in (("REFUSE", "fault memory"), ("FAIL_READ", "fault line [1-9][0-9]* Read")):
            self.fail_each((turn, told), (text[0], [], []))
            self.fail_each((turn, told), (text[0], ["--counts"], [f"{it} sent 1 taken 1" for it in counts]))

    def fail_each(self, how: tuple[str, str], asked: tuple[bytes, list[str], list[str]]) -> None:
        """The client's text on standard input, with further words, for which these lines come behind the third."""
        (turn, told), (given, words, counts) = how, asked
        line, met = re.compile(f"{READ}|{told}"), self.folder / "met"
        for number in range(1, 1000):
            met.unlink(missing_ok=True)
            setting = {**os.environ, "LD_PRELOAD": refusing(), "MET": str(met), turn: str(number)}
            command = [self.program, *words, "-", str(self.folder / "server")]
            done = subprocess.run(command, input=given, capture_output=True, env=setting, timeout=60, check=False)
            lines = done.stdout.decode().splitlines()
            is_whole = done.returncode == 0 and lines == [READ, READ, MATCHED, *counts]
            is_uncounted = done.returncode == 0 and lines == [READ, READ, "matched"] and turn == "REFUSE" and not words
            if not met.exists():
                self.check(f"{turn} {number} {words}", is_whole and number > 1, done)
                break
            holds = done.returncode == 2 and all(line.fullmatch(it) for it in lines) and len(lines) in (0, 2)
            self.check(f"{turn} {number} {words}", is_whole or is_uncounted or holds, done)

    def test_simulated(self) -> None:
        for seed in range(SEED, SEED + CASES):
            self.try_simulated(seed)

    def try_simulated(self, seed: int) -> None:
        """Both ends of a simulated transfer: whole, each cut somewhere, and one with another byte."""
        chance = Random(seed)
        meaning, wire = meaning_of(chance)
        transfer, spelling = Transfer(chance, meaning, wire), Spelling(chance, meaning, wire)
        transfer.run()
        client, server = (View(chance, meaning, wire, end, transfer.passed[end], spelling) for end in ENDS)
        paths = [self.folder / end for end in ENDS]

        def said(texts: tuple[bytes, bytes], *more: str) -> tuple[str, int]:
            for path, text in zip(paths, texts):
                path.write_bytes(text)
            output, errors, status = self.call([*more, *(str(path) for path in paths)])
            return "\n".join((*output[2:], errors)), status

        got = said((client.capture.spelled(chance), server.capture.spelled(chance)))
        self.check(f"both ends of {seed}", got == (f"{third((client.steps, server.steps))}\n", 0), got)
        output = said((client.capture.text(), server.capture.text()), "--counts")[0].splitlines()[1:]
        copies = copies_in((client.steps, server.steps))
        self.check(
            f"both ends of {seed}, counted", sorted(it for it in output if it) == sorted(copies), (output, copies)
        )
        counts = [chance.randrange(len(view.steps) + 1) for view in (client, server)]
        wanted = third((client.steps[: counts[0]], server.steps[: counts[1]]))
        got = said((client.capture.text(counts[0]), server.capture.text(counts[1])))
        self.check(
            f"{seed} cut to {counts}", got == (f"{wanted}\n", int(not wanted.startswith("matched"))), (got, wanted)
        )
        texts = [client.capture.text(), server.capture.text()]
        which = chance.randrange(2)
        texts[which] = changed(chance, (client, server)[which])
        if texts[which]:
            got = said((texts[0], texts[1]))
            self.check(f"{seed} changed", got[0].startswith("unmatched ") and got[1] == 1, got)
