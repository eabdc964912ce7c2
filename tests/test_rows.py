"""What the program that reads recordings says of them: lists, texts and verdicts.

The recordings of examples/ have the verdicts that they had when they were made; others are made here, with the rows
that they must have by the rules. Each growth of memory is refused in turn.
"""
from __future__ import annotations

import dataclasses
import itertools
import json
import os
import random
import shlex
import subprocess
from collections.abc import Iterator, Sequence
from typing import NamedTuple

import recorded
from captures import Packet, ack, data, error, oack, read_request, write_request
from checks import Checks
from judged import CAN_TAKE, Row, checked, row_of, said
from loopback import CASES, are_wanted, at_each_end, not_between
from made import (
    C_6, S_6, THIRD, C, S, asked_again, at, at_one_host, file_of, file_of_packets, framed, late_block, packets_of, read,
)
from programs import TRANSFERS, refusing
from recorded import Datagram, Fragment, Frame, Interface
from refusals import Rule, refusal
from repository import TOP

EXAMPLES = TOP / "examples"
LISTED = """number client server kind mode file options datagrams frames
1 192.0.2.1:34056 192.0.2.1:51973 get octet "boot.cfg" - 7 1-7
2 192.0.2.1:34056 192.0.2.1:54848 get octet "boot.cfg" - 7 8-14
3 192.0.2.1:34056 192.0.2.1:42245 get octet "missing.cfg" - 3 15-17; ended: server ERROR 1 "File not found" frame 16
4 192.0.2.1:34056 192.0.2.1:36322 get octet "whole.img" - 7 19-25
5 192.0.2.1:34056 192.0.2.1:60212 put octet "upload.log" - 10 26-35
"""
SOUND = "accepted get octet blocks 1 bytes 2"
WHOLE = Row(1, "between", None, SOUND)
ONE_WAY = "nothing that came to its client is there: one direction only"
FIRST_WORD = "its client spoke before anything came to it: the recording began later, it may be"
UNANSWERED = "nobody had answered for sure what its client asked for before: what comes may be the late answer"
LED_ASTRAY = "its client did not go on with who sent it something first"
UNPLACED = "it may have been recorded between its two ends: name the place with --end"
AT_CLIENT, AT_SERVER, BETWEEN = ("--end", "client"), ("--end", "server"), ("--end", "between")


def mixed(*transfers: list[Datagram]) -> list[Datagram]:
    """One datagram of each in turn."""
    return [it for each in itertools.zip_longest(*transfers) for it in each if it]


def twice(passed: list[Datagram], inside: str, outside: str) -> list[Datagram]:
    """Each datagram before and behind a router that writes another address in place of the client's."""

    def named(it: Datagram) -> Datagram:
        source, target = (outside if host == inside else host for host in (it.source, it.target))
        return dataclasses.replace(it, source=source, target=target)

    return [one for it in passed for one in ((it, named(it)) if it.source == inside else (named(it), it))]


def replaced(it: Datagram, port: int, by: int) -> Datagram:
    """A datagram with another port in place of the server's."""
    source, target = (by if one == port else one for one in (it.source_port, it.target_port))
    return dataclasses.replace(it, source_port=source, target_port=target)


def texts(program: str, passed: list[Datagram], *wanted: tuple[int, str]) -> list[list[str]]:
    """The datagrams of transfers' texts, without their payloads."""
    got = []
    for number, end in wanted:
        output = said(program, ["text", str(number), end, "-"], file_of(passed))[0]
        lines = [line for line in output.splitlines() if not line.startswith("#")]
        got.append([line.rsplit(" ", 1)[0] for line in lines[3:-1]])
    return got


def behind_error(host: str, code: int) -> list[Datagram]:
    """A request to which this ERROR comes, and a read behind it, whose client acknowledges a block too many."""
    request, *_ = read("a", 40_000, 41_000)
    asked, block, _ = read("b", 40_000, 42_000)
    stop, ahead = error(code, "no")[0], ack(7)[0]
    return [request, Datagram(host, 41_000, C, 40_000, stop), asked, block, Datagram(C, 40_000, S, 42_000, ahead)]


class Passing(NamedTuple):
    """What passed between the ends, the verdict there, and those at the ends where they are others."""

    name: str
    datagrams: list[Datagram]
    between: str
    at_client: str = ""
    at_server: str = ""
    doubts: tuple[str, ...] = ()


def from_client(*packets: Packet) -> list[Datagram]:
    """Packets to the server's port."""
    return [Datagram(C, 40_000, S, 41_000, payload) for payload, _ in packets]


def from_server(*packets: Packet) -> list[Datagram]:
    return [Datagram(S, 41_000, C, 40_000, payload) for payload, _ in packets]


def asking(packet: Packet) -> list[Datagram]:
    """A request to the service port."""
    return [Datagram(C, 40_000, S, 69, packet[0])]


def of_sending() -> Iterator[Passing]:
    """Against the order in which an end sends, which is seen at that end alone."""
    first, last, begun = data(1, b"." * 512), data(2, b"!"), asking(read_request("a", "octet"))
    two = "accepted get octet blocks 2 bytes 513"
    sized = asking(read_request("a", "octet", blksize=512)) + from_server(oack(blksize=512)) + from_client(ack(0))
    again = sized + from_server(first, oack(blksize=512)) + from_client(ack(1)) + from_server(last)
    again += from_client(ack(2))
    yield Passing("an OACK after a block", again, two, at_server=refusal(5, Rule.OACK_AFTER_START))
    wide = asking(read_request("a", "octet", windowsize=4)) + from_server(oack(windowsize=4)) + from_client(ack(0))
    three = wide + from_server(data(2, b"." * 512), first, data(3, b"!")) + from_client(ack(3))
    accepted, skipped = "accepted get octet blocks 3 bytes 1025", refusal(4, Rule.BLOCK_SKIPPED)
    yield Passing("a block before the one before it", three, accepted, at_server=skipped)
    back = refusal(5, Rule.GONE_BACK)
    yield Passing("a block again, late", late_block(), two, at_server=back)
    yield Passing("a block again, and no more", late_block()[:5], "incomplete after 5", at_server=back)
    written = asking(write_request("a", "octet")) + from_server(ack(0)) + from_client(first) + from_server(ack(1))
    written += from_client(last, first) + from_server(ack(2))
    back = refusal(6, Rule.GONE_BACK)
    yield Passing("a block of a write again, late", written, "accepted put octet blocks 2 bytes 513", at_client=back)
    overrun = refusal(3, Rule.WINDOW_OVERRUN)
    yield Passing("two blocks to one ACK", begun + from_server(first, last), overrun, doubts=(LED_ASTRAY,))
    changed = begun + from_server(first) + from_client(ack(1)) + from_server(data(1, b":" * 512))
    yield Passing("a changed block", changed, refusal(4, Rule.BLOCK_CHANGED))
    ahead = begun + from_server(first) + from_client(ack(3))
    yield Passing("an ACK of blocks that did not pass", ahead, refusal(3, Rule.ACK_AHEAD))
    unanswered = asking(write_request("a", "octet")) + from_server(error(1, "no")) + from_client(first)
    yield Passing("a block of a write to no answer", unanswered, refusal(3, Rule.NOT_STARTED))


def of_errors() -> Iterator[Passing]:
    """What an ERROR may overtake, and what answers nothing that had passed before it."""
    first, last, begun = data(1, b"." * 512), data(2, b"!"), asking(read_request("a", "octet"))
    no, full, gone = error(1, "no"), error(3, "full"), refusal(3, Rule.AFTER_ERROR)
    yield Passing("a missing file", begun + from_server(no, no), "aborted by server code 1", "aborted by peer code 1",
                  "aborted by local code 1")
    yield Passing("a second, other ERROR", begun + from_server(no, full), gone, doubts=(LED_ASTRAY,))
    stopped = begun + from_server(first) + from_client(full)
    yield Passing("a client that gives up", stopped, "aborted by client code 3", "aborted by local code 3",
                  "aborted by peer code 3")
    before = begun + from_server(no, data(1, b"hi")) + from_client(ack(1))
    yield Passing("a block from before the ERROR", before, SOUND, at_server=gone)
    ahead = begun + from_server(first) + from_client(ack(1), full) + from_server(last) + from_client(ack(2))
    after = refusal(6, Rule.AFTER_ERROR)
    yield Passing("an ACK of what passed after the ERROR", ahead, refusal(6, Rule.ACK_AHEAD), after,
                  refusal(6, Rule.ACK_AHEAD))
    acked = begun + from_server(no) + from_client(ack(1))
    yield Passing("an ACK of an ERROR", acked, refusal(3, Rule.ACK_AHEAD))
    over = begun + from_server(first, full) + from_client(ack(1)) + from_server(last)
    yield Passing("a block to an ACK from after the ERROR", over, refusal(5, Rule.WINDOW_OVERRUN),
                  at_server=refusal(5, Rule.AFTER_ERROR))


def of_strays() -> Iterator[Passing]:
    """What passes with another than the server."""
    request, block, answer = read("a", 40_000, 41_000)
    stray = Datagram(THIRD, 41_000, C, 40_000, data(1, b"x")[0])
    refused = Datagram(C, 40_000, THIRD, 41_000, error(5, "stray")[0])
    passed = [request, block, stray, refused, answer]
    yield Passing("a stray and an answer", passed, SOUND)
    asked = Datagram(S, 43_000, C, 40_000, data(1, b"ho")[0])
    yield Passing("the answer with which the client went on", [request, asked, block, answer], SOUND,
                  at_client=refusal(4, Rule.STRAY_ANSWER), doubts=(LED_ASTRAY,))


def depends(verdict: str, between: str) -> bool:
    """Whether what is said at an end is a refusal, and the same datagram is not refused between, or by rule 3, which a
    request may explain that did not pass."""
    number, there = verdict.split()[:3], between.split()[:3]
    return number[0] == "refused" and (number != there or f"rule {Rule.STRAY_ANSWER.number} " in between)


def broken_pipe() -> int:
    """A pipe that nobody reads."""
    ours, theirs = os.pipe()
    os.close(ours)
    return theirs


def is_kept(line: str, right: str, told: str) -> bool:
    """A line that stands where nothing is refused, or tells of memory, or says of one end what is right of both: the
    other end's line then tells of memory. Or a refusal at the ends that accuses nobody, where the line of what is said
    between them tells of memory."""
    both = line.replace('"place":"client"', '"place":"both"').replace('"place":"server"', '"place":"both"')
    unsaid = '"place":"between","frame":null,"verdict":"fault memory"' in told and UNPLACED in line
    return line in right or both in right or "memory" in line or unsaid and both.partition('"accused"')[0] in right


class Rows(Checks):
    """The lists, texts and verdicts of recordings."""

    needs = (TRANSFERS,)
    program = TRANSFERS.path

    def test_examples(self) -> None:
        for case in CASES:
            recording = EXAMPLES / f"loopback-{case.name}.pcap"
            at_ends = at_each_end(self.program, recording)
            self.check(f"{case.name}, the verdicts", are_wanted(case, at_ends), at_ends)
            for (rows, _, _), end in zip(at_ends, ("client", "server")):
                self.check(f"{case.name}, the place {end}", {row.place for row in rows} == {end}, rows)
            rows, told, status = checked(self.program, recording.read_bytes())
            is_bad = any(not row.verdict.startswith("accepted") for row in rows)
            holds = len(rows) == len(case.verdicts) and status == is_bad and not told
            self.check(f"{case.name}, where no end is named", holds, (rows, told, status))
        for recording in sorted(EXAMPLES.glob("*.pcap")):
            other = not_between(self.program, recording)
            self.check(f"{recording.name}, accepted between the ends", not other, other)
        session = EXAMPLES / "loopback-session.pcap"
        output, _, status = said(self.program, [str(session)], b"")
        listed = "".join(" ".join(line.split()) + "\n" for line in output.splitlines())
        self.check("the list of a session", (listed, status) == (LISTED, 0), output)
        output, _, _ = said(self.program, ["list", "--json", str(session)], b"")
        first = json.loads(output.splitlines()[0])
        wanted = {"number": 1, "client": "192.0.2.1:34056", "server": "192.0.2.1:51973", "kind": "get", "mode": "octet"}
        wanted |= {"file": '"boot.cfg"', "options": "-", "datagrams": 7, "first_frame": 1, "last_frame": 7}
        del first["ended"], first["times"]
        self.check("the list of a session in JSON", first == wanted, first)
        rows, _, status = checked(self.program, session.read_bytes())
        frames = [(row.place, row.frame) for row in rows]
        self.check("both ends at one host", frames == [("both", 17 if row.number == 3 else None) for row in rows], rows)
        rows, _, status = checked(self.program, session.read_bytes(), *AT_CLIENT)
        wanted_row = Row(3, "client", 17, refusal(3, Rule.ACK_AHEAD))
        self.check("the frame of a refused datagram", rows[2] == wanted_row and status == 1, rows)
        output, _, status = said(self.program, ["text", "3", "client", str(session)], b"")
        lines = output.splitlines()
        self.check("a text's header", lines[:3] == ["tftp-capture 2", "end client", "service 69"], lines[:4])
        self.check("which transfer a text is of", lines[3].startswith("# transfer 3 of '"), lines[:4])
        named = [line.split()[2] for line in lines if line.startswith("# frame ")]
        self.check("a text's frames", named == ["15", "16", "17"] and status == 0, named)

    def test_texts(self) -> None:
        """The texts of all transfers are those of each, one after the other."""
        late = EXAMPLES / "loopback-began-late.pcap"
        for recording in sorted({*EXAMPLES.glob("*.pcap")} - {late}):
            count = said(self.program, [str(recording)], b"")[0].count("\n") - 1
            for end in ("client", "server"):
                each = [
                    said(self.program, ["text", str(number), end, str(recording)], b"")
                    for number in range(1, count + 1)
                ]
                wanted = "".join(output for output, _, _ in each), "", 0
                got = said(self.program, ["texts", end, str(recording)], b"")
                self.check(f"{recording.name}, all texts at the {end}", got == wanted and count > 0, got)
        output, told, status = said(self.program, ["texts", "client", str(late)], b"")
        holds = output == "" and "began before the recording" in told and status == 0
        self.check("a recording that began late has no texts", holds, (output, told, status))
        got = said(self.program, ["texts", "client", "-"], file_of([]))
        told = "tftp-transfers: -: no request passed, so there is no transfer\n"
        self.check("no transfers, no texts", got == ("", told, 0), got)
        request = Datagram(C, 40_000, S, 6969, read_request("a", "octet")[0][:-1])
        other = file_of([request])
        got = said(self.program, ["texts", "client", "-"], other)
        self.check(
            "another service port, no texts", got[0] == "" and "to port 6969: name" in got[1] and got[2] == 0, got
        )
        frames = framed(packets_of([*read("a", 40_000, 41_000), *read("b", 40_001, 41_001, (THIRD, S))]))
        frames[-2].original, frames[-2].content = len(frames[-2].content), frames[-2].content[:-1]
        output, told, status = said(
            self.program, ["texts", "client", "-"], recorded.pcap(frames, is_nano=True, snaplen=96)
        )
        holds = "# transfer 1 of" in output and "# transfer 2 of" not in output
        holds = holds and "transfer 2: nothing is written" in told
        self.check("texts beside a transfer that is cut", holds and status == 2, (output, told, status))

    def test_links(self) -> None:
        """One transfer in frames of each link type, in each format: what carries it changes nothing."""
        chance, times = random.Random(1), [0.0, 0.1, 0.2]
        four, six = read("a", 40_000, 41_000), read("a", 40_000, 41_000, (C_6, S_6))
        kinds: tuple[tuple[str, int, tuple[int, ...]], ...] = ()
        kinds += (("none", recorded.ETHERNET, ()), ("VLAN", recorded.ETHERNET, recorded.TAGGED[1]))
        kinds += (("QinQ", recorded.ETHERNET, recorded.TAGGED[2]), ("cooked v1", recorded.COOKED, ()))
        kinds += (("cooked v2", recorded.COOKED_2, ()), ("raw", recorded.RAW, ()), ("NULL", recorded.NULL, ()))
        kinds += (("LOOP", recorded.LOOP, ()),)
        for name, link, tags in kinds:
            for passed in (four, six):
                carried = [recorded.carried(link, it, chance, "unknown", None, tags) for it in packets_of(passed)]
                for order, is_nano in itertools.product("<>", (False, True)):
                    got = checked(self.program, recorded.pcap(framed(carried, times, link), order, is_nano))
                    self.check(f"{name}, {order}, nanoseconds {is_nano}", got == ([WHOLE], "", 0), got)
        interfaces = [Interface(recorded.ETHERNET, 9), Interface(recorded.RAW, 9)]
        for order in "<>":
            blocks: list[tuple[int, recorded.Block]] = []
            for place, (packet, time) in enumerate(zip(packets_of(four), times)):
                link = interfaces[place % 2].link
                content = recorded.carried(link, packet, chance, "unknown", None, ())
                blocks.append((place % 2, Frame(link, content, at(time))))
            got = checked(self.program, recorded.section(order, interfaces, blocks, chance))
            self.check(f"pcapng of two interfaces in nanoseconds, {order}", got == ([WHOLE], "", 0), got)
        kinds_6 = (recorded.HOP_BY_HOP, recorded.ROUTING, recorded.DESTINATION)
        got = checked(self.program, file_of_packets([recorded.ipv6(it, recorded.udp(it), kinds=kinds_6) for it in six]))
        self.check("IPv6 with extension headers", got == ([WHOLE], "", 0), got)

    def test_fragments(self) -> None:
        """A block in fragments, in any order, one that is not there, and one of ICMP in between."""
        sound = dataclasses.replace(WHOLE, verdict=SOUND.replace(" 2", " 511"))
        for hosts in ((C, S), (C_6, S_6)):
            request, block, answer = passed = read("a", 40_000, 41_000, hosts, content=b"." * 511)
            parts = recorded.parts_of(recorded.udp(block), 200, 9)
            is_four = block.version == 4
            pieces = [
                recorded.ipv4(block, content, part=part) if is_four else recorded.ipv6(block, content, part=part)
                for part, content in parts
            ]
            first, _, last = packets_of(passed)
            for order in itertools.permutations(pieces):
                got = checked(self.program, file_of_packets([first, *order, last]))
                self.check(f"fragments from {block.source}, {len(order)}", got == ([sound], "", 0), got)
            # Without block 1 the client acknowledges at a port from which nothing came.
            got = checked(self.program, file_of_packets([first, *pieces[:2], last]), *AT_CLIENT)
            doubts = FIRST_WORD, ONE_WAY, "frame 2 is not there whole"
            wanted = Row(1, "client", 4, refusal(2, Rule.WRONG_PORT), doubts)
            holds = (got[0], got[2]) == ([wanted], 2) and "2 datagrams not there whole" in got[1]
            self.check(f"a lost fragment from {block.source}", holds, got)
        passed = read("a", 40_000, 41_000)
        ping = recorded.ipv4(passed[1], bytes(64), recorded.ICMP, Fragment(9, 0, True))
        packets = packets_of(passed)
        got = checked(self.program, file_of_packets([packets[0], ping, *packets[1:]]))
        self.check("a fragment of ICMP in between", got == ([WHOLE], "", 0), got)

    def test_losses(self) -> None:
        """Frames that were cut."""
        passed = read("a", 40_000, 41_000, content=b"." * 300)
        frames = framed(packets_of(passed))
        for it in frames:
            it.original, it.content = len(it.content), it.content[:96]
        got = checked(self.program, recorded.pcap(frames, is_nano=True, snaplen=96), *AT_CLIENT)
        doubts = FIRST_WORD, ONE_WAY, "frame 2 is not there whole"
        wanted = Row(1, "client", 3, refusal(2, Rule.WRONG_PORT), doubts)
        self.check("a recording with a small snaplen", (got[0], got[2]) == ([wanted], 2) and "(frame 2)" in got[1], got)
        given = recorded.pcap(frames, is_nano=True)
        output, told, status = said(self.program, ["text", "1", "client", "-"], given)
        self.check("no text of what is cut", output == "" and "not whole" in told and status == 2, (output, told))
        output, told, status = said(self.program, ["-"], given)
        holds = output.count("\n") == 2 and "1 datagram not there whole" in told and status == 2
        self.check("what is cut, listed", holds, (output, told, status))

    def test_cut(self) -> None:
        """A recording that ends within its last packet."""
        whole = file_of(read("a", 40_000, 41_000))
        output, told, status = said(self.program, ["-"], whole[:-2])
        holds = output.count("\n") == 2 and "frame 3: the rec" in told and status == 2
        self.check("a cut last packet, listed", holds, (output, told, status))
        output, told, status = said(self.program, ["text", "1", "client", "-"], whole[:-2])
        holds = output == "" and "frame 3: the rec" in told and "not whole" in told and status == 2
        self.check("a cut last packet, no text", holds, (output, told, status))
        got = checked(self.program, whole[:-2], *AT_CLIENT)
        holds = (got[0], got[2]) == ([Row(1, "client", None, "incomplete after 2")], 2) and "frame 3: the rec" in got[1]
        self.check("a cut last packet", holds, got)

    def test_order(self) -> None:
        """Times that go back, and what passes before and behind a transfer."""
        got = checked(self.program, file_of(read("a", 40_000, 41_000), [0.0, 0.2, 0.1]), *AT_CLIENT)
        holds = got[0] == [Row(1, "client", None, SOUND)] and "(frame 3)" in got[1] and "reordercap" in got[1]
        self.check("times that go back", holds, got)
        ahead = [*read("a", 40_000, 41_000)[:2], Datagram(C, 40_000, S, 41_000, ack(3)[0])]
        got = checked(self.program, file_of(ahead, [0.0, 0.2, 0.1]), *AT_CLIENT)
        reasons = [row.doubts for row in got[0]]
        self.check(
            "refused where times go back", reasons == [("its datagrams are not in the order of their times",)], got
        )
        elsewhere = [*read("a", 40_000, 41_000), Datagram(C, 40_000, "192.0.2.53", 53, b"\x12\x34\x01\x00")]
        got = checked(self.program, file_of(elsewhere, [0.0, 0.1, 0.2, 400.0]))
        holds = got[2] == 0 and "1 datagram of UDP of no transfer (frame 4)" in got[1]
        self.check("a datagram of no transfer", holds, got)
        before = Datagram(S, 41_000, C, 40_000, data(9, b"old")[0])
        got = checked(self.program, file_of([before, *read("a", 40_000, 41_000)]))
        told = "tftp-transfers: -: 1 datagram of UDP of no transfer (frame 1)\n"
        self.check("what came before the request", got == ([WHOLE], told, 0), got)

    def test_layers(self) -> None:
        """Datagrams that were recorded twice, and tunnels, which are looked into but at another port of UDP."""
        passed, twofold = read("a", 40_000, 41_000), "each of its datagrams stands beside its equal: recorded twice"
        got = checked(self.program, file_of([it for it in passed for _ in (0, 1)]))
        self.check("each twice", (got[0], got[2]) == ([WHOLE], 0), got)
        ahead = [*late_block()[:2], Datagram(C, 40_000, S, 41_000, ack(3)[0])]
        rows, _, status = checked(self.program, file_of([it for it in ahead for _ in (0, 1)]), *AT_CLIENT)
        verdicts = [(row.verdict, twofold in row.doubts) for row in rows]
        self.check("each twice, refused", (verdicts, status) == ([(refusal(5, Rule.ACK_AHEAD), True)], 1), rows)
        router = Datagram("192.0.2.53", 5000, "192.0.2.54", 4789, b"")
        # the header of VXLAN, and that of Ethernet
        head = bytes((8, 0, 0, 0, 0, 0, 5, 0)) + b"\2\0\0\0\0\1\2\0\0\0\0\2\x08\0"
        wrapped = [dataclasses.replace(router, payload=head + packet) for packet in packets_of(passed)]
        of_none = "tftp-transfers: -: 3 datagrams of UDP of no transfer (frames 1, 2, 3)\n"
        nothing = "tftp-transfers: -: no request passed, so there is no transfer\n"
        elsewhere = [dataclasses.replace(it, target_port=8472) for it in wrapped]
        got = checked(self.program, file_of_packets(packets_of(elsewhere)))
        self.check("in VXLAN at another port", got == ([], of_none + nothing, 3), got)
        # to the port of VXLAN from that of the server: a transfer as any other
        got = checked(self.program, file_of(read("a", 4789, 6081)))
        self.check("between the ports of tunnels", got == ([WHOLE], "", 0), got)
        for name, packets in (
            ("VXLAN", packets_of(wrapped)),
            ("IP in IP", [recorded.ipv4(router, packet, 4) for packet in packets_of(passed)]),
            ("GRE", [recorded.ipv4(router, b"\0\0\x08\0" + packet, 47) for packet in packets_of(passed)]),
        ):
            got = checked(self.program, file_of_packets(packets))
            self.check(f"in {name}", got == ([WHOLE], "", 0), got)

    def test_sessions(self) -> None:
        """Many transfers in one recording, each with its row."""
        first, last = data(1, b"." * 512)[0], data(2, b"!")[0]
        out, back = (C, 40_000, S, 41_000), (S, 41_000, C, 40_000)
        reset = [read("a", 40_000, 41_000)[0], Datagram(*back, first), Datagram(*out, ack(1)[0]), Datagram(*back, last)]
        again = [replaced(it, 41_000, 42_000) for it in [*reset, Datagram(*out, ack(2)[0])]]
        hours = [hour * 3600 + step / 10 for hour in range(3) for step in range(3)]
        sound = [dataclasses.replace(WHOLE, number=number) for number in (1, 2, 3)]
        other = (THIRD, S)
        cases: tuple[tuple[str, list[Datagram], Sequence[float], list[Row]], ...] = (
            (
                "two clients on one port", mixed(read("a", 40_000, 41_000), read("a", 40_000, 42_000, other)), (),
                sound[:2],
            ),
            ("a client's port again", read("a", 40_000, 41_000) + read("b", 40_000, 42_000), (), sound[:2]),
            ("one file twice, of one port", read("a", 40_000, 41_000) * 2, (), sound[:2]),
            ("a server on 69", read("a", 40_000, 69) + read("b", 40_001, 69), (), sound[:2]),
            ("other service ports", read("a", 40_000, 41_000, service=6969), (), sound[:1]),
            ("before and behind NAT", twice(read("a", 40_000, 41_000), C, "198.51.100.1"), (), sound[:2]),
            ("boots hours apart", read("a", 40_000, 41_000) * 3, hours, sound),
            (
                "a reset in mid-boot, and the same request", reset + again, (),
                [Row(1, "between", None, "incomplete after 4"),
                 Row(2, "between", None, "accepted get octet blocks 2 bytes 513")],
            ),
        )
        for name, passed, times, rows in cases:
            got = checked(self.program, file_of(passed, times))
            status = int(any(row != WHOLE and not row.verdict.startswith("accepted") for row in rows))
            self.check(name, got == (rows, "", status), got)

    def test_live(self) -> None:
        """A row comes as soon as it is final, while the recording goes on."""
        given = file_of([*read("a", 40_000, 41_000), *read("b", 40_001, 42_000)], [0.0, 0.1, 0.2, 400.0, 400.1, 400.2])
        words = [self.program, "check", "--json", "-"]
        with subprocess.Popen(words, stdin=subprocess.PIPE, stdout=subprocess.PIPE) as running:
            assert running.stdin and running.stdout
            running.stdin.write(given[:-1])
            running.stdin.flush()
            row = row_of(running.stdout.readline().decode())
            self.check("a row while the recording goes on", row == WHOLE and running.poll() is None, row)
            running.stdin.write(given[-1:])
            running.stdin.close()
            rest = [row_of(line.decode()) for line in running.stdout]
        holds = rest == [dataclasses.replace(WHOLE, number=2)] and running.returncode == 0
        self.check("the last row at the end", holds, rest)

    def test_splitting(self) -> None:
        """One port for transfer after transfer, strays, late datagrams, two answers, and a server on the service
        port."""
        two = read("a", 40_000, 41_000) + read("a", 40_000, 42_000)
        first = [f"out 40000 {S} 69", f"in 40000 {S} 41000", f"out 40000 {S} 41000"]
        second = [line.replace("41000", "42000") for line in first]
        got = texts(self.program, [*two[:4], two[1], *two[4:]], (1, "client"), (2, "client"))
        wanted = [first, [second[0], first[1], *second[1:]]]
        self.check("a block 1 that may be the next answer", got == wanted, got)
        got = texts(self.program, [*two[:4], two[2], *two[4:]], (1, "client"), (2, "client"))
        self.check("what is no answer stays with its transfer", got == [[*first, first[2]], second], got)
        got = texts(self.program, [two[0], *two[:3]], (1, "client"))
        self.check("a repeated request begins no transfer", got == [[first[0], *first]], got)
        got = texts(self.program, [*two[:2], *two[:3]], (1, "server"), (2, "server"))
        begun = [f"in 69 {C} 40000", f"out 41000 {C} 40000"]
        wanted = [begun, [*begun, f"in 41000 {C} 40000"]]
        self.check("a request that comes again after a block", got == wanted, got)
        output, told, status = said(self.program, ["-"], file_of([two[0], *read("b", 40_000, 41_000)]))
        listed = output.count("\n"), told, status
        self.check("another request begins another transfer", listed == (3, "", 0), output)
        stray = Datagram(THIRD, 41_000, C, 40_000, data(1, b"x")[0])
        answer, at_server = (Datagram(C, 40_000, THIRD, 41_000, error(5, "stray")[0]),
                             Datagram(THIRD, 40_000, S, 41_000, ack(1)[0]))
        got = texts(self.program, [*two[:2], stray, answer, at_server, two[2]], (1, "client"), (1, "server"))
        wanted = [[*first[:2], f"in 40000 {THIRD} 41000", f"out 40000 {THIRD} 41000", first[2]]]
        wanted.append([f"in 69 {C} 40000", f"out 41000 {C} 40000", f"in 41000 {THIRD} 40000", f"in 41000 {C} 40000"])
        self.check("strays at both ends", got == wanted, got)
        other = Datagram(S, 43_000, C, 40_000, data(1, b"hi")[0])
        refused = Datagram(C, 40_000, S, 43_000, error(5, "other")[0])
        got = texts(self.program, [two[0], two[1], other, refused, two[2]], (1, "server"))
        self.check("the answer with which the client went on", got == [[wanted[1][0], wanted[1][1], wanted[1][3]]], got)
        got = texts(self.program, read("a", 40_000, 69), (1, "server"))
        wanted = [[f"in 69 {C} 40000", f"out 69 {C} 40000", f"in 69 {C} 40000"]]
        self.check("a server on the service port", got == wanted, got)

    def test_doubts(self) -> None:
        """A refusal that the recording does not carry is doubtful, with the reason, and its status is 1."""
        late = late_block()
        sound, unsound = "accepted get octet blocks 2 bytes 513", refusal(5, Rule.GONE_BACK)
        again = "its client had asked the same and sent nothing else since: the transfer before goes on"
        overrun, incomplete = refusal(2, Rule.WINDOW_OVERRUN), "incomplete after 3"
        cases: tuple[tuple[str, list[Datagram], tuple[str, ...], list[Row], int], ...] = (
            ("refused at the end that is named", late, AT_SERVER, [Row(1, "server", 5, unsound)], 1),
            ("accepted at the end that is named", late, AT_CLIENT, [Row(1, "client", None, sound)], 0),
            (
                "both ends at one address", at_one_host(late), (),
                [
                    Row(1, "client", None, sound), Row(1, "server", 5, unsound, (UNPLACED,)),
                    Row(1, "between", None, sound),
                ],
                1,
            ),
            (
                "both ends inside one host", at_one_host(late, "127.0.0.1"), (),
                [Row(1, "client", None, sound), Row(1, "server", 5, unsound)], 1,
            ),
            ("one host, between", at_one_host(late), BETWEEN, [Row(1, "between", None, sound)], 0),
            (
                "the same request again", asked_again(), AT_CLIENT,
                [Row(1, "client", None, incomplete), Row(2, "client", 4, overrun, (UNANSWERED, again, LED_ASTRAY))], 1,
            ),
            (
                "the same request again, between", asked_again(), (),
                [Row(1, "between", None, incomplete), Row(2, "between", 4, overrun, (UNANSWERED, again, LED_ASTRAY))], 1,
            ),
        )
        for name, passed, words, rows, status in cases:
            got = checked(self.program, file_of(passed), *words)
            self.check(name, (got[0], got[2]) == (rows, status), got)
        for host, code, doubts in ((S, 1, ()), (THIRD, 1, (UNANSWERED,)), (S, 0, (UNANSWERED,)), (S, 5, (UNANSWERED,))):
            row = checked(self.program, file_of(behind_error(host, code)), *AT_CLIENT)[0][1]
            self.check(f"behind ERROR {code} of {host}", (row.frame, row.doubts) == (5, doubts), row)
        rows = checked(self.program, file_of(late[:5]), *AT_SERVER)[0]
        self.check("the frame of a refusal at the server", rows == [Row(1, "server", 5, unsound)], rows)
        rows = checked(self.program, file_of([*late[:2], late[3]]), *AT_SERVER)[0]
        holds = [(row.frame, row.verdict) for row in rows] == [(3, refusal(3, Rule.WINDOW_OVERRUN))]
        self.check("the frame of a refusal before the client goes on", holds, rows)

    def test_between(self) -> None:
        """The verdict between the ends, where that is named and where no place is, beside those of the ends; and the
        datagram that is refused is the one with this number in the client's text."""
        for it in (*of_sending(), *of_errors(), *of_strays()):
            given = file_of(it.datagrams)
            cases = (BETWEEN, it.between), ((), it.between), (AT_CLIENT, it.at_client), (AT_SERVER, it.at_server)
            for words, wanted in cases:
                verdict = wanted or it.between
                place = words[1] if words else "between"
                frame = int(verdict.split()[2]) if verdict.startswith("refused") else None
                got = checked(self.program, given, *words)
                doubts = it.doubts if frame else ()
                rows, status = [Row(1, place, frame, verdict, doubts)], int(not verdict.startswith("accepted"))
                self.check(f"{it.name}, {' '.join(words) or 'no end'}", got == (rows, "", status), got)
        passed = [Datagram("192.0.2.53", 1234, "192.0.2.54", 53, b"?"), *late_block()[:2]]
        passed += [dataclasses.replace(passed[0], payload=b"!"), *from_client(ack(3))]
        rows = checked(self.program, file_of(passed), *BETWEEN)[0]
        text = said(self.program, ["text", "1", "client", "-"], file_of(passed))[0]
        frames = [int(line.split()[2]) for line in text.splitlines() if line.startswith("# frame ")]
        holds = rows == [Row(1, "between", frames[2], refusal(3, Rule.ACK_AHEAD))] and frames == [2, 3, 5]
        self.check("the number in the client's text", holds, (rows, frames))
        late = late_block()
        rows = checked(self.program, file_of([*late[:3], late[0], late[3], late[5]]))[0]
        verdicts = [(row.place, row.verdict) for row in rows]
        two = [("between", "accepted get octet blocks 2 bytes 513"), ("between", "incomplete after 1")]
        self.check("a request again, late, begins another transfer", verdicts == two, rows)

    def test_one_address(self) -> None:
        """Where both ends have one address and no place is named, a refusal at an end accuses only if the same datagram
        is refused between the ends too; where it is not, what is said there has a row. Inside a host each refusal
        accuses."""
        for it in (*of_sending(), *of_errors()):
            at_ends = [("client", it.at_client or it.between), ("server", it.at_server or it.between)]
            is_both = at_ends[0][1] == at_ends[1][1] and not at_ends[0][1].startswith("aborted")
            told = [("both", at_ends[0][1])] if is_both else at_ends
            open_ones = [depends(verdict, it.between) for _, verdict in told]
            placed = [(*one, one_is_open) for one, one_is_open in zip(told, open_ones)]
            if any(open_ones):
                placed.append(("between", it.between, False))
            for host, wanted in ((S, placed), ("127.0.0.1", [(*one, False) for one in told])):
                rows, _, _ = checked(self.program, file_of(at_one_host(it.datagrams, host)))
                got = [(row.place, row.verdict, UNPLACED in row.doubts) for row in rows]
                self.check(f"{it.name}, both ends at {host}", got == wanted, (rows, wanted))

    def test_accused(self) -> None:
        """A refusal names the end that sent the refused datagram; a doubtful one, and a stranger's, names nobody."""
        begun = late_block()[:2]
        changed = begun + from_client(ack(1)) + from_server(data(1, b":" * 512))
        stranger = Datagram(THIRD, 41_000, C, 40_000, b"junk")
        unanswered = [Datagram(C, 40_000, S, 69, read_request("a", "octet")[0][:-1])]
        strays = [begun[0], stranger, *read("a", 40_000, 41_000)[1:]]
        cases: tuple[tuple[str, list[Datagram], tuple[str, ...], str], ...] = (
            ("a client", begun + from_client(ack(3)), (), "client 192.0.2.7:40000"),
            ("a client, at the server", begun + from_client(ack(3)), AT_SERVER, "client 192.0.2.7:40000"),
            ("a server", changed, (), "server 192.0.2.1:41000"),
            ("a server, at the client", changed, AT_CLIENT, "server 192.0.2.1:41000"),
            ("a client that asks wrongly, and is not answered", unanswered, (), "client 192.0.2.7:40000"),
            ("nobody, where nothing is refused", read("a", 40_000, 41_000), (), ""),
            ("nobody, where a stranger sent it", strays, AT_CLIENT, ""),
            ("nobody, where it is doubtful", asked_again(), (), ""),
        )
        for name, passed, words, wanted in cases:
            rows = checked(self.program, file_of(passed), *words)[0]
            self.check(f"{name} is accused", [row.accused for row in rows][-1] == wanted, rows)
        strangers = checked(self.program, file_of(strays), *AT_CLIENT)[0][0]
        why = "neither its client nor its server sent the datagram"
        self.check("a stranger's datagram", strangers.doubts == (why, LED_ASTRAY) and strangers.frame == 2, strangers)
        six = read("a", 40_000, 41_000, (C_6, S_6))[:2] + [Datagram(C_6, 40_000, S_6, 41_000, ack(3)[0])]
        table = said(self.program, ["check", "-"], file_of(six))[0]
        cells = [" ".join(line.split()) for line in table.splitlines()]
        listed = ["file number place frame accused verdict"]
        ahead = f"{refusal(3, Rule.ACK_AHEAD)}, whatever is missing except a request"
        listed.append(f"- 1 between 3 client [{C_6}]:40000 {ahead}")
        self.check("who is accused, in the table", cells == listed, table)
        output = said(self.program, ["check", "--json", "-"], file_of(six))[0]
        accused = {"role": "client", "host": C_6, "port": 40_000}
        self.check("who is accused, in JSON", json.loads(output)["accused"] == accused, output)

    def test_final(self) -> None:
        """Whatever passes later, a row is the same: of a fragment that waits in vain, of one that comes in the end, and
        of a frame that is cut."""
        request, block, answer = read("a", 40_000, 41_000, content=b"." * 511)
        parts = recorded.parts_of(recorded.udp(block), 400, 9)
        one, other = [recorded.ipv4(block, content, part=part) for part, content in parts]
        first, _, last = packets_of([request, block, answer])
        later = packets_of([*read("b", 50_000, 51_000, (THIRD, S))] * 3)
        cases: tuple[tuple[str, list[tuple[bytes, float]]], ...] = (
            ("a fragment waits in vain", [(first, 0.0), (one, 0.1), (last, 0.2)]),
            ("a fragment waits after the end", [(first, 0.0), (one, 299.0)]),
            ("a fragment comes after the end", [(first, 0.0), (one, 299.0), (other, 301.0)]),
            ("a frame is cut after the end", [(first, 0.0), (last[:-4], 700.0)]),
        )
        for name, passed in cases:
            told = set()
            for times in ((), (400.0,), (800.0, 801.0), (302.0, 303.0, 331.0), (331.0, 332.0, 900.0)):
                behind = [(packet, time) for packet, time in zip(later, times) if time >= passed[-1][1]]
                whole = [*passed, *behind]
                frames = framed([packet for packet, _ in whole], [time for _, time in whole])
                for frame in frames:
                    frame.original = len(frame.content) + 4 if frame.content == last[:-4] else None
                told.add(checked(self.program, recorded.pcap(frames, is_nano=True))[0][0])
            self.check(f"{name}, whatever passes later", len(told) == 1, told)

    def test_dropped(self) -> None:
        """Packets that the recorder dropped, as it says at the end of a recording in blocks, make each refusal
        doubtful, also that of a transfer that was over long before; they change nothing of what is accepted."""
        passed = [*late_block()[:2], *from_client(ack(3)), *read("b", 50_000, 51_000, (THIRD, S))]
        frames = framed(packets_of(passed), [0.0, 0.1, 0.2, 400.0, 400.1, 400.2])
        interfaces, chance = [Interface(recorded.RAW, 9)], random.Random(1)
        for order, (count, told) in itertools.product("<>", ((0, ""), (1, "1 packet"), (20, "20 packets"))):
            counted = recorded.statistics(order, 0, (recorded.IF_DROP, count))
            blocks: list[tuple[int, recorded.Block]] = [(0, frame) for frame in frames]
            given = recorded.section(order, interfaces, [*blocks, (0, counted)], chance)
            rows, beside, status = checked(self.program, given)
            doubts = (f"the recorder lost {told}",) if count else ()
            wanted = [Row(1, "between", 3, refusal(3, Rule.ACK_AHEAD), doubts), dataclasses.replace(WHOLE, number=2)]
            is_told = all(doubt in beside for doubt in doubts) and bool(beside) == bool(count)
            self.check(f"{count} packets dropped, {order}", rows == wanted and is_told and status == 1, (rows, beside))

    def test_words(self) -> None:
        given = file_of(read("a", 40_000, 41_000))
        cases: tuple[tuple[str, list[str], bytes, str], ...] = (
            ("no such file", ["/no/such/file"], b"", "tftp-transfers: "),
            (
                "no such transfer", ["text", "2", "client", "-"], given,
                "there is no transfer 2: the recording has 1 to 1",
            ),
            ("an empty file", ["check", "-"], b"", "no recording: the file is empty"),
            (
                "a text", ["-"], b"tftp-capture 1\nend client\n",
                "no recording: this is a capture text: tftp-audit check",
            ),
            ("a file of gzip", ["check", "-"], b"\x1f\x8b\x08\0" + bytes(40), "gunzip it first"),
            ("a program", ["-"], b"\x7fELF\2\1\1" + bytes(60), "no recording: it is a program"),
            ("zeros", ["-"], bytes(64), "no recording\n"),
            ("three bytes", ["-"], b"\xd4\xc3\xb2", "no recording\n"),
            ("a file of words", ["-"], b"no recording at all\n" * 9, "no recording\n"),
            ("texts at no end", ["texts", "-"], given, "possible values: client, server"),
            ("texts in JSON", ["texts", "--json", "client", "-"], given, "Usage"),
            ("texts of a transfer", ["texts", "1", "client", "-"], given, "possible values: client, server"),
            ("no words", [], b"", "Usage"),
            ("a number behind the file", ["-", "1"], given, "Usage"),
            ("a number and an end behind the file", ["-", "1", "client"], given, "Usage"),
            ("an end that a list has not", ["--end", "client", "-"], given, "Usage"),
            ("a text of no end", ["text", "1", "peer", "-"], given, "peer"),
            ("a text between the ends", ["text", "1", "between", "-"], given, "between"),
            ("a text of no number", ["text", "0", "client", "-"], given, "N"),
            ("a port 0", ["--service", "0", "-"], given, "--service"),
            ("an end that is none", ["check", "--end", "peer", "-"], given, "peer"),
        )
        for name, words, input_, told in cases:
            got = said(self.program, words, input_)
            self.check(name, got[0] == "" and told in got[1] and got[2] == 2, got)
        output, told, status = said(self.program, ["--help"], b"")
        self.check("the help", (told, status) == ("", 0) and output.startswith("From a recording"), output)

    def test_services(self) -> None:
        """Another service port, and a file that is missing."""
        request = Datagram(C, 40_000, S, 6969, read_request("a", "octet")[0][:-1])
        listed = said(
            self.program, ["-"], file_of([dataclasses.replace(request, payload=read_request("a", "octet")[0])])
        )
        self.check("another service port, found", " 192.0.2.1:6969 " in listed[0] and listed[1:] == ("", 0), listed)
        other = file_of([request])
        got = said(self.program, ["-", "--service", "67", "--service", "6969"], other)
        self.check("another service port, named", got[0].count("\n") == 2 and got[2] == 0, got)
        got = said(self.program, ["-"], other)
        self.check("another service port, not named", got[0] == "" and "to port 6969: name the port" in got[1], got)
        example = str(EXAMPLES / "loopback-session.pcap")
        output, told, status = said(self.program, ["check", "/no/such/file", example], b"")
        holds = output.count("\n") == 6 and "/no/such/file: No such file" in told and status == 2
        self.check("a file that is missing among others", holds, (output, told, status))

    def test_streams(self) -> None:
        """Standard input or output that is closed or broken is told in one line, and the status is 2."""
        example, call = shlex.quote(str(EXAMPLES / "loopback-session.pcap")), shlex.quote(self.program)
        for words in ("check", "list", "text 1 client", "texts client"):
            for name, redirected, why in (
                ("closed input", "- <&-", "a read failed"),
                ("closed output", f"{example} >&-", "Bad file descriptor"),
                ("a broken pipe", example, "Broken pipe"),
            ):
                pipe, command = broken_pipe(), f"exec {call} {words} {redirected}"
                done = subprocess.run(command, shell=True, stdout=pipe, stderr=subprocess.PIPE, text=True, timeout=60)
                os.close(pipe)
                told = done.stderr.startswith("tftp-transfers: ") and done.stderr.count("\n") == 1
                holds = told and why in done.stderr and done.returncode == 2
                self.check(f"{words}, {name}", holds, (done.stderr, done.returncode))

    def test_growths(self) -> None:
        """Each growth refused in turn: the right answer, or the rows before it and status 2; never a signal."""
        given, met = (EXAMPLES / "loopback-session.pcap").read_bytes(), self.folder / "met"
        for words in (["check", "--json", "-"], ["-"], ["text", "3", "client", "-"], ["texts", "server", "-"]):
            right, turn = said(self.program, words, given), 0
            while not turn or met.exists():
                met.unlink(missing_ok=True)
                turn += 1
                env = {**os.environ, "LD_PRELOAD": refusing(), "REFUSE": str(turn), "MET": str(met)}
                done = subprocess.run(
                    [self.program, *words], input=given, capture_output=True, timeout=CAN_TAKE, env=env
                )
                output, told = done.stdout.decode("ascii"), done.stderr.decode()
                is_right = (output, told, done.returncode) == right
                kept = all(is_kept(it, right[0], output) for it in output.splitlines())
                holds = is_right if not met.exists() else is_right or done.returncode == 2 and kept
                self.check(f"{words}, growth {turn} refused", holds, (output, told, done.returncode))
            self.check(f"{words}, growths", turn > 20, turn)
