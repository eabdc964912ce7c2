"""What the report says of times: repeats of each end and how long after, the longest silence and of which end, beside
times that are written down here; and how the picture marks them."""
from __future__ import annotations

import re
from collections.abc import Sequence

from captures import Capture, Packet, ack, data, oack, read_request
from checks import Checks
from pictures import Picture
from tftp_tools.capture import read_capture
from tftp_tools.plotted import plot
from tftp_tools.program import Verdict
from tftp_tools.timing import MOST, Timing, timing_of

# A sender, what it sends, and when.
Passed = tuple[str, Packet, float]
ASKED = read_request("a", "octet")
FULL, SHORT = b"." * 512, b"!"


def with_times(capture: Capture, times: Sequence[float]) -> bytes:
    """The text of a capture with a comment before each datagram, as tftp-transfers writes it."""
    *lines, total = capture.text().decode().splitlines()
    at = [f"{1_700_000_000 + int(time)}.{round(time % 1 * 1_000_000_000):09d}" for time in times]
    commented = [f"# frame {number} time {it}\n{line}" for number, (it, line) in enumerate(zip(at, lines[3:]), 1)]
    return "\n".join([*lines[:3], *commented, total, ""]).encode()


def timed(passed: Sequence[Passed], end: str = "client") -> bytes:
    """The capture text with the time of each datagram."""
    capture = Capture("client" if end == "client" else "server")
    for sender, packet, _ in passed:
        capture.put("client" if sender == "client" else "server", packet)
    return with_times(capture, [time for _, _, time in passed])


def timing(passed: Sequence[Passed], end: str = "client") -> Timing:
    return timing_of(read_capture(timed(passed, end)))


class Times(Checks):
    """Times of texts, each of which is known."""

    def test_no_answer(self) -> None:
        """A request that is repeated: the server was silent, at each end's text."""
        passed = [
            ("client", ASKED, 0.0), ("client", ASKED, 5.0), ("client", ASKED, 15.5), ("server", data(1, SHORT), 15.75),
            ("client", ack(1), 15.8),
        ]
        for end in ("client", "server"):
            it = timing(passed, end)
            after = [(step.sender, step.after) for step in it.repeats]
            self.check(f"at the {end}, repeats", after == [("client", 5.0), ("client", 10.5)], after)
            longest = it.longest()
            holds = longest is not None and (longest.begin, longest.end, longest.silent()) == (5.0, 15.5, "server")
            self.check(f"at the {end}, the longest silence", holds, longest)
            told = dict(it.told())
            place = "datagram 3 (line 9, frame 3)"
            wanted = '10.500 s, from 5.000 s on, of the server: nothing of it had come when the client repeated RRQ "a"'
            self.check(f"at the {end}, told", told["Longest silence"] == f"{wanted} in {place}.", told)
            self.check(f"at the {end}, counted", told["Repeats"] == "2 of the client and 0 of the server.", told)
            usual = "none was agreed; the client's repeats passed after 7.750 s, usually."
            self.check(f"at the {end}, what is usual", told["Timeout"] == usual, told)
            first = 'RRQ "a" in datagram 2 (line 7, frame 2), of the client: 5.000 s after it last passed, '
            first += "0.65 times the usual 7.750 s of the client."
            self.check(f"at the {end}, the first repeat", it.told_repeats()[0] == first, it.told_repeats())

    def test_late_answer(self) -> None:
        """An end that answers late was silent itself, also where it then repeats what the other one did not get."""
        passed = [
            ("client", ASKED, 0.0), ("server", data(1, FULL), 0.01), ("client", ack(1), 0.02),
            ("server", data(1, FULL), 1.01), ("client", ack(1), 1.02), ("server", data(2, SHORT), 3.52),
            ("client", ack(2), 3.53),
        ]
        it = timing(passed)
        longest = it.longest()
        holds = longest is not None and (longest.begin, longest.end, longest.silent()) == (1.02, 3.52, "server")
        self.check("a late block", holds, longest)
        silent = [(round(each.length(), 3), each.silent()) for each in it.silences]
        wanted = [(0.01, "server"), (0.01, "client"), (0.99, "server"), (0.01, "client"), (2.5, "server"),
                  (0.01, "client")]
        self.check("each silence", silent == wanted, silent)
        again = [(step.sender, round(step.after or 0, 3)) for step in it.repeats]
        self.check("repeats of both", again == [("server", 1.0), ("client", 1.0)], again)
        told = dict(it.told())["Longest silence"]
        begins = "2.500 s, from 1.020 s on, of the server: then came its DATA 2 (1 byte) in datagram 6"
        self.check("it is told", told.startswith(begins), told)

    def test_no_ack(self) -> None:
        """A block that is repeated while nothing of the client passes; and a pause within a window is its sender's."""
        it = timing([("client", ASKED, 0.0), ("server", data(1, FULL), 0.1), ("server", data(1, FULL), 3.1)])
        longest = it.longest()
        self.check("no ACK", longest is not None and longest.silent() == "client", longest)
        options = {"blksize": 8, "windowsize": 2}
        it = timing([
            ("client", read_request("a", "octet", **options), 0.0), ("server", oack(**options), 0.1),
            ("client", ack(0), 0.2), ("server", data(1, b"12345678"), 0.3), ("server", data(2, b"1234"), 2.0),
            ("client", ack(2), 2.1),
        ])
        longest = it.longest()
        self.check("within a window", longest is not None and longest.silent() == "server", longest)

    def test_timeout(self) -> None:
        """The timeout that was agreed (RFC 2349)."""
        it = timing([
            ("client", read_request("a", "octet", timeout=2), 0.0), ("server", oack(timeout=2), 0.5),
            ("server", oack(timeout=2), 2.6), ("client", ack(0), 2.7), ("server", data(1, SHORT), 2.8),
            ("client", ack(1), 2.9),
        ])
        self.check("agreed", dict(it.told())["Timeout"] == "2 seconds, as was agreed (RFC 2349).", it.told())
        wanted = "OACK timeout=2 in datagram 3 (line 9, frame 3), of the server: 2.100 s after it last passed, "
        wanted += "1.05 times the 2 s that were agreed."
        self.check("beside it", it.told_repeats() == [wanted], it.told_repeats())

    def test_untimed(self) -> None:
        """Without times repeats are counted all the same; of many some are told."""
        capture = Capture("client")
        capture.put("client", *[ASKED] * (MOST + 3))
        it = timing_of(read_capture(capture.text()))
        told = it.told_repeats()
        self.check("counted", (len(it.repeats), it.longest()) == (MOST + 2, None), it)
        self.check("some are told", len(told) == MOST + 1 and told[-1] == "and 2 repeats more.", told)
        self.check("no time", told[0].endswith(", of the client: when is not known."), told[0])
        self.check("no silence", [heading for heading, _ in it.told()] == ["Repeats", "Timeout"], it.told())

    def test_strays(self) -> None:
        """What is of another endpoint ends no silence."""
        capture = Capture("client")
        capture.put("client", ASKED)
        capture.put("server", data(1, FULL))
        capture.put("server", data(7, b"stray"), server=42_000)
        capture.put("client", ack(1))
        it = timing_of(read_capture(with_times(capture, (0.0, 0.1, 1.0, 2.1))))
        longest = it.longest()
        holds = longest is not None and (longest.begin, longest.end, longest.silent()) == (0.1, 2.1, "client")
        self.check("a stray", holds, longest)

    def test_picture(self) -> None:
        """The picture has a line from where a repeat last passed, and names the end that was silent."""
        passed = [
            ("client", ASKED, 0.0), ("server", data(1, FULL), 0.01), ("client", ack(1), 0.02),
            ("server", data(1, FULL), 1.02), ("client", ack(1), 1.03), ("server", data(2, SHORT), 2.0),
            ("client", ack(2), 2.01),
        ]
        verdict = Verdict("accepted get octet blocks 2 bytes 513", 0)
        picture = Picture(plot(read_capture(timed(passed)), verdict))
        dotted = [it for it in picture.lines() if it.get("stroke-dasharray") and it.get("class") == "s-repeat"]
        # one of the legend, and one for each repeat: from 0.01 and 0.02 s on, of 2.01 s in 870 units from 70 on
        spans = sorted((float(it.get("x1", "")), float(it.get("x2", ""))) for it in dotted)[:2]
        wanted = [tuple(round(70 + 870 * time / 2.01) for time in span) for span in ((0.01, 1.02), (0.02, 1.03))]
        self.check("the lines of repeats", len(dotted) == 3 and spans == wanted, (spans, wanted))
        self.check("the silent end", picture.words.count("of the server") == 2, picture.words)
        self.check("the legend", picture.has("since it last passed"), picture.words)
        told = " ".join(picture.told())
        for length, begin in (("1.000", "0.020"), ("0.970", "1.030")):
            words = f"A pause of {length} s after {begin} s, of the server."
            self.check(words, words in told, told)
        self.check("no number is lost", not re.search(r"nan|inf", told))
