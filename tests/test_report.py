"""The pages of tools/tftp-report: what stands in them of each transfer, that they load nothing, and that a browser
shows them where one is installed. And its reports for other programs, JUnit's and SARIF's.
"""
from __future__ import annotations

import dataclasses
import hashlib
import json
import os
import pathlib
import re
import shutil
import subprocess
import time
from collections.abc import Sequence
from html.parser import HTMLParser
from typing import Any
from xml.etree import ElementTree as Xml

import made
from captures import ack, data, error, oack, read_request
from checks import Checks
from programs import AUDIT, TRANSFERS
from recorded import Datagram
from refusals import Rule
from repository import TOP
from tftp_tools.junit import spoken

SCRIPT, EXAMPLES = TOP / "tools" / "tftp-report", TOP / "examples"
BROWSERS = ("chromium", "chromium-browser", "google-chrome")
# Tells how wide what a page has is, and how wide it is, where it is 390 pixels wide.
FRAMED = """<iframe src="{page}" width="390" height="1600"></iframe><pre></pre><script>
document.querySelector('iframe').onload = function() {{
const root = this.contentDocument.documentElement;
document.querySelector('pre').textContent = root.scrollWidth + ' ' + root.clientWidth;
}};
</script>
"""
# HTML's elements without an end.
VOID = ("meta", "br", "input")
LOADING = ("link", "script", "img", "iframe", "object", "embed", "video", "audio", "base", "form")
MANY, LONGEST = 1_000, 300.0


class Page(HTMLParser):
    """What is read of a page: its words, its elements, and whether each is closed where it is due."""

    def __init__(self, text: str) -> None:
        super().__init__()
        self.open: list[str] = []
        self.tags: list[tuple[str, dict[str, str | None]]] = []
        self.words: list[str] = []
        self.is_sound = text.startswith("<!DOCTYPE html>\n")
        self.feed(text)
        self.close()
        self.is_sound = self.is_sound and not self.open

    def handle_starttag(self, tag: str, attrs: list[tuple[str, str | None]]) -> None:
        self.tags.append((tag, dict(attrs)))
        if tag not in VOID:
            self.open.append(tag)

    def handle_startendtag(self, tag: str, attrs: list[tuple[str, str | None]]) -> None:
        self.tags.append((tag, dict(attrs)))

    def handle_endtag(self, tag: str) -> None:
        self.is_sound = self.is_sound and bool(self.open) and self.open.pop() == tag

    def handle_data(self, content: str) -> None:
        if self.open[-1:] != ["style"]:
            self.words.append(content)

    def text(self) -> str:
        return " ".join(" ".join(self.words).split())

    def named(self, tag: str) -> list[dict[str, str | None]]:
        return [attributes for name, attributes in self.tags if name == tag]

    def ids(self) -> list[str]:
        return [attributes["id"] or "" for _, attributes in self.tags if "id" in attributes]


def run(words: Sequence[object], given: bytes = b"") -> tuple[str, str, int]:
    done = subprocess.run([str(word) for word in (SCRIPT, *words)], input=given, capture_output=True, timeout=LONGEST)
    return done.stdout.decode(), done.stderr.decode(), done.returncode


def lines_of_page(output: str) -> list[str]:
    """The cells of each row of the table, as text."""
    rows = re.findall(r"<tr\b[^>]*>(.*?)</tr>", output)
    return [" | ".join(re.sub(r"<[^>]*>", "", cell) for cell in re.findall(r"<t[hd].*?</t[hd]>", row)) for row in rows]


def lossy() -> list[Datagram]:
    """A read in windows, in which block 2 is lost once, a second passes, and the window comes again."""
    out, back = (made.C, 40_000, made.S, 41_000), (made.S, 41_000, made.C, 40_000)
    asked = read_request("boot.img", "octet", blksize=8, windowsize=4)[0]
    content = [b"%08d" % number for number in range(1, 5)]
    window = [Datagram(*back, data(number, content[number - 1])[0]) for number in (1, 3, 4)]
    again = [Datagram(*back, data(number, content[number - 1])[0]) for number in (2, 3, 4)]
    begun = [Datagram(made.C, 40_000, made.S, 69, asked), Datagram(*back, oack(blksize=8, windowsize=4)[0])]
    acks = [Datagram(*out, ack(number)[0]) for number in (0, 1, 4, 5)]
    return [*begun, acks[0], *window, acks[1], *again, acks[2], Datagram(*back, data(5, b"")[0]), acks[3]]


def many() -> list[Datagram]:
    """So many reads from ports of their own, of which every tenth is refused."""
    passed = []
    for number in range(MANY):
        read = made.read("a", 10_000 + number, 41_000)
        if number % 10 == 0:
            read[2] = dataclasses.replace(read[2], payload=ack(2)[0])
        passed += read
    return passed


class Spoken(Checks):
    """What XML cannot have."""

    def test_spoken(self) -> None:
        """Control characters, halves of pairs and what is no character (XML 1.0, section 2.2) are escaped."""
        text = "a\0b\x0b\x1b\ud800\uffff \t\n\r\u00e9\U0001f600"
        wanted = "a\\x00b\\x0b\\x1b\\xd800\\xffff \t\n\r\u00e9\U0001f600"
        self.check("what XML cannot have", spoken(text) == wanted, ascii(spoken(text)))
        self.check("what is read of it", Xml.fromstring(f"<a>{spoken(text)}</a>").text is not None)


class Report(Checks):
    """What stands in the pages."""

    needs = (AUDIT, TRANSFERS)
    programs = "--program", AUDIT.path, "--transfers", TRANSFERS.path

    def try_whole(self, name: str, output: str) -> Page:
        """The page is well formed, loads nothing, and what refers to another part finds it."""
        page = Page(output)
        self.check(f"{name}, well formed", page.is_sound, page.open)
        loading = [
            tag for tag, attributes in page.tags if tag in LOADING or attributes.keys() & {"src", "srcset", "data"}
        ]
        self.check(
            f"{name}, nothing is loaded", not loading and "url(" not in output and "@import" not in output, loading
        )
        ids = page.ids()
        self.check(f"{name}, each id is one element's", len(ids) == len(set(ids)), ids)
        wanted = [it["href"][1:] for it in page.named("a") if it["href"]]
        wanted += [word for _, it in page.tags for word in (it.get("aria-labelledby") or "").split()]
        self.check(f"{name}, each reference", set(wanted) <= set(ids), set(wanted) - set(ids))
        pictures = page.named("svg")
        self.check(f"{name}, each picture is told", all(it.get("role") == "img" for it in pictures), pictures)
        return page

    def test_table(self) -> None:
        """The rows of a session, by what loopback.py's clients did."""
        output, errors, status = run([*self.programs, EXAMPLES / "loopback-session.pcap"])
        page = self.try_whole("a session", output)
        self.check("a session, status", (errors, status) == ("", 1), (errors, status))
        rows = lines_of_page(output)
        self.check("a session, a row each", len(rows) == 6, rows)
        first = "1 | accepted get octet blocks 3 bytes 1300 | 192.0.2.1:34056 | 192.0.2.1:51973 | "
        first += "get &quot;boot.cfg&quot; | 1,300 | - | "
        self.check("a session, the first", rows[1].startswith(first), rows[1])
        third = f"3 | refused datagram 3 rule {Rule.ACK_AHEAD} | "
        self.check("a session, the third", rows[3].startswith(third), rows[3])
        boot = b"".join(b"boot.cfg line %05d\n" % number for number in range(82))[:1300]
        words = page.text()
        for told in (
            "5 transfers: 1 refused, 4 accepted.", f"1,300 bytes, SHA-256 {hashlib.sha256(boot).hexdigest()}.",
            "It follows the ERROR in datagram 2 (line 8, frame 16), which is not acknowledged; this does no harm.",
            "Refused: datagram 3 (line 10, frame 17)", "00000 00 04 00 01",
            "Compared with: datagram 2 (line 8, frame 16)",
            "What if No verdict: what follows is what the program says once the datagrams that it refused are left"
            " out.",
            "Without datagram 3: aborted by peer code 1.",
        ):
            self.check(f"a session, {told}", told in words, words[:3000])
        heads = [it for it in page.named("th") if it.get("scope") == "col"]
        self.check("a session, headings", len(heads) == 10 and page.named("html")[0].get("lang") == "en", heads)

    def test_choices(self) -> None:
        """What can be shown alone and in which order, by the page's style: each choice names rows, and gives places."""
        output, _, _ = run([*self.programs, EXAMPLES / "loopback-session.pcap"])
        page = Page(output)
        inputs = [it for it in page.named("input") if it["type"] == "radio"]
        ids = [it["id"] or "" for it in inputs]
        shown = ["show-all", "show-is-refused", "show-is-accepted"]
        orders = ["by-number", "by-verdict", "by-size", "by-seconds", "by-repeated"]
        self.check("the choices", ids == shown + orders, ids)
        self.check("each has its words", [it["for"] for it in page.named("label")] == ids)
        first = [it["id"] for it in inputs if "checked" in it]
        self.check("what is chosen first", first == ["show-all", "by-number"], first)
        for word in ("all 5", "1 refused", "4 accepted", "the worst first"):
            self.check(f"the choice {word}", word in page.text())
        rows = [it for it in page.named("tr") if "style" in it]
        kinds = [(it["class"] or "").split() for it in rows]
        wanted = ["is-accepted", "is-accepted", "is-refused", "is-accepted", "is-accepted"]
        self.check("each row is of its kind", kinds == [["of", kind] for kind in wanted], kinds)
        sections = [(it.get("class") or "").split() for it in page.named("section")]
        self.check("so is each section", sections == kinds, sections)
        places = {name: [int(re.findall(rf"--{name}:(\d+);", it["style"] or "")[0]) for it in rows] for name in
                  ("number", "verdict", "size")}
        # sizes 1300, 1300, none, 1024, 1536
        right = {"number": [1, 2, 3, 4, 5], "verdict": [2, 3, 1, 4, 5], "size": [2, 3, 5, 4, 1]}
        self.check("the places of the rows", places == right, places)
        for kind in ("is-refused", "is-accepted"):
            rule = f"main:has(#show-{kind}:checked) :is(tr,section).of:not(.{kind}){{display:none}}"
            self.check(f"what hides the others of {kind}", rule in output)
        rule = "main:has(#by-size:checked) tbody>tr{--at:var(--size)}"
        self.check("what orders the rows", rule in output and "tbody>tr>*{order:var(--at)}" in output)
        self.check("the columns", [it.get("role") for it in page.named("th")][:2] == ["columnheader"] * 2)
        alone = self.folder / "alone.pcap"
        alone.write_bytes(made.file_of(made.read("a", 40_000, 41_000)))
        output, _, _ = run([*self.programs, "--end", "client", alone])
        self.check("one transfer, no choice", Page(output).named("input") == [] and "1 transfer: 1 accepted." in output)

    def test_pictures(self) -> None:
        """What the pictures say in words: repeats, a pause, what is missing; and what a reader of the table is told."""
        path, passed = self.folder / "lossy.pcap", lossy()
        times = [0.01 * place if place < 7 else 1 + 0.01 * place for place in range(len(passed))]
        path.write_bytes(made.file_of(passed, times))
        output, errors, status = run([*self.programs, "--end", "client", path])
        words = self.try_whole("a window", output).text()
        self.check("a window, status", (errors, status) == ("", 0), (errors, status))
        for told in (
            "7 blocks and 4 ACKs, the highest block is 5. 2 blocks and 0 ACKs are repeats.",
            "A pause of 1.010 s after 0.060 s, of the server.",
            "recorded at the client", "Passed 13 datagrams.", "Time 1.120 s, 29 B/s.",
            "Longest silence 1.010 s, from 0.060 s on, of the server: then came its DATA 2 (8 bytes) in datagram 8",
            "Repeats 0 of the client and 2 of the server.", "is not told apart from what an end did.",
            "Timeout none was agreed; the server's repeats passed after 1.040 s, usually.",
            "frame 9), of the server: 1.040 s after it last passed, 1.00 times the usual 1.040 s of the server.",
        ):
            self.check(f"a window, {told}", told in words, words)
        row = lines_of_page(output)[1]
        holds = row.startswith("1 | accepted get octet blocks 5 bytes 32 | ")
        holds = holds and row.endswith(" | 32 | blksize=8 windowsize=4 | 1.120 | 29 B/s | 2, 0")
        self.check("a window, its row", holds, row)
        self.check("a window, repeats are hollow", output.count('class="hollow s-error"') >= 2)
        # one of the legend, and one for each repeat
        self.check("a window, when repeats last passed", output.count('stroke-dasharray="2 2"') == 3)
        narrow = output.partition("@media (max-width:48rem){")[2].partition("@media")[0]
        self.check("a window, its pictures where it is narrow", "figure{overflow-x:auto}" in narrow, narrow)
        path.write_bytes(made.file_of(passed[:6], times[:6]))
        output, _, _ = run([*self.programs, "--end", "client", path])
        self.check("a window, what is missing", "1 block missing: 2." in Page(output).text(), output)

    def test_missing(self) -> None:
        """Of a refused transfer, which datagrams must be missing so that it is lawful, in words and in its picture."""
        path, passed = self.folder / "missing.pcap", made.read("a", 40_000, 41_000)
        gone = next(place for place, it in enumerate(passed) if it.payload[:4] == data(1, b"")[0])
        path.write_bytes(made.file_of(passed[:gone] + passed[gone + 1 :]))
        told = "If lost lawful if 1 datagram is missing: 1 from the server before datagram 2 (line"
        for end in ("client", "between"):
            output, errors, status = run([*self.programs, "--end", end, path])
            words = self.try_whole(f"a block is missing, {end}", output).text()
            self.check(f"a block is missing, {end}, status", (errors, status) == ("", 1), (errors, status))
            self.check(f"a block is missing, {end}, in words", told in words, words)
            self.check(f"a block is missing, {end}, in the picture", "missing here: 1 from the server" in words, words)

    def test_others(self) -> None:
        """Names with the signs of HTML, doubts, notes, recordings that come in, and what is no recording."""
        path = self.folder / "a <b> & c.pcap"
        evil = made.read('<script>alert("x")</script>', 40_000, 41_000)
        refused = Datagram(made.S, 41_000, made.C, 40_000, error(1, "<img src=x>")[0])
        path.write_bytes(made.file_of([evil[0], refused, Datagram(made.C, 40_000, made.S, 41_000, ack(1)[0])]))
        output, errors, status = run([*self.programs, path])
        words = self.try_whole("signs of HTML", output).text()
        holds = "TFTP in " in words and "<script>alert(" in words and "<img src=x>" in words and "<script" not in output
        self.check("signs of HTML, as words", holds and (errors, status) == ("", 1), (words, errors))
        is_told = f"Accused the client at {made.C}:40000, which sent the datagram." in words
        self.check("who is accused", is_told, words)
        self.check("how it ended", 'Ended server ERROR 1 "<img src=x>", frame 2.' in words, words)
        path.write_bytes(made.file_of(made.asked_again()))
        output, _, status = run([*self.programs, path])
        words = Page(output).text()
        is_told = f"doubtful: refused datagram 2 rule {Rule.WINDOW_OVERRUN}" in words
        is_told = is_told and "Doubtful nobody had answered for sure what its client asked for before" in words
        is_told = is_told and "its client had asked the same and sent nothing else since" in words
        self.check("a doubt", is_told and "Accused" not in words and status == 1, words)
        for place in ((), ("--end", "between")):
            path.write_bytes(made.file_of(made.late_block()))
            output, errors, status = run([*self.programs, *place, path])
            words = self.try_whole(f"between the ends, {place}", output).text()
            digest = hashlib.sha256(b"." * 512 + b"!").hexdigest()
            is_told = f"513 bytes, SHA-256 {digest}." in words and "frames 1 to 6; judged between the ends" in words
            self.check(f"between the ends, {place}", is_told and (errors, status) == ("", 0), words)
        path.write_bytes(made.file_of(made.late_block())[:-2])
        output, errors, status = run([*self.programs, path])
        self.check("a recording that is cut", output == "" and "not whole" in errors and status == 2, errors)
        session = (EXAMPLES / "loopback-session.pcap").read_bytes()
        output, _, status = run([*self.programs, "-"], session)
        self.check("a recording that comes in", len(lines_of_page(output)) == 6 and status == 1, output[:200])
        output, errors, status = run([*self.programs, EXAMPLES / "one-block.capture"])
        self.check("a text", output == "" and "is no recording" in errors and status == 2, errors)
        output, errors, status = run([*self.programs, "-"], b"\x1f\x8b" + bytes(40))
        self.check("gzip", output == "" and "is no recording" in errors and status == 2, errors)

    def junit(self, *words: object, given: bytes = b"") -> tuple[Xml.Element, int]:
        """The one suite of a report, which is sound, and the status."""
        output, errors, status = run([*self.programs, "--format", "junit", *words], given)
        self.check(f"JUnit of {words}, it begins", output.startswith("<?xml version=") and errors == "", errors)
        whole = Xml.fromstring(output)
        [suite] = whole
        self.check(f"JUnit of {words}, its parts", (whole.tag, suite.tag) == ("testsuites", "testsuite"))
        for part in (whole, suite):
            cases = list(part.iter("testcase"))
            failures, skipped = ([*part.iter(kind)] for kind in ("failure", "skipped"))
            counted = {"tests": len(cases), "errors": 0, "failures": len(failures), "skipped": len(skipped)}
            told = {name: int(part.attrib[name]) for name in counted}
            self.check(f"JUnit of {words}, what {part.tag} counts", told == counted, (told, counted))
        names = [(it.attrib["classname"], it.attrib["name"]) for it in suite.iter("testcase")]
        self.check(f"JUnit of {words}, each name is one case's", len(names) == len(set(names)), names)
        self.check(f"JUnit of {words}, the times", all(float(it.attrib["time"]) >= 0 for it in suite.iter("testcase")))
        return suite, status

    def test_junit(self) -> None:
        """A case for each row: what is refused fails, and what accuses nobody is skipped, with the reason."""
        session = EXAMPLES / "loopback-session.pcap"
        suite, status = self.junit(session)
        cases = suite.findall("testcase")
        self.check("JUnit, the session", (len(cases), status) == (5, 1), len(cases))
        wanted = 'transfer 3, both: get "missing.cfg", client 192.0.2.1:34056, server 192.0.2.1:42245'
        self.check("JUnit, the third case", cases[2].attrib["name"] == wanted, cases[2].attrib)
        self.check("JUnit, its file", {it.attrib["classname"] for it in cases} == {str(session)})
        parts = [[it.tag for it in case] for case in cases]
        self.check("JUnit, the parts of cases", parts == [[], [], ["failure"], [], []], parts)
        [failure] = cases[2]
        refused = f"refused datagram 3 rule {Rule.ACK_AHEAD}"
        self.check("JUnit, the failure", failure.attrib == {"message": refused, "type": str(Rule.ACK_AHEAD)})
        for told in (f"{refused}\n\nWhere:    line 10 of the text, frame 17 of the recording",
                     "\nAccused:  the client at 192.0.2.1:34056, which sent the datagram.\n"):
            self.check(f"JUnit, {told}", told in (failure.text or ""), failure.text)
        suite, _ = self.junit("-", given=session.read_bytes())
        self.check("JUnit of what comes in", len(suite.findall("testcase")) == 5)
        path = self.folder / "a <b> & \u00e9 \x07.pcap"
        for name, passed, words, says in (
            ("a doubt", made.asked_again(), (), ("doubtful: refused datagram 2 rule ", "its client had asked the")),
            ("no end", made.read("a", 40_000, 41_000)[:2], ("--end", "client"), ("incomplete after 2",)),
        ):
            path.write_bytes(made.file_of(passed))
            suite, status = self.junit(*words, path)
            skipped = [it.attrib["message"] for it in suite.iter("skipped")]
            holds = any(all(word in message for word in says) for message in skipped) and status == 1
            self.check(f"JUnit, {name}", holds and not [*suite.iter("failure")], skipped)
            self.check(f"JUnit, the name of {name}", "a <b> & " in suite.attrib["name"], suite.attrib)
        path.write_bytes(made.file_of(made.read("a", 40_000, 41_000)))
        suite, status = self.junit("--end", "client", path)
        self.check("JUnit, an accepted one", (suite.attrib["tests"], suite.attrib["failures"], status) == ("1", "0", 0))
        output, errors, status = run([*self.programs, "--format", "junit", EXAMPLES / "one-block.capture"])
        self.check("JUnit of a text", output == "" and "is no recording" in errors and status == 2, errors)

    def sarif(self, *words: object) -> tuple[Any, int]:
        """The one run of a report, which has what SARIF 2.1.0 requires, and the status."""
        output, errors, status = run([*self.programs, "--format", "sarif", *words])
        whole = json.loads(output)
        self.check(f"SARIF of {words}, its version", whole["version"] == "2.1.0" and errors == "", errors)
        [it] = whole["runs"]
        driver = it["tool"]["driver"]
        self.check(f"SARIF of {words}, its tool", driver["name"] == "tftp-report", driver)
        rules = driver["rules"]
        self.check(f"SARIF of {words}, each rule once", len({rule["id"] for rule in rules}) == len(rules), rules)
        for result in it["results"]:
            holds = bool(result["message"]["text"]) and rules[result["ruleIndex"]]["id"] == result["ruleId"]
            # section 3.27.10: a level beside none is that of a result that fails
            holds = holds and (result["kind"], result["level"]) in (("fail", "error"), ("review", "none"))
            self.check(f"SARIF of {words}, a result", holds, result)
            [location] = result["locations"]
            artifact = location["physicalLocation"]["artifactLocation"]
            is_there = it["artifacts"][artifact["index"]]["location"]["uri"] == artifact["uri"]
            self.check(f"SARIF of {words}, its file", is_there, location)
        self.check(f"SARIF of {words}, it was run", it["invocations"][0]["executionSuccessful"] is True)
        return it, status

    def test_sarif(self) -> None:
        """A result for each refusal, at its file and frame; what is doubtful is no error."""
        session = EXAMPLES / "loopback-session.pcap"
        it, status = self.sarif(session)
        [result], [rule] = it["results"], it["tool"]["driver"]["rules"]
        self.check("SARIF, the session", status == 1)
        self.check("SARIF, the rule", (rule["id"], rule["name"]) == ("26", Rule.ACK_AHEAD.printed), rule)
        says = {"text": "An ACK says that its block and all before it came."}
        self.check("SARIF, its words", rule["shortDescription"] == says, rule)
        self.check("SARIF, the result", (result["ruleId"], result["kind"], result["level"]) == ("26", "fail", "error"))
        told, refused = result["message"]["text"], f"refused datagram 3 rule {Rule.ACK_AHEAD}"
        self.check("SARIF, the message", told.startswith(f"{refused}\n\nWhere: "), told)
        accused = {"role": "client", "host": "192.0.2.1", "port": 34056}
        wanted = {"transfer": 3, "place": "both", "frame": 17, "verdict": refused, "accused": accused, "doubts": []}
        self.check("SARIF, the properties", result["properties"] == wanted, result["properties"])
        [location] = result["locations"]
        self.check("SARIF, the frame", location["properties"] == {"frame": 17}, location)
        self.check("SARIF, the file", location["physicalLocation"]["artifactLocation"]["uri"] == session.as_uri())
        path = self.folder / "a <b> & \u00e9.pcap"
        path.write_bytes(made.file_of(made.asked_again()))
        it, status = self.sarif(path)
        kinds = {(result["kind"], result["level"]) for result in it["results"]}
        doubts = [doubt for result in it["results"] for doubt in result["properties"]["doubts"]]
        told = "its client had asked the same and sent nothing else since"
        holds = kinds == {("review", "none")} and any(doubt.startswith(told) for doubt in doubts) and status == 1
        self.check("SARIF, a doubt", holds, it["results"])
        files = [{"location": {"uri": path.as_uri()}}]
        self.check("SARIF, a name with signs", it["artifacts"] == files, it["artifacts"])
        path.write_bytes(made.file_of(made.read("a", 40_000, 41_000)))
        it, status = self.sarif("--end", "client", path)
        self.check("SARIF, an accepted one", (it["results"], it["tool"]["driver"]["rules"], status) == ([], [], 0), it)

    def test_json(self) -> None:
        """An object for each row, with its times, which are those of the datagrams as they were made."""
        path, passed = self.folder / "lossy.pcap", lossy()
        times = [0.01 * place if place < 7 else 1 + 0.01 * place for place in range(len(passed))]
        path.write_bytes(made.file_of(passed, times))
        output, errors, status = run([*self.programs, "--format", "json", "--end", "client", path])
        self.check("JSON, status", (errors, status, output.count("\n")) == ("", 0, 1), (errors, status))
        found = json.loads(output)
        again = [
            {"datagram": number, "frame": number, "packet": f"DATA {block} (8 bytes)", "after": 1.04}
            for number, block in ((9, 3), (10, 4))
        ]
        wanted = {
            "file": str(path), "number": 1, "client": f"{made.C}:40000", "server": f"{made.S}:41000", "kind": "get",
            "mode": "octet", "asked": '"boot.img"', "place": "client",
            "verdict": "accepted get octet blocks 5 bytes 32", "doubts": [],
            "times": {
                "seconds": 1.12, "bytes": 32, "rate": 32 / 1.12, "timeout": None,
                "usual": {"client": None, "server": 1.04},
                "silence": {"end": "server", "begin": 0.06, "seconds": 1.01, "datagram": 8, "frame": 8},
                "repeats": {"client": [], "server": again},
            },
        }
        self.check("JSON, the times of a window", found == wanted, found)
        output, _, status = run([*self.programs, "--format", "json", EXAMPLES / "loopback-session.pcap"])
        found = [json.loads(line) for line in output.splitlines()]
        verdicts, refused = [it["verdict"] for it in found], f"refused datagram 3 rule {Rule.ACK_AHEAD}"
        self.check("JSON, a session", (verdicts[2], len(found), status) == (refused, 5, 1), verdicts)
        none = [it["times"]["repeats"] for it in found]
        self.check("JSON, no repeats", none == [{"client": [], "server": []}] * 5, none)

    def try_many(self) -> pathlib.Path:
        """A thousand transfers; how long that takes is told."""
        path, written = self.folder / "many.pcap", self.folder / "many.html"
        path.write_bytes(made.file_of(many()))
        begun = time.monotonic()
        output, errors, status = run([*self.programs, "--end", "client", path])
        print(f"a page of {MANY:,} transfers: {time.monotonic() - begun:.1f} s, {len(output.encode()) / 1e6:.1f} MB")
        page = self.try_whole("many", output)
        sections, pictures = len(page.named("section")), len(page.named("svg"))
        told = "100 transfers of 1,000 have pictures: those not accepted come first." in page.text()
        holds = (sections, pictures, status) == (MANY, 200, 1) and told
        self.check("many, sections and pictures", holds, (sections, pictures, errors))
        self.check("many, those not accepted", "1,000 transfers: 100 refused, 900 accepted." in page.text())
        written.write_text(output)
        return written

    def try_browser(self, large: pathlib.Path) -> None:
        """A browser shows the page in light and in dark, and prints it; its ground is as it should be."""
        browser = next((found for found in map(shutil.which, BROWSERS) if found), None)
        if browser is None:
            self.leave("in a browser", "no Chromium is installed, so no page is shown in one")
            return
        small = self.folder / "small.html"
        small.write_text(run([*self.programs, EXAMPLES / "loopback-repeated-oack.pcap"])[0])
        call = [browser, "--headless", "--no-sandbox", "--disable-gpu", f"--user-data-dir={self.folder / 'profile'}"]
        for name, page, words in (
            ("light", small, ("--window-size=1280,1600",)), ("many", large, ("--window-size=1280,1600",)),
            ("narrow", large, ("--window-size=390,1600",)),
            ("dark", small, ("--window-size=1280,1600", "--blink-settings=preferredColorScheme=0")),
        ):
            shot = self.folder / f"{name}.png"
            shown = subprocess.run(
                [*call, *words, f"--screenshot={shot}", page.as_uri()], capture_output=True, timeout=120
            )
            is_drawn = shot.exists() and shot.stat().st_size > 20_000
            self.check(f"in a browser, {name}", is_drawn, shown.stderr[-500:])
        light, dark = ((self.folder / f"{name}.png") for name in ("light", "dark"))
        differ = light.exists() and dark.exists() and light.read_bytes() != dark.read_bytes()
        self.check("in a browser, dark is not light", differ)
        self.check("in a browser, 390 pixels are wide enough", self.is_narrow(call, small), small)
        printed = self.folder / "page.pdf"
        subprocess.run([*call, f"--print-to-pdf={printed}", small.as_uri()], capture_output=True, timeout=120)
        self.check("in a browser, printed", printed.exists() and printed.read_bytes().startswith(b"%PDF"))

    def is_narrow(self, call: Sequence[str | os.PathLike[str]], page: pathlib.Path) -> bool:
        """Whether nothing of a page stands beyond the edge where it has the room of a telephone."""
        framed = self.folder / "framed.html"
        framed.write_text(FRAMED.format(page=page.name))
        words = ("--allow-file-access-from-files", "--virtual-time-budget=3000", "--dump-dom", framed.as_uri())
        shown = subprocess.run([*call, *words], capture_output=True, text=True, timeout=120)
        found = re.search(r"<pre>([0-9]+) ([0-9]+)</pre>", shown.stdout)
        return found is not None and found[1] == found[2]

    def test_many(self) -> None:
        """A thousand transfers, which a browser shows too."""
        self.try_browser(self.try_many())

    def test_words(self) -> None:
        output, _, status = run(["--help"])
        self.check("tftp-report --help", status == 0 and output.startswith("usage: tftp-report"), output)
