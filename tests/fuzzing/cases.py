"""The cases: each is made by the chance of one number, and tried by some of the program's commands."""
from __future__ import annotations

import collections
import dataclasses
from collections.abc import Callable, Mapping, Sequence
from random import Random

from captures import EndName
from fuzzing import changes, faults
from fuzzing.aimed import aimed
from fuzzing.further import further
from fuzzing.lines import is_shown, is_verdict
from fuzzing.meanings import Spelling, chosen, meaning_of
from fuzzing.program import MOST_PIECE, Got, Program, Told
from fuzzing.reached import Reached
from fuzzing.slow_judge import Rollover
from fuzzing.slow_texts import Answers
from fuzzing.transfers import ENDS, Transfer
from fuzzing.views import Capture, View
from normal import outputs_of_refused


ROLLOVERS: tuple[Rollover, ...] = (0, 1)


@dataclasses.dataclass
class Failure:
    """A run that was not as it should be."""

    name: str
    command: str
    text: bytes
    got: Got
    wanted: object


class Trier:
    """The runs of the cases, what was not as it should be, how often each verdict was met, and what was reached."""

    def __init__(self, program: Program, commands: Sequence[str]) -> None:
        self.program, self.commands = program, commands
        self.failures: list[Failure] = []
        self.met: collections.Counter[tuple[str, str]] = collections.Counter()
        self.reached = Reached()

    def expect(self, name: str, command: str, text: bytes, wanted: Told) -> None:
        """The command with its words prints this of the text and ends with this status."""
        if command.split()[0] in self.commands:
            self.compare(name, command, text, self.program.run(command, text), wanted)

    def compare(self, name: str, command: str, text: bytes, got: Got, wanted: Told) -> None:
        if got != (wanted[0], b"", wanted[1]):
            self.failures.append(Failure(name, command, text, got, wanted))

    def judge(self, group: str, text: bytes) -> Answers:
        """What there is to say of any text, which `check` prints; it is one of the lines that there are."""
        answers = Answers(text)
        output, status = told = answers.of("check")
        if not is_verdict(output, status):
            got = output, b"", status
            self.failures.append(Failure("a line of those that there are", "check", text, got, "a verdict"))
        self.expect(group, "check", text, told)
        if len(text) % 4 == 0:
            for rollover in ROLLOVERS:
                self.expect(f"{group}, by number", f"check --rollover {rollover}", text, answers.by_number(rollover))
        words = output.decode(errors="replace").split()
        # a refusal by its rule, and a fault by its name
        kind = {"refused": words[4:6], "fault": words[3:4]}.get(words[0] if words else "", words[:1])
        self.meet(group, *kind)
        self.reached.note(told)
        return answers

    def read_slowly(self, chance: Random, text: bytes, wanted: Mapping[str, Told]) -> None:
        """Now and then: what is known of a text by how it was made is what the slow reading says of it too."""
        if chance.random() >= 0.1:
            return
        answers = Answers(text)
        for command, told in wanted.items():
            output, status = answers.of(command)
            if (output, status) != told:
                self.failures.append(Failure("the slow reading", command, text, (output, b"", status), told))

    def meet(self, group: str, *words: str) -> None:
        """Counts a case of this group and of these words."""
        self.met[group, " ".join(words)] += 1

    def expect_in_pieces(self, chance: Random, text: bytes, wanted: Told) -> None:
        """`check` prints the same of the text in pieces."""
        cuts = sorted(chance.randrange(len(text) + 1) for _ in range(chance.randrange(1, 8)))
        cuts = sorted({0, *cuts, *range(MOST_PIECE, len(text), MOST_PIECE), len(text)})
        pieces = [text[at:to] for at, to in zip(cuts, cuts[1:])]
        self.compare("in pieces", "check", text, self.program.run_in_pieces("check", pieces), wanted)


def view_of(chance: Random) -> tuple[View, Callable[[], View]]:
    """What passed at one end of a transfer, and how to have a view of the other end."""
    meaning, wire = meaning_of(chance)
    transfer, spelling = Transfer(chance, meaning, wire), Spelling(chance, meaning, wire)
    transfer.run()
    end, other = chance.sample(ENDS, 2)

    def view(end: EndName) -> View:
        return View(chance, meaning, wire, end, transfer.passed[end], spelling)

    return view(end), lambda: view(other)


def try_lawful(trier: Trier, chance: Random) -> None:
    """Whole and cut captures of lawful transfers."""
    view, other = view_of(chance)
    count = whole = len(view.capture.datagrams)
    if chance.random() < 0.25:
        count = chance.randrange(whole + 1)
    verdict = view.expected(count)
    outputs = {**view.meaning.outputs(verdict), "show": (view.shown(count), 0)}
    trier.meet("lawful", verdict[0].split()[0].decode())
    trier.reached.note(verdict)
    text = view.capture.spelled(chance) if count == whole else view.capture.text(count)
    for command in chance.sample(sorted(outputs), 3):
        trier.expect("lawful", command, text, outputs[command])
    trier.read_slowly(chance, text, outputs)
    if chance.random() < 0.2:
        trier.expect("of the first round", f"check --rollover {chance.choice(ROLLOVERS)}", text, verdict)
    if chance.random() < 0.1:
        trier.expect_in_pieces(chance, text, verdict)
    if chance.random() < 0.1:
        trier.expect("renumbered", "check", changes.renumbered(chance, view.capture).text(count), verdict)
    if chance.random() < 0.3:
        seen = other()
        count = len(seen.capture.datagrams)
        trier.expect("the other end", "check", seen.capture.text(), seen.expected(count))
    if chance.random() < 0.2:
        meaning = view.meaning
        outputs = meaning.outputs((meaning.line(), 0))
        for command in chance.sample(sorted(outputs), 2):
            trier.expect("its normal text", command, meaning.normal_text(), outputs[command])


def compare_normal(trier: Trier, text: bytes, normal: bytes, verdict: Told) -> None:
    """The normal text of any accepted text is its own, is accepted with the same line and file, and has its count."""
    trier.expect("the normal text of a normal text", "normal", normal, (normal, 0))
    trier.expect("the verdict of a normal text", "check", normal, verdict)
    trier.expect("the file of a normal text", "extract", normal, trier.program.run("extract", text)[::2])
    total = normal.splitlines()[-1].split()[-1] if normal else b""
    trier.expect("the count of a normal text", "count", text, (b"normal datagrams %s\n" % total, 0))


def compare_commands(trier: Trier, chance: Random, text: bytes, answers: Answers) -> None:
    """The other commands print what there is to say of any text."""
    others = [name for name in trier.commands if name != "check"]
    if not others:
        return
    command = chance.choice(others)
    output, status = wanted = answers.of(command)
    if command == "show" and not is_shown(output, status):
        trier.failures.append(Failure("rows of those that there are", command, text, (output, b"", status), "rows"))
    trier.expect("another command", command, text, wanted)
    if command == "normal" and status == 0:
        compare_normal(trier, text, output, answers.of("check"))


def try_prefixes(trier: Trier, capture: Capture, verdict: Told) -> None:
    """The first unlawful datagram is refused alike where the capture ends with it, and without it none is."""
    words = verdict[0].split()
    if words[:1] != [b"refused"]:
        return
    index = int(words[2])
    trier.expect("up to the unlawful datagram", "check", capture.text(index), verdict)
    text = capture.text(index - 1)
    line, status = trier.judge("before an unlawful one", text).of("check")
    if line.startswith((b"refused", b"fault")):
        trier.failures.append(Failure("before the unlawful datagram", "check", text, (line, b"", status), "no refusal"))


def try_faulty(trier: Trier, chance: Random) -> None:
    """A fault of the text behind the first datagrams of a lawful transfer, or in its header."""
    view, _ = view_of(chance)
    text, number, fault = faults.faulty(chance, view.capture)
    line = b"fault line %d %s\n" % (number, fault.encode())
    trier.meet("faulty", fault)
    trier.reached.note((line, 2))
    # a line is left over where the total line has been read, and so are those of the header
    known = max(0, number - 4 - (fault == "TrailingText"))
    outputs = {**outputs_of_refused((line, 2)), "show": (view.shown(known) + line, 2)}
    for command in chance.sample(sorted(outputs), 2):
        trier.expect("a fault", command, text, outputs[command])
    trier.read_slowly(chance, text, outputs)


def try_further(trier: Trier, chance: Random) -> None:
    """A datagram or a few after a lawful transfer or its first ones; the rule that the last one breaks is known."""
    view, _ = view_of(chance)
    count = len(view.capture.datagrams)
    if chance.random() < 0.6:
        count = chance.randrange(count + 1)
    found = further(chance, view, count)
    if not found:
        return
    more, broken, passed = found
    datagrams = (*view.capture.datagrams[:count], *more)
    capture = dataclasses.replace(view.capture, datagrams=datagrams)
    verdict = passed.verdict(len(datagrams))
    trier.meet("one more", " ".join(str(broken or "lawful").split()[:2]))
    if broken:
        verdict = f"refused datagram {len(datagrams)} rule {broken}\n".encode(), 1
    text = capture.spelled(chance) if chance.random() < 0.5 else capture.text()
    trier.expect("one more", "check", text, verdict)
    trier.reached.note(verdict)
    trier.read_slowly(chance, text, {"check": verdict})
    if chance.random() < 0.2:
        compare_commands(trier, chance, text, Answers(text))


def is_cut_short(command: str, printed: bytes, whole: bytes) -> bool:
    """Whether a command may print this, in place of the whole, where a growth was refused."""
    if command == "normal":
        return whole.startswith(printed)
    if command == "extract" or not printed:
        return not printed
    rows = printed.removesuffix(b"fault memory\n")
    is_begun = command == "show" and whole.startswith(rows) and rows.endswith(b"\n")
    return rows != printed and (not rows or is_begun)


def try_failing(trier: Trier, chance: Random) -> None:
    """A growth that is refused, or a read or a write that fails, of one byte each."""
    view, _ = view_of(chance)
    count, text = len(view.capture.datagrams), view.capture.text()
    outputs = {**view.meaning.outputs(view.expected(count)), "show": (view.shown(count), 0)}
    command, way = chance.choice(trier.commands), chance.choice(("REFUSE", "FAIL_READ", "FAIL_WRITE"))
    output, status = outputs[command]
    trier.meet("failing", way)
    if way == "REFUSE":
        got = trier.program.run(command, text, REFUSE=chance.randrange(1, 60))
        if not (got[1:] == (b"", 2) and is_cut_short(command, got[0], output)):
            trier.compare(way, command, text, got, (output, status))
    elif way == "FAIL_WRITE":
        turn = chance.randrange(1, len(output) + 3)
        got = trier.program.run(command, text, ONE_BYTE=1, FAIL_WRITE=turn)
        trier.compare(way, command, text, got, (output[: turn - 1], 2) if turn <= len(output) else (output, status))
    else:
        taken = chance.randrange(len(text) + 1)
        line = text[:taken].count(b"\n") + 1
        fault = b"fault line %d Read\n" % line
        wanted = {**outputs_of_refused((fault, 2)), "show": (view.shown(max(0, min(line - 4, count))) + fault, 2)}
        got = trier.program.run(command, text, ONE_BYTE=1, FAIL_READ=taken + 1)
        trier.compare(way, command, text, got, wanted[command])


def try_capture(trier: Trier, chance: Random, group: str, capture: Capture) -> None:
    """The verdict on any capture is that of the rules, however the capture is written."""
    text = capture.text()
    answers = trier.judge(group, text)
    verdict = answers.of("check")
    way = chance.randrange(6)
    if way == 0:
        trier.expect("in another spelling", "check", capture.spelled(chance), verdict)
    elif way == 1:
        trier.expect("renumbered", "check", changes.renumbered(chance, capture).text(), verdict)
    elif way == 2 and capture.version == 1:
        trier.expect("with hosts", "check", capture.with_hosts().text(), verdict)
    elif way == 3 and chance.random() < 0.3:
        trier.expect_in_pieces(chance, text, verdict)
    elif way == 4:
        try_prefixes(trier, capture, verdict)
    compare_commands(trier, chance, text, answers)


def try_changed(trier: Trier, chance: Random) -> None:
    """Captures with changed datagrams."""
    view, _ = view_of(chance)
    try_capture(trier, chance, "changed", changes.changed_capture(chance, view.capture))


def try_aimed(trier: Trier, chance: Random) -> None:
    """Captures with datagrams near the limits of the rules."""
    view, _ = view_of(chance)
    try_capture(trier, chance, "aimed", aimed(chance, view))


def try_both(trier: Trier, chance: Random) -> None:
    """A fault of the text behind datagrams near the limits of the rules, of which one may be refused."""
    view, _ = view_of(chance)
    text, _, _ = faults.faulty(chance, aimed(chance, view))
    compare_commands(trier, chance, text, trier.judge("fault behind", text))


def try_changed_text(trier: Trier, chance: Random) -> None:
    """Texts with changed bytes."""
    view, _ = view_of(chance)
    text = (aimed(chance, view) if chance.random() < 0.3 else view.capture).spelled(chance)
    for _ in range(chosen(chance, (1, 5), (2, 1), (4, 1))):
        text = changes.changed_text(chance, text)
    if chance.random() < 0.5:
        text = changes.with_right_total(text)
    answers = trier.judge("changed text", text)
    if chance.random() < 0.1:
        trier.expect_in_pieces(chance, text, answers.of("check"))
    compare_commands(trier, chance, text, answers)


def try_case(trier: Trier, seed: int) -> None:
    """The case of this number."""
    chance = Random(seed)
    failing = 2 if trier.program.shim else 0
    way = chosen(
        chance, (try_lawful, 7), (try_further, 5), (try_faulty, 2), (try_changed, 4), (try_aimed, 7),
        (try_changed_text, 2), (try_both, 1), (try_failing, failing),
    )
    way(trier, chance)
