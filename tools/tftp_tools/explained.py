"""A verdict in words: for each line that `check` prints, what the capture has to do with it."""
from __future__ import annotations

import datetime
from typing import Optional

from .capture import Capture, Datagram, packet_of
from .compared import COMPARED, at, blocks_to, side
from .history import History, block_of, content_of, history_before
from .malformed import usual_cause
from .packets import ERROR_CODES, Data, Error, Request, count
from .program import Verdict
from .rules import RULES
from .textfaults import explain_fault

Told = list[tuple[str, str]]
BETWEEN = "judged between the ends, by what passed there; the datagrams have the numbers that they have at the client."
ABORTS = {
    0: "the message tells more; atftp gives up so on a repeated OACK, busybox tftpd answers a late datagram so",
    1: "a wrong file name or folder, or the right one in other letter case; boot loaders ask for many missing files",
    2: "the file's permissions, or a server that lets nobody write, or write new files",
    3: "the disk of the end that writes, or its quota",
    4: "a server that does not know an option or opcode, or a client that got something out of turn",
    5: "an end that took the other's datagram for a stray, as after it was started anew",
    6: "a server that does not write over files",
    8: "an option that the end cannot take; UEFI asks for the size first, and gives up so on purpose",
}


def where(capture: Capture, datagram: Datagram) -> str:
    text = "the client's text" if capture.is_between else "the text"
    told = [f"line {datagram.line} of {text}"]
    if datagram.frame is not None:
        told.append(f"frame {datagram.frame} of the recording")
    if datagram.time is not None:
        moment = datetime.datetime.fromtimestamp(int(datagram.time.split(".")[0]), datetime.timezone.utc)
        told.append(f"{moment:%Y-%m-%d %H:%M:%S}.{datagram.time.split('.')[1][:6]} UTC")
        first = capture.datagrams[0]
        since = datagram.seconds_since(first)
        if since is not None and datagram != first:
            told.append(f"{since:.6f} s after datagram {first.number}")
    return ", ".join(told)


def what(capture: Capture, datagram: Datagram) -> str:
    here = f"port {datagram.local} of the {capture.end}"
    there = side(datagram.host, datagram.remote)
    way = f"from {here} to {there}" if datagram.goes_out() else f"from {there} to {here}"
    told = way if capture.is_between else f"{datagram.way}, {way}"
    return f"{told}: {packet_of(datagram).told()}."


def explain_refused(capture: Capture, verdict: Verdict) -> Told:
    refused = verdict.refused()
    assert refused is not None
    number, rule_number, _, fault = refused
    datagram, rule = capture.datagrams[number - 1], RULES[rule_number]
    history = history_before(capture, number)
    told = [("Where", f"{where(capture, datagram)}."), ("What", what(capture, datagram))]
    told.append(("Rule", f"{rule}: {rule.says}."))
    told += [("Why", line) for line in COMPARED[rule_number](history, datagram, fault)]
    usually = usual_cause(fault) if fault else rule.usually
    return told + [("Whose", f"{rule.whose}."), ("Usually", f"{usually}.")]


def transfer(history: History, place: str = "") -> str:
    """What the transfer is and what was agreed, and where it was captured, if no other words are given."""
    request = history.request.packet if history.request else None
    if not isinstance(request, Request):
        return "no request has passed."
    agreed = ", ".join(f"{name} {value}" for name, value in history.agreed())
    options = f"; agreed: {agreed}" if agreed else "; no options agreed"
    verb = "a read of" if request.kind == "get" else "a write of"
    return f"{verb} {request.name} in mode {request.mode}, {place or history.capture.place()}{options}."


def unanswered(history: History) -> Told:
    """A request to which nothing but perhaps an ERROR came back."""
    requests = [passed for passed in history.passed if isinstance(passed.packet, Request)]
    times = f"passed {count(len(requests), 'time')}"
    since = requests[-1].datagram.seconds_since(requests[0].datagram)
    if len(requests) > 1 and since is not None:
        times += f" in {since:.3f} s"
    if history.errors:
        return [("Has", f"the request, which {times}; the ERROR is the answer to it, and nothing came over.")]
    return [("Missing", f"an answer to the request, which {times}.")]


def progress(history: History) -> Told:
    """How far it has come, and what is missing."""
    if history.request is None:
        return [("Missing", "the request, and all that follows it.")]
    if history.reply is None:
        return unanswered(history)
    if history.is_between():
        return passed_on(history)
    return received(history) if history.is_receiver() else sent(history)


def lacks_ack_zero(history: History, way: str) -> bool:
    """Whether a read stands where its client has to answer the OACK by ACK 0, before any block."""
    is_agreed = history.kind() == "get" and history.oack is not None and not history.blocks
    return is_agreed and history.highest("ACK", way) is None


def missing_ack_zero(history: History) -> Told:
    oack = f" in {at(history.oack)}" if history.oack else ""
    return [("Missing", f"ACK 0, by which the client answers the OACK{oack}, and all that follows it.")]


def end_of(history: History, last: Optional[int]) -> str:
    """Where the last block is known, how it is."""
    size, block = history.size(), history.block_size()
    if last is None:
        return f"none was shorter than a block ({count(block, 'byte')})"
    if size is None:
        return f"the last one is block {last}, which is shorter than {count(block, 'byte')}"
    return f"the last one is block {last}, by the size agreed ({count(size, 'byte')} in blocks of {block:,})"


def received(history: History) -> Told:
    if lacks_ack_zero(history, "out"):
        return missing_ack_zero(history)
    last, front, highest = history.last_block(), history.front, max(history.blocks, default=0)
    came = f"{blocks_to(front)} came in" if front else "no block 1 came in"
    acked = history.highest("ACK", "out")
    told = [("Has", f"{came}; the highest ACK sent is {f'{block_of(acked)} in {at(acked)}' if acked else 'none'}.")]
    if last is not None and front >= last:
        return [*told, ("Missing", f"the ACK of the last block, {last}.")]
    if highest > front:
        told.append(("Missing", f"block {front + 1}, though block {highest} came in {at(history.blocks[highest])}."))
        return told
    return [*told, ("Missing", f"block {front + 1} and what follows: {end_of(history, last)}.")]


def passed_on(history: History) -> Told:
    """Between the ends, which blocks and ACKs passed."""
    if lacks_ack_zero(history, "out"):
        return missing_ack_zero(history)
    last, front, highest = history.last_block(), history.front, max(history.blocks, default=0)
    acked = history.highest("ACK", history.receiver_way())
    told = f"{blocks_to(front) if front else 'no block 1'} passed"
    ack = f"{block_of(acked)} in {at(acked)}" if acked else "none"
    has = [("Has", f"{told}; the highest ACK that passed is {ack}.")]
    if last is not None and front >= last:
        return [*has, ("Missing", f"the ACK of the last block, {last}.")]
    if highest > front:
        later = f"block {highest} passed in {at(history.blocks[highest])}"
        return [*has, ("Missing", f"block {front + 1}, though {later}.")]
    return [*has, ("Missing", f"block {front + 1} and what follows: {end_of(history, last)}.")]


def sent(history: History) -> Told:
    if lacks_ack_zero(history, "in"):
        return missing_ack_zero(history)
    last, top, answered = history.last_block(), history.highest("DATA", "out"), history.highest("ACK", "in")
    went = f"block {block_of(top)} in {at(top)}" if top else "none"
    ack = f"{block_of(answered)} in {at(answered)}" if answered else "none"
    told = [("Has", f"the highest block sent is {went}; the highest ACK that came in is {ack}.")]
    if last is not None and last in history.blocks:
        return [*told, ("Missing", f"the ACK of the last block, {last}.")]
    if top and answered and block_of(answered) >= block_of(top) or not top:
        return [*told, ("Missing", f"block {(block_of(top) if top else 0) + 1} and what follows.")]
    return [*told, ("Missing", f"the ACK of block {block_of(top)}, and what follows it." if top else "the blocks.")]


def stopped_by(history: History) -> str:
    """What usually stops a transfer there."""
    if history.request is None or history.reply is not None:
        if lacks_ack_zero(history, "out" if history.at_client() else "in"):
            return ("an OACK that the client did not get or does not know: a firewall or translation of addresses that"
                    " lets through port 69 alone, or a client that gave up; else a recording that ended too early")
        return ("a recording that ended too early or a filter that left something out; else an end that gave up without"
                " a word, or a client that took a block for the last one")
    port = history.capture.service
    if history.is_between():
        return (f"a server that is down, or does not listen at port {port} of that address; a firewall or translation"
                " of addresses, which drops the request or the answer, since that comes from another port; a loss on"
                " the way; or a recording that has the requests alone, as with a filter for port 69")
    if history.at_client():
        return (f"a server that is down, or does not listen at port {port} of that address; a firewall or translation"
                " of addresses between the two, which drops the request or the answer, since that comes from another"
                " port; or a recording that has the requests alone, as with a filter for port 69")
    return (f"a server that is down, or does not listen at port {port}: the requests came as far as its host; a"
            " firewall of that host; or a recording that has the requests alone, as with a filter for port 69")


def explain_incomplete(capture: Capture) -> Told:
    history = history_before(capture, len(capture.datagrams) + 1)
    told = [("Transfer", transfer(history)), *progress(history)]
    if capture.datagrams:
        told.append(("Last", f"{what(capture, capture.datagrams[-1])}"))
        told.append(("Where", f"{where(capture, capture.datagrams[-1])}."))
    return [*told, ("Usually", f"{stopped_by(history)}.")]


def explain_aborted(capture: Capture) -> Told:
    history = history_before(capture, len(capture.datagrams) + 1)
    told = [("Transfer", transfer(history))]
    if not history.errors:
        return told
    first = history.errors[0]
    told += [("Where", f"{where(capture, first.datagram)}."), ("What", what(capture, first.datagram))]
    told.append(("By", f"the {capture.sender(first.datagram)}. No rule was broken."))
    before = history_before(capture, capture.datagrams.index(first.datagram) + 1)
    told += unanswered(history) if history.reply is None else progress(before)
    code = first.packet.code if isinstance(first.packet, Error) else 0
    return told + [("Usually", f"{ABORTS.get(code, ERROR_CODES.get(code, 'see the message'))}.")]


def explain_accepted(capture: Capture) -> Told:
    history = history_before(capture, len(capture.datagrams) + 1)
    told = [("Transfer", transfer(history)), ("Passed", f"{count(len(capture.datagrams), 'datagram')}.")]
    strays = sum(passed.place == "stray" for passed in history.passed)
    if strays:
        told.append(("Strays", f"{count(strays, 'datagram')} of other endpoints, which are none of it."))
    if history.errors:
        error = history.errors[0]
        told.append(("ERROR", f"{at(error)}: {error.packet.told()}. The file came over whole all the same."))
    return told


def explain_too_long(capture: Capture) -> Told:
    history = history_before(capture, len(capture.datagrams) + 1)
    blocks = [passed for passed in history.blocks.values() if isinstance(passed.packet, Data)]
    size = sum(len(content_of(passed)) for passed in blocks)
    told = f"it came over in {count(len(blocks), 'block')} of {count(size, 'byte')} on the wire together"
    return [
        ("Transfer", transfer(history)),
        ("Why", f"{told}. Bare CR or LF in netascii take two bytes each in canonical text, which then has more than"
                " 65,535 blocks. The transfer itself was lawful and whole."),
        ("Usually", "a client that sends line ends as they are (curl); ask for a larger blksize, or use octet mode."),
    ]


def explain(verdict: Verdict, text: bytes, capture: Capture) -> Told:
    """A verdict's explanation, as pairs of a heading and words."""
    place = [("Place", BETWEEN)] if capture.is_between else []
    return [*explain_line(verdict, text, capture), *place]


def explain_line(verdict: Verdict, text: bytes, capture: Capture) -> Told:
    fault = verdict.fault()
    if verdict.refused():
        return explain_refused(capture, verdict)
    if fault:
        return explain_fault(text, *fault)
    for begins, explained in (
        ("accepted", explain_accepted), ("incomplete", explain_incomplete), ("aborted", explain_aborted),
        ("too long", explain_too_long),
    ):
        if verdict.line.startswith(begins):
            return explained(capture)
    if verdict.line == "fault memory":
        return [("Why", "there was not enough memory; nothing is known of the transfer.")]
    return [("Why", "the program was called with words that it does not know; see tftp-audit(1).")]
