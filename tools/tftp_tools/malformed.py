"""Why a payload spells no packet, which byte shows it, and what usually sends such a one (docs/SPECIFICATION.md,
"Packets"). The program names the fault; this looks for where it stands."""
from __future__ import annotations

from collections.abc import Callable, Iterator
from dataclasses import dataclass

from .packets import count, words_of
from .rules import PACKET_FAULTS

Lines = list[str]
OPCODES = {1: "RRQ", 2: "WRQ", 3: "DATA", 4: "ACK", 5: "ERROR", 6: "OACK"}
LONGEST_REQUEST = 512
SHOWN = 40


@dataclass(frozen=True)
class String:
    """A string of a payload, and the byte at which it begins, counted from 1."""

    text: bytes
    byte: int

    def told(self) -> str:
        return words_of(self.text[:SHOWN]) + ("..." if len(self.text) > SHOWN else "")


def strings_of(payload: bytes) -> list[String]:
    """The strings behind the opcode, each without its zero byte; what stands behind the last zero byte is none."""
    found, begin = [], 2
    for place, byte in enumerate(payload):
        if place >= 2 and byte == 0:
            found.append(String(payload[begin:place], begin + 1))
            begin = place + 1
    return found


def kind_of(payload: bytes) -> str:
    return OPCODES.get(int.from_bytes(payload[:2], "big"), "") if len(payload) >= 2 else ""


def options_of(payload: bytes) -> Iterator[tuple[String, String]]:
    """The options' names, each with its value."""
    strings = strings_of(payload)
    behind = strings if kind_of(payload) == "OACK" else strings[2:]
    return zip(behind[::2], behind[1::2])


def short(payload: bytes) -> Lines:
    kind = kind_of(payload)
    if not kind:
        return [f"It has {count(len(payload), 'byte')}, and an opcode alone has 2."]
    wanted = "block number" if kind == "DATA" else "error code"
    return [f"It begins as {kind} and has {count(len(payload), 'byte')}; opcode and {wanted} are 4."]


def opcode(payload: bytes) -> Lines:
    return [f"Its first two bytes are {payload[:2].hex(' ')}, opcode {int.from_bytes(payload[:2], 'big')}."]


def ack_length(payload: bytes) -> Lines:
    lines = [f"It begins as an ACK and has {count(len(payload), 'byte')}."]
    return [*lines, f"Behind its fourth byte stands {payload[4:28].hex(' ')}."] if len(payload) > 4 else lines


def no_terminator(payload: bytes) -> Lines:
    kind, size = kind_of(payload), count(len(payload), "byte")
    begin = 4 if kind == "ERROR" else 2
    place = payload.find(b"\0", begin)
    if kind == "ERROR" and 0 <= place < len(payload) - 1:
        behind = payload[place + 1 :][:24].hex(" ")
        return [f"The {kind}'s text ends with the zero byte at byte {place + 1} of {size}; behind it stands {behind}."]
    if payload.endswith(b"\0"):
        return [f"The {kind} has one string alone, {strings_of(payload)[0].told()}: the mode is missing."]
    last = f"the last is 0x{payload[-1]:02x}" if len(payload) > begin else "none is behind the opcode"
    return [f"The {kind} has {size}, {last}."]


def odd_options(payload: bytes) -> Lines:
    last = strings_of(payload)[-1]
    return [f"The last option, {last.told()} at byte {last.byte}, has no value."]


def empty_name(payload: bytes) -> Lines:
    for name, value in options_of(payload):
        if not name.text:
            return [f"At byte {name.byte} stands an empty name; its value is {value.told()}."]
    return []


def duplicate(payload: bytes) -> Lines:
    seen: dict[bytes, tuple[String, String]] = {}
    for name, value in options_of(payload):
        before = seen.setdefault(name.text.lower(), (name, value))
        if before[0] is not name:
            was, is_now = (f"{one.told()} at byte {one.byte} with the value {its.told()}" for one, its in
                           (before, (name, value)))
            return [f"Its option {was}, and again {is_now}."]
    return []


def mode(payload: bytes) -> Lines:
    strings = strings_of(payload)
    return [f"Its mode is {strings[1].told()}, at byte {strings[1].byte}."] if len(strings) > 1 else []


def too_long(payload: bytes) -> Lines:
    over = len(payload) - LONGEST_REQUEST
    return [f"The {kind_of(payload)} has {count(len(payload), 'byte')}, which is {over} more."]


SHOWING: dict[str, Callable[[bytes], Lines]] = {
    "Short": short, "Opcode": opcode, "AckLength": ack_length, "NoTerminator": no_terminator,
    "OddOptions": odd_options, "EmptyOptionName": empty_name, "DuplicateOption": duplicate, "UnknownMode": mode,
    "MailMode": mode, "RequestTooLong": too_long,
}


def explain_malformed(payload: bytes, fault: str) -> Lines:
    """What the fault is, and where in the payload it shows."""
    if fault not in PACKET_FAULTS:
        return [f"The fault is {fault}: see docs/SPECIFICATION.md."]
    return [f"The fault is {fault}: {PACKET_FAULTS[fault].says}.", *SHOWING[fault](payload)]


def usual_cause(fault: str) -> str:
    """What usually sends such a payload."""
    known = PACKET_FAULTS.get(fault)
    return known.usually if known else "see docs/VERDICTS.md"
