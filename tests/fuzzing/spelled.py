"""What a payload spells, or the fault for which it spells nothing, by the tables of docs/SPECIFICATION.md
("Packets")."""
from __future__ import annotations

import dataclasses
import functools
from typing import Union

from normal import MODES, REQUEST_OPCODES, Mode, Options, Side, mode_of, pairs_of

LONGEST_REQUEST = 512


@dataclasses.dataclass(frozen=True)
class Request:
    side: Side
    name: bytes
    mode: Mode
    options: Options


@dataclasses.dataclass(frozen=True)
class Data:
    block: int
    content: bytes


@dataclasses.dataclass(frozen=True)
class Ack:
    block: int


@dataclasses.dataclass(frozen=True)
class Error:
    code: int
    text: bytes


@dataclasses.dataclass(frozen=True)
class Oack:
    options: Options


Message = Union[Request, Data, Ack, Error, Oack]


class Fault(str):
    """The name of a packet's fault."""


def opcode_of(payload: bytes) -> int:
    return int.from_bytes(payload[:2], "big") if len(payload) >= 2 else 0


def is_short(payload: bytes) -> bool:
    return len(payload) < 2 or opcode_of(payload) in (3, 5) and len(payload) < 4


def has_no_terminator(payload: bytes) -> bool:
    opcode = opcode_of(payload)
    if opcode == 5:
        return payload.find(b"\0", 4) != len(payload) - 1
    if opcode == 6:
        return len(payload) > 2 and payload[-1] != 0
    return opcode in (1, 2) and (len(payload) == 2 or payload[-1] != 0 or payload.count(b"\0", 2) == 1)


def strings_of(payload: bytes) -> list[bytes]:
    """The strings behind the opcode, each of which ends with a zero byte."""
    return payload[2:-1].split(b"\0") if len(payload) > 2 else []


def fault_of_options(strings: list[bytes]) -> str:
    """The fault of the strings that stand where options do, or nothing."""
    if len(strings) % 2:
        return "OddOptions"
    names = [name.lower() for name in strings[::2]]
    if b"" in names:
        return "EmptyOptionName"
    return "DuplicateOption" if len(names) > len(set(names)) else ""


def fault_of_request(payload: bytes) -> str:
    mode = strings_of(payload)[1].lower()
    if mode == b"mail":
        return "MailMode"
    if mode not in [known.encode() for known in MODES]:
        return "UnknownMode"
    has_options = len(strings_of(payload)) > 2
    return "RequestTooLong" if has_options and len(payload) > LONGEST_REQUEST else ""


def fault_of(payload: bytes) -> str:
    """The first fault that holds, or nothing."""
    opcode = opcode_of(payload)
    if is_short(payload):
        return "Short"
    if not 1 <= opcode <= 6:
        return "Opcode"
    if opcode == 4 and len(payload) != 4:
        return "AckLength"
    if has_no_terminator(payload):
        return "NoTerminator"
    if opcode == 6:
        return fault_of_options(strings_of(payload))
    if opcode in (1, 2):
        return fault_of_options(strings_of(payload)[2:]) or fault_of_request(payload)
    return ""


@functools.lru_cache(maxsize=4096)
def read(payload: bytes) -> Union[Message, Fault]:
    """What it spells."""
    if fault := fault_of(payload):
        return Fault(fault)
    opcode, number, rest = opcode_of(payload), int.from_bytes(payload[2:4], "big"), payload[4:]
    if opcode == 3:
        return Data(number, rest)
    if opcode == 4:
        return Ack(number)
    if opcode == 5:
        return Error(number, rest[:-1])
    strings = strings_of(payload)
    if opcode == 6:
        return Oack(pairs_of(strings))
    side = next(side for side, its in REQUEST_OPCODES.items() if its == opcode)
    return Request(side, strings[0], mode_of(strings[1]), pairs_of(strings[2:]))
