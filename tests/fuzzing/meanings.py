"""Meanings of transfers by chance, the wire text of each, and how their packets are spelled."""
from __future__ import annotations

from random import Random
from typing import TypeVar

from fuzzing.ends import Kind, Packet
from normal import KNOWN, MODES, SIDES, USUAL_SIZE, Meaning, Mode, Options, Value, decoded, number, text_of

T = TypeVar("T")

REQUEST_LIMIT = 512
UNKNOWN = (b"utimeout", b"foo", b"multicast", b"rollover", b"x-\xff", b"a b", b"blksize2", b"-")
# Values that are no number of a known option's range.
NO_NUMBERS = {
    b"blksize": (b"7", b"65465", b"0", b"", b"+8", b"8 ", b"1e3"),
    b"timeout": (b"0", b"256", b"", b"-1", b"05x"),
    b"tsize": (b"18446744073709551616", b"", b"-0", b"0x10"),
    b"windowsize": (b"0", b"65536", b"", b" 4"),
}


def chosen(chance: Random, *pairs: tuple[T, float]) -> T:
    """One of the values, each as often as its weight says."""
    return chance.choices([value for value, _ in pairs], [weight for _, weight in pairs])[0]


def name_of(chance: Random) -> bytes:
    length = chosen(chance, (0, 1), (1, 6), (chance.randrange(2, 20), 6), (chance.randrange(20, 300), 1))
    letters = chosen(chance, (range(97, 123), 4), (range(32, 127), 2), (range(1, 256), 1))
    return bytes(chance.choices(letters, k=length))


def requested_number(chance: Random, name: bytes) -> int:
    if name == b"blksize":
        return chosen(
            chance, (8, 8), (chance.randrange(9, 40), 8), (chance.randrange(40, 512), 2), (512, 2),
            (chance.randrange(513, 1500), 2), (65_464, 1),
        )
    if name == b"windowsize":
        most = 65_535 - chance.randrange(2)
        return chosen(chance, (1, 3), (chance.randrange(2, 9), 12), (chance.randrange(9, 40), 2), (most, 3))
    if name == b"timeout":
        return chosen(chance, (chance.randrange(1, 256), 4), (1, 1), (255, 1))
    return chosen(chance, (0, 6), (chance.randrange(1, 1000), 2), (2**64 - 1, 1))


def requested_options(chance: Random) -> dict[bytes, Value]:
    """What a client asks for."""
    if chance.random() < 0.25:
        return {}
    options: dict[bytes, Value] = {}
    for name in chance.sample(sorted(KNOWN), chance.randrange(len(KNOWN) + 1)):
        is_number = chance.random() < 0.95
        options[name] = requested_number(chance, name) if is_number else chance.choice(NO_NUMBERS[name])
    if chance.random() < 0.2:
        for name in chance.sample(UNKNOWN, chance.randrange(1, 3)):
            options[name] = bytes(chance.choices(range(1, 256), k=chance.randrange(6)))
    return options


def agreed_options(chance: Random, requested: Options) -> dict[bytes, int]:
    """What a server agrees to of them, but for `tsize` of a read, whose number is the file's."""
    agreed: dict[bytes, int] = {}
    is_willing = chance.random() < 0.9
    for name, value in requested.items():
        if not is_willing or name not in KNOWN or isinstance(value, bytes) or chance.random() < 0.1:
            continue
        if name in (b"blksize", b"windowsize") and chance.random() < 0.4:
            least = KNOWN[name][0]
            value = chosen(chance, (least, 1), (chance.randint(least, min(value, least + 40)), 3))
        elif name == b"blksize":
            # the most that may be agreed, but of seldom use in a text that is to be short
            value = value if value < 2_000 or chance.random() < 0.2 else chance.randrange(8, 100)
        agreed[name] = value
    return agreed


def wire_length(chance: Random, size: int) -> int:
    """A few blocks, of which the last one has any length below the size."""
    most = 8 if size < 200 else 3 if size < 2_000 else 2
    count = chosen(chance, (chance.randint(1, most), 12), (1, 3), (chance.randint(most, 6 * most), 1))
    rest = chosen(chance, (chance.randrange(size), 3), (0, 1), (size - 1, 1))
    return (count - 1) * size + rest


def wire_of(chance: Random, mode: Mode, length: int) -> bytes:
    if mode == "octet":
        return chance.randbytes(length)
    signs = chosen(chance, (b"ab\r\n\0", 2), (b"abcdefghijk \r\n", 2), (b"\r\n\0", 1))
    return bytes(chance.choices(signs, k=length))


def meaning_of(chance: Random) -> tuple[Meaning, bytes]:
    """A meaning, and a wire text that it may have been sent as."""
    side, mode = chance.choice(SIDES), chosen(chance, *zip(MODES, (7, 3)))
    requested = requested_options(chance)
    agreed = agreed_options(chance, requested)
    length = wire_length(chance, agreed.get(b"blksize", USUAL_SIZE))
    wire = wire_of(chance, mode, length)
    if b"tsize" in agreed and mode == "octet":
        agreed[b"tsize"] = length
        if side == "put":
            requested[b"tsize"] = length
    elif b"tsize" in agreed and side == "get":
        agreed[b"tsize"] = chance.choice((length, 0, 2**64 - 1))
    file = decoded(wire) if mode == "netascii" else wire
    return Meaning(side, name_of(chance), mode, requested, agreed, file), wire


def mixed_case(chance: Random, text: bytes) -> bytes:
    """The text as it is, or with some of its ASCII letters in capitals."""
    if chance.random() < 0.7:
        return text
    return b"".join(bytes([sign]).upper() if chance.random() < 0.5 else bytes([sign]) for sign in text)


def spelled_options(chance: Random, options: Options) -> bytes:
    """The pairs of a map, in any order and letter case, with zeros before numbers."""
    names = list(options)
    if chance.random() < 0.5:
        chance.shuffle(names)
    pairs = bytearray()
    for name in names:
        zeros = b"0" * chosen(chance, (0, 8), (chance.randrange(4), 1)) if isinstance(options[name], int) else b""
        pairs += mixed_case(chance, name) + b"\0" + zeros + text_of(options[name]) + b"\0"
    return bytes(pairs)


def spelled_request(chance: Random, meaning: Meaning) -> bytes:
    opcode = number(1 if meaning.side == "get" else 2)
    head = opcode + meaning.name + b"\0" + mixed_case(chance, meaning.mode.encode()) + b"\0"
    return head + spelled_options(chance, meaning.requested)


class Spelling:
    """The payloads of a transfer's packets; a request or OACK is mostly spelled as it was before."""

    def __init__(self, chance: Random, meaning: Meaning, wire: bytes) -> None:
        self.chance, self.meaning, self.wire = chance, meaning, wire
        self.before: dict[Kind, bytes] = {}

    def payload(self, packet: Packet) -> bytes:
        kind = packet.kind
        if kind == "data":
            at = (packet.number - 1) * self.meaning.size
            return number(3) + number(packet.number) + self.wire[at : at + self.meaning.size]
        if kind == "ack":
            return number(4) + number(packet.number)
        if kind == "error":
            return number(5) + number(packet.number) + packet.message + b"\0"
        if kind not in self.before or self.chance.random() < 0.2:
            self.before[kind] = self.spelled(kind)
        return self.before[kind]

    def spelled(self, kind: Kind) -> bytes:
        if kind == "oack":
            return number(6) + spelled_options(self.chance, self.meaning.agreed)
        return spelled_request(self.chance, self.meaning)

    def said(self, packet: Packet) -> str:
        """What `show` prints of it."""
        if packet.kind == "request":
            return "RRQ" if self.meaning.side == "get" else "WRQ"
        if packet.kind == "data":
            return f"DATA {packet.number} {len(self.payload(packet)) - 4}"
        return "OACK" if packet.kind == "oack" else f"{packet.kind.upper()} {packet.number}"
