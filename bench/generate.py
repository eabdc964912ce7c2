"""Writes what the benchmarks read, with about so many bytes: generate.py KIND BYTES, and KIND is one of

    capture     the capture of a lawful read in blocks of 512 bytes in lock step, or of as many bytes as a third word
                says, and in windows of as many blocks as a fourth word says
    netascii    that of a read in netascii: lines of 76 signs, in blocks of 1,428 bytes in lock step
    reversed    that of a read of 65,535 blocks of 8 bytes in one window, whose first block comes last
    strays      that of a read of one block, among 524,272 datagrams of 65,534 strays, told by their ports
    returns     that of a read in netascii, in blocks of 65,464 bytes, of a file that is CR alone
    old         the same of a text with the line ends of old machines: lines of 79 signs that end in CR
    requests    that of a read of one block whose request comes again and again, with as many options of unknown names
                as a third word says, in at most 512 bytes
    oacks       the request of a read and again and again the same OACK, of 64 options whose names have 1,020 bytes
    alike       the same of 1,000 options whose names have 62 bytes and one number, so that it does not tell them apart
    tiny        the same of 16,000 options whose names have two bytes, and two options whose names have one number
    three       the same of 13,000 options whose names have three bytes
    nine        the same of 5,900 options whose names have nine bytes, of which the first seven are the same
    respelled   that of a read of one block whose request comes again and again, with 35 options of names of one number,
                and each time in other letters' case
    once        that of a read of one block, among one datagram from each of 65,534 strays; the least has 1.1 MB
    blank       a capture of one datagram among empty lines
    hosts       a capture of version 2 of a read of one block among datagrams of strays, each from another host, of 45
                bytes, in no order
    comments    a capture of one datagram among comment lines of 25 bytes each
    short       the same with comment lines of 2 bytes each
    acks        a capture of acknowledgements alone, in lines of 25 bytes each
    file        a text whose lines end in LF
    wire        a text whose lines end in CR LF
    random      bytes of every value, the same each time
    recording   a recording of that read in the format pcap, in frames of Ethernet, IPv4 and UDP
    asks        a recording of requests alone, each from another client
    transfers   a recording of lawful reads one after another, in blocks of 1,428 bytes in lock step, each of a file of
                as many bytes as a third word says, or without one of a single read
    ports       the ports 1 to 65534 in another order, and again, by two bytes each

The bytes of the blocks are random, as those of firmware are, and the same each time; the last block is shorter. There
are at most 65,535 blocks: in a larger capture each block comes several times before its acknowledgement, and the blocks
of `reversed` come round and round. The strays of a larger capture are longer; the least has 12.6 MB.
"""
from __future__ import annotations

import base64
import pathlib
import random
import struct
import sys
from collections.abc import Callable, Iterable

sys.path.append(str(pathlib.Path(__file__).resolve().parent.parent / "tests"))

import alike as crowded  # noqa: E402
import recorded  # noqa: E402

HEADER = b"tftp-capture 1\nend client\nservice 69\n"
# The blocks of a read whose request names no size (RFC 1350), and their number at most.
USUAL, MOST = 512, 65_535
# The most bytes of a block in one frame of Ethernet (RFC 2348), and the least that may be agreed.
FRAME, LEAST = 1_428, 8
# The largest block that may be agreed (RFC 2348).
LARGEST = 65_464
SERVER = 41_000
REQUEST = b"\0\1a\0octet\0"
# How many bytes the line of a datagram without content has that comes from a host of 45 bytes.
LINE_OF_HOST = 62
AT_ONCE = 10_000
WORDS = b"the quick brown fox jumps over the lazy dog and then it sleeps all day"
out = sys.stdout.buffer
chance = random.Random(1350)


def repeat(line: bytes, count: int) -> None:
    """The line so many times."""
    for _ in range(count // AT_ONCE):
        out.write(line * AT_ONCE)
    out.write(line * (count % AT_ONCE))


def head(size: int = USUAL, window: int = 1, mode: bytes = b"octet") -> int:
    """The header and the request, with the sizes agreed that are not the usual ones: how many datagrams."""
    options = b"" if size == USUAL else b"blksize\0%d\0" % size
    options += b"" if window == 1 else b"windowsize\0%d\0" % window
    request = b"\0\1a\0" + mode + b"\0" + options
    out.write(HEADER + f"out 40000 69 {request.hex()}\n".encode())
    if not options:
        return 1
    out.write(f"in 40000 {SERVER} 0006{options.hex()}\n".encode() + ack_line(0))
    return 3


def data_line(number: int, block: bytes, port: int = SERVER) -> bytes:
    return f"in 40000 {port} 0003{number:04x}{block.hex()}\n".encode()


def ack_line(number: int) -> bytes:
    return f"out 40000 {SERVER} 0004{number:04x}\n".encode()


def total_line(count: int) -> bytes:
    return f"total {count}\n".encode()


def capture(wanted: int, size: int = USUAL, window: int = 1) -> None:
    """A read of many blocks, each as often as is needed, in windows of so many."""
    data, ack = len(data_line(1, bytes(size))), len(ack_line(1))
    times = 1 + wanted // ((MOST - 1) * data)
    blocks = 1 + max(1, wanted * window // (window * times * data + ack))
    before, acks = head(size, window), 0
    for number in range(1, blocks):
        out.write(data_line(number, chance.randbytes(size)) * times)
        if number % window == 0:
            out.write(ack_line(number))
            acks += 1
    out.write(data_line(blocks, b"hi") + ack_line(blocks))
    out.write(total_line(before + (blocks - 1) * times + acks + 2))


def text_lines(size: int) -> bytes:
    """About so many bytes of a text file, in lines of 76 random signs and an LF."""
    return base64.encodebytes(chance.randbytes(size * 57 // 77))


def netascii(wanted: int) -> None:
    """A read of a text file."""
    each = len(data_line(1, bytes(FRAME))) + len(ack_line(1))
    wire = text_lines(wanted * FRAME // each).replace(b"\n", b"\r\n")
    before, blocks = head(FRAME, mode=b"netascii"), len(wire) // FRAME + 1
    if blocks > MOST:
        sys.exit(f"generate.py: {blocks} blocks, and there are numbers for {MOST}")
    for number in range(1, blocks + 1):
        out.write(data_line(number, wire[(number - 1) * FRAME : number * FRAME]) + ack_line(number))
    out.write(total_line(before + 2 * blocks))


def backwards(wanted: int) -> None:
    """A read in one window: all blocks but the first, round and round, and the first one at the end."""
    file = chance.randbytes(MOST * LEAST - 1)
    lines = [data_line(1 + at // LEAST, file[at : at + LEAST]) for at in range(0, len(file), LEAST)]
    turn = b"".join(lines[:0:-1])
    turns = max(1, wanted // len(turn))
    before = head(LEAST, MOST)
    for _ in range(turns):
        out.write(turn)
    out.write(lines[0] + ack_line(MOST))
    out.write(total_line(before + turns * (MOST - 1) + 2))


def netascii_wire(wanted: int, line: bytes) -> None:
    """A read in netascii of about so many bytes of a wire that is this line again and again, in the largest blocks."""
    blocks = max(2, wanted // (2 * LARGEST))
    wire = (line * (blocks * LARGEST // len(line) + 1))[: (blocks - 1) * LARGEST + 2 * (LARGEST // 4)]
    before = head(LARGEST, mode=b"netascii")
    for number in range(1, blocks + 1):
        out.write(data_line(number, wire[(number - 1) * LARGEST : number * LARGEST]) + ack_line(number))
    out.write(total_line(before + 2 * blocks))


def requests(wanted: int, options: int) -> None:
    """A read of one block whose request has so many options, and comes again and again before the answer."""
    names = (b"%c%c\0" % (97 + at // 16, 97 + at % 16) for at in range(options))
    line = f"out 40000 69 {(REQUEST + b''.join(it + bytes(1) for it in names)).hex()}\n".encode()
    times = max(1, wanted // len(line))
    out.write(HEADER)
    repeat(line, times)
    out.write(data_line(1, b"hi") + ack_line(1) + total_line(times + 2))


def oacks(wanted: int, names: Iterable[bytes], value: bytes = b"") -> None:
    """A request, and the same OACK of options with these names again and again, which is not lawful."""
    options = b"".join(name + b"\0" + value + b"\0" for name in names)
    line = f"in 40000 {SERVER} 0006{options.hex()}\n".encode()
    times = max(1, wanted // len(line))
    out.write(HEADER + f"out 40000 69 {REQUEST.hex()}\n".encode())
    for _ in range(times):
        out.write(line)
    out.write(total_line(times + 1))


def respelled(wanted: int) -> None:
    """A read of one block whose request has names of one number, and comes again and again in other letters' case."""
    names = crowded.alike(12, 35)
    options = b"".join(name + bytes(2) for name in names)
    lines = [
        f"out 40000 69 {(REQUEST + spelled(options, at)).hex()}\n".encode() for at in range(4)
    ]
    times = max(1, wanted // (4 * len(lines[0])))
    out.write(HEADER)
    for _ in range(times):
        out.write(b"".join(lines))
    out.write(data_line(1, b"hi") + ack_line(1) + total_line(4 * times + 2))


def spelled(options: bytes, way: int) -> bytes:
    """The options with their letters in one of four ways of upper and lower case."""
    return bytes(it - 32 if 97 <= it <= 122 and place * way % 3 == 1 else it for place, it in enumerate(options))


def once(wanted: int) -> None:
    """A read of one block, and between it and its acknowledgement a datagram from each other port. The text has 1.1 MB,
    or as much more as their payloads have to have."""
    others = [port for port in range(1, 65_536) if port != SERVER]
    chance.shuffle(others)
    before, line = head(), "in 40000 {} {}\n"
    content = "00" * (max(0, wanted - len(others) * 17) // (2 * len(others))) or "-"
    out.write(data_line(1, b"hi"))
    for port in others:
        out.write(line.format(port, content).encode())
    out.write(ack_line(1) + total_line(before + 2 + len(others)))


def hosts(wanted: int) -> None:
    """A read of one block, and in its midst a datagram from each of many hosts."""
    line = f"in 40000 192.0.2.1 {SERVER} 00030001{b'hi'.hex()}\n".encode()
    out.write(HEADER.replace(b"capture 1", b"capture 2") + f"out 40000 192.0.2.1 69 {REQUEST.hex()}\n".encode() + line)
    names = (at.to_bytes(4, "big").hex().encode().rjust(45, b"h") for at in range(wanted // LINE_OF_HOST))
    others = [b"in 40000 %s 1000 -\n" % name for name in names]
    chance.shuffle(others)
    out.write(b"".join(others))
    out.write(f"out 40000 192.0.2.1 {SERVER} 00040001\n".encode() + total_line(3 + len(others)))


def strays(wanted: int) -> None:
    """A read of one block, and between it and its acknowledgement blocks from each other port, eight from each."""
    others, turns = [port for port in range(1, 65_536) if port != SERVER], 8
    shortest = len(data_line(1, b"", 10_000))
    size = max(0, wanted // (len(others) * turns) - shortest) // 2
    before = head()
    out.write(data_line(1, b"hi"))
    for _ in range(turns):
        chance.shuffle(others)
        for port in others:
            out.write(data_line(1, chance.randbytes(size), port))
    out.write(ack_line(1) + total_line(before + 2 + turns * len(others)))


def acks(wanted: int) -> None:
    """A capture of acknowledgements, which is not lawful."""
    line = ack_line(1)
    before = head()
    repeat(line, wanted // len(line))
    out.write(total_line(before + wanted // len(line)))


def comments(line: bytes, wanted: int) -> None:
    """A capture of a request alone."""
    before = head()
    repeat(line, wanted // len(line))
    out.write(total_line(before))


def record(number: int, source: int, target: int, payload: bytes, client: int = 40_000) -> bytes:
    """A datagram between the two ends in a frame, a tenth of a millisecond after the one before."""
    udp = struct.pack("!HHHH", source, target, 8 + len(payload), 0) + payload
    hosts = bytes((192, 0, 2, 1, 192, 0, 2, 7)) if target == client else bytes((192, 0, 2, 7, 192, 0, 2, 1))
    ip = struct.pack("!BBHHHBBH", 0x45, 0, 20 + len(udp), number % 65_535 + 1, 0, 64, 17, 0) + hosts
    frame = bytes(12) + b"\x08\0" + ip + udp
    return recorded.record(recorded.Frame(recorded.ETHERNET, frame, recorded.FIRST_TIME + 100_000 * number))


def recording(wanted: int, size: int = USUAL) -> None:
    """A recording of a read in blocks of this size in lock step, round and round."""
    out.write(recorded.header(recorded.ETHERNET))
    out.write(record(0, 40_000, 69, REQUEST))
    pairs = wanted // (len(record(0, SERVER, 40_000, bytes(4 + size))) + len(record(0, 40_000, SERVER, bytes(4))))
    for pair in range(pairs):
        block = struct.pack("!H", pair % MOST + 1)
        out.write(record(2 * pair + 1, SERVER, 40_000, b"\0\3" + block + chance.randbytes(size)))
        out.write(record(2 * pair + 2, 40_000, SERVER, b"\0\4" + block))


def one_transfer(first: int, client: int, server: int, size: int) -> int:
    """A read of so many bytes from this frame on, in blocks of one frame each, with its OACK: how many frames."""
    options = b"blksize\0%d\0" % FRAME
    payloads = [REQUEST + options, b"\0\6" + options, b"\0\4\0\0"]
    for number in range(1, size // FRAME + 2):
        block = struct.pack("!H", number)
        payloads += [b"\0\3" + block + chance.randbytes(min(FRAME, size - (number - 1) * FRAME)), b"\0\4" + block]
    for place, payload in enumerate(payloads):
        source, target = (server, client) if place % 2 else (client, server if place else 69)
        out.write(record(first + place, source, target, payload, client))
    return len(payloads)


def transfers(wanted: int, size: int = 0) -> None:
    """A recording of so many reads of this size, or of one, that it has about so many bytes."""
    pair = len(record(0, SERVER, 40_000, bytes(4 + FRAME))) + len(record(0, 40_000, SERVER, bytes(4)))
    size = size or min(MOST - 1, wanted // pair) * FRAME
    out.write(recorded.header(recorded.ETHERNET))
    frames = 0
    for number in range(max(1, wanted // ((size // FRAME + 1) * pair))):
        frames += one_transfer(frames, 20_000 + number % 10_000, 40_000 + number % 10_000, size)


def asks(wanted: int) -> None:
    """A recording of requests, each from another endpoint."""
    out.write(recorded.header(recorded.ETHERNET))
    for number in range(wanted // len(record(0, 40_000, 69, REQUEST))):
        host, port = divmod(number, 60_000)
        udp = struct.pack("!HHHH", 1_024 + port, 69, 8 + len(REQUEST), 0) + REQUEST
        hosts = bytes((10, 0, 0, 1 + host, 192, 0, 2, 1))
        ip = struct.pack("!BBHHHBBH", 0x45, 0, 20 + len(udp), number % 65_535 + 1, 0, 64, 17, 0) + hosts
        frame = bytes(12) + b"\x08\0" + ip + udp
        out.write(recorded.record(recorded.Frame(recorded.ETHERNET, frame, recorded.FIRST_TIME + 1_000 * number)))


def ports(wanted: int) -> None:
    """Each port once before it comes again, and those beside each other far apart."""
    for turn in range(wanted // 2):
        out.write((1 + turn * 40_503 % 65_534).to_bytes(2, "big"))


def file(wanted: int) -> None:
    """A text whose lines end in LF."""
    repeat(WORDS + b"\n", wanted // (len(WORDS) + 1))


def wire(wanted: int) -> None:
    """A text whose lines end in CR LF."""
    repeat(WORDS + b"\r\n", wanted // (len(WORDS) + 2))


KINDS: dict[str, Callable[..., object]] = {
    "recording": recording,
    "transfers": transfers,
    "capture": capture,
    "netascii": netascii,
    "reversed": backwards,
    "strays": strays,
    "returns": lambda wanted: netascii_wire(wanted, b"\r\0"),
    "old": lambda wanted: netascii_wire(wanted, bytes(chance.choices(range(97, 123), k=79)) + b"\r\0"),
    "requests": requests,
    "oacks": lambda wanted: oacks(wanted, (b"a" * 1_019 + bytes((128 + at,)) for at in range(64)), b"1"),
    "alike": lambda wanted: oacks(wanted, crowded.alike(62, 1_000)),
    "tiny": lambda wanted: oacks(wanted, [*crowded.alike(10, 2), *crowded.short(2, 16_000)]),
    "three": lambda wanted: oacks(wanted, crowded.short(3, 13_000)),
    "nine": lambda wanted: oacks(wanted, (b"aaaaaaa" + it for it in crowded.short(2, 5_900))),
    "respelled": respelled,
    "once": once,
    "blank": lambda wanted: comments(b"\n", wanted),
    "asks": asks,
    "hosts": hosts,
    "acks": acks,
    "comments": lambda wanted: comments(b"# this line says nothing\n", wanted),
    "short": lambda wanted: comments(b"#\n", wanted),
    "file": file,
    "wire": wire,
    "random": lambda wanted: out.write(chance.randbytes(wanted)),
    "ports": ports,
}


def main(kind: str, *numbers: str) -> None:
    KINDS.get(kind, wire)(*(int(number) for number in numbers))


if __name__ == "__main__":
    main(*sys.argv[1:])
