"""Changes of lawful captures and of their texts, of which some stay lawful."""
from __future__ import annotations

import dataclasses
from random import Random

from captures import EndName
from fuzzing.meanings import chosen
from fuzzing.views import HOSTS, STRAY_REQUESTS, STRAYS, Capture, Datagram, port_of
from normal import number

OTHER_END: dict[EndName, EndName] = {"client": "server", "server": "client"}
PAYLOAD_LIMIT, LINE_LIMIT = 65_527, 131_070


def changed_bytes(chance: Random, payload: bytes) -> bytes:
    """Bytes of a payload that are others, gone, more, or twice."""
    at = chance.randrange(len(payload) + 1)
    near = chance.randrange(min(len(payload), 12) + 1)
    return chosen(
        chance,
        (payload[:near] + chance.randbytes(1) + payload[near + 1 :], 4),
        (payload[:at] + chance.randbytes(1) + payload[at + 1 :], 2),
        (payload[:at], 2),
        (payload[:near] + payload[near + 1 :], 2),
        (payload[:near] + chance.choice((b"\0", b"\1", b"0", b"\xff")) + payload[near:], 2),
        (payload + chance.choice((b"\0", b"1", b"blksize\0008\0", b"\0" * 9)), 2),
        (payload[:near] + payload[:at] + payload[near:], 1),
        (b"", 1),
    )


def changed_number(chance: Random, payload: bytes) -> bytes:
    """Another number in the place of a block's, of an acknowledgement's or of an ERROR's code."""
    if len(payload) < 4:
        return payload
    now = int.from_bytes(payload[2:4], "big")
    other = chance.choice((now + 1, now - 1, now + chance.randrange(1, 9), 0, 1, 65_535, 65_534, now ^ 256))
    return payload[:2] + number(other % 65_536) + payload[4:]


def changed_opcode(chance: Random, payload: bytes) -> bytes:
    return number(chance.choice((0, 1, 2, 3, 4, 5, 6, 7, 256))) + payload[2:]


def changed_datagram(chance: Random, datagram: Datagram, capture: Capture) -> Datagram:
    """One of its parts is another; what `show` prints of it is not known then."""
    host, port = datagram.peer
    others = [it.peer for it in capture.datagrams] + [(chance.choice(HOSTS), port), (host, port_of(chance))]
    ports = [it.local for it in capture.datagrams] + [capture.service, port_of(chance)]
    unknown = dataclasses.replace(datagram, said="")
    return chosen(
        chance,
        (dataclasses.replace(unknown, payload=changed_bytes(chance, datagram.payload)[:PAYLOAD_LIMIT]), 4),
        (dataclasses.replace(unknown, payload=changed_number(chance, datagram.payload)), 5),
        (dataclasses.replace(unknown, payload=changed_opcode(chance, datagram.payload)), 2),
        (dataclasses.replace(unknown, payload=chance.choice(capture.datagrams).payload), 3),
        (dataclasses.replace(unknown, goes_out=not datagram.goes_out), 2),
        (dataclasses.replace(unknown, peer=chance.choice(others)), 2),
        (dataclasses.replace(unknown, local=chance.choice(ports)), 2),
    )


def new_datagram(chance: Random, capture: Capture) -> Datagram:
    """A datagram of the capture's ports with some packet."""
    model, payload = chance.choice(capture.datagrams), chance.choice(STRAYS + STRAY_REQUESTS)[0]
    return dataclasses.replace(model, goes_out=chance.random() < 0.5, payload=payload, said="")


def changed_list(chance: Random, capture: Capture) -> list[Datagram]:
    """The datagrams with one change."""
    listed, at, to = list(capture.datagrams), *(chance.randrange(len(capture.datagrams)) for _ in range(2))
    way = chosen(chance, ("change", 8), ("drop", 3), ("repeat", 3), ("move", 3), ("new", 2), ("turn", 1), ("cut", 1))
    if way == "change":
        listed[at] = changed_datagram(chance, listed[at], capture)
    elif way == "drop":
        del listed[at]
    elif way == "repeat":
        listed.insert(to, listed[at])
    elif way == "move":
        listed.insert(to, listed.pop(at))
    elif way == "new":
        listed.insert(at, new_datagram(chance, capture))
    elif way == "turn":
        listed[min(at, to) : max(at, to)] = listed[min(at, to) : max(at, to)][::-1]
    else:
        del listed[at:]
    return listed


def changed_capture(chance: Random, capture: Capture) -> Capture:
    """A capture with a few changes of its datagrams, or of its header."""
    for _ in range(chosen(chance, (1, 6), (2, 3), (5, 1))):
        if chance.random() < 0.04:
            capture = dataclasses.replace(capture, end=OTHER_END[capture.end])
        elif chance.random() < 0.04:
            ports = [it.peer[1] for it in capture.datagrams] or [69]
            capture = dataclasses.replace(capture, service=chance.choice(ports))
        elif capture.datagrams:
            capture = dataclasses.replace(capture, datagrams=tuple(changed_list(chance, capture)))
    return capture


def renumbered(chance: Random, capture: Capture) -> Capture:
    """The same capture by other ports and hosts: those that were equal are equal, and no others."""
    ports: dict[int, int] = {}
    hosts = dict(zip(HOSTS, chance.sample(HOSTS, len(HOSTS))))

    def other(port: int) -> int:
        while port not in ports:
            new = port_of(chance)
            if new not in ports.values():
                ports[port] = new
        return ports[port]

    def of_datagram(it: Datagram) -> Datagram:
        host, port = it.peer
        return dataclasses.replace(it, local=other(it.local), peer=(hosts.get(host, host), other(port)))

    service = other(capture.service)
    return dataclasses.replace(capture, service=service, datagrams=tuple(map(of_datagram, capture.datagrams)))


WORDS = (
    b" ", b"  ", b"\n", b"\n\n", b"\r\n", b"\0", b"\xff", b"0", b"-", b"#", b"+", b"g", b"A", b"65536", b"in ", b"out ",
    b"tftp-capture 1\n", b"tftp-capture 2\n", b"tftp-capture 3\n", b"end client\n", b"end server\n", b"service 69\n",
    b"service 0\n", b"total ", b"total 3\n", b"10.0.0.1 ", b"a" * 46,
)


def near_field(chance: Random, word: bytes) -> bytes:
    """A port, a host or a payload near the limits of one, in the place of another word of a line."""
    if word.isdigit():
        now = int(word)
        near = (0, 1, 65_535, 65_536, 65_537, now + 1, max(0, now - 1), now + 65_536, now * 10)
        return chance.choice((b"%d" % chance.choice(near), b"0" + word, word + b"0", b"+" + word))
    if chance.random() < 0.5:
        at = chance.randrange(len(word) + 1)
        return word[:at] + chance.choice((b"/", b":", b"@", b"G", b"`", b"g", b"\x7f", b"~")) + word[at + 1 :]
    return chance.choice((
        word[:-1], word + b"0", word + b"00", word.upper(), word.swapcase(), word[::-1], b"", b"", b"-", b"--", b"~",
        b"!", b"#", b"a" * 44, b"a" * 45, b"a" * 46, word[:2],
    ))


def with_right_total(text: bytes) -> bytes:
    """The text with the number of its datagrams in its total line, so that a change before that tells by itself."""
    lines = text.split(b"\n")
    count = sum(line.startswith((b"in ", b"out ")) for line in lines)
    places = [at for at, line in enumerate(lines) if line.startswith(b"total ")]
    if places:
        lines[places[-1]] = b"total %d" % count
    return b"\n".join(lines)


def changed_line(chance: Random, text: bytes) -> bytes:
    """One line is gone, comes twice, stands elsewhere, or has another field."""
    lines = text.splitlines(keepends=True)
    at, to = chance.randrange(len(lines)), chance.randrange(len(lines))
    way = chance.randrange(7)
    if way == 0:
        del lines[at]
    elif way == 1:
        lines.insert(to, lines[at])
    elif way == 2:
        lines.insert(to, lines.pop(at))
    elif way == 3:
        fields = lines[at].split(b" ")
        fields[chance.randrange(len(fields))] = chance.choice(WORDS)
        lines[at] = b" ".join(fields)
    elif way in (5, 6):
        fields = lines[at].removesuffix(b"\n").split(b" ")
        place = chance.randrange(len(fields))
        fields[place] = near_field(chance, fields[place])
        lines[at] = b" ".join(fields) + b"\n"
    else:
        long = chance.choice((LINE_LIMIT, LINE_LIMIT + 1, LINE_LIMIT + 46, LINE_LIMIT + 47))
        lines.insert(at, b"#" * long + b"\n")
    return b"".join(lines)


def changed_text(chance: Random, text: bytes) -> bytes:
    """A text with one change of its bytes."""
    at = chance.randrange(len(text) + 1)
    to = min(len(text), at + chance.choice((1, 1, 2, 9, 200)))
    way = chance.randrange(8 if text else 2)
    if way < 2:
        return text[:at] + chance.choice((chance.choice(WORDS), chance.randbytes(1))) + text[at:]
    if way == 2:
        return text[:at] + chance.randbytes(1) + text[at + 1 :]
    if way == 3:
        return text[:at] + text[to:]
    if way == 4:
        return text[:at]
    if way == 5:
        return text[:at] + text[at:to] + text[at:]
    return changed_line(chance, text)
