"""Changes of recordings: bytes, numbers that are lengths, cuts, and parts of a file twice, left out or in another
order; frames that a mirror gives twice, at one interface or at two, and counts of what the recorder lost."""
from __future__ import annotations

import random
from collections.abc import Callable

import recorded
from tftp_tools.pieces import CLASSIC, Order, Piece, pieces

# The orders of numbers, as the writer of recordings names them.
SIGNS: dict[Order, str] = {"little": "<", "big": ">"}
# Numbers that lengths, places and types turn on.
EDGES = (0, 1, 7, 8, 9, 12, 16, 20, 39, 40, 0x2000, 0x3FFF, 0x4000, 0xFFFF, 0x40000, 0x40001, 0x1000000, 0xFFFFFFFF)


def byte_changed(file: bytes, chance: random.Random) -> bytes:
    """One byte, or one bit of it."""
    it, at = bytearray(file), chance.randrange(len(file))
    it[at] = it[at] ^ 1 << chance.randrange(8) if chance.random() < 0.5 else chance.randrange(256)
    return bytes(it)


def number_changed(file: bytes, chance: random.Random) -> bytes:
    """A number of one, two or four bytes, in either order: an edge, or a little more or less."""
    size = chance.choice((1, 2, 2, 4, 4))
    at = chance.randrange(max(1, len(file) - size))
    order = "little" if chance.random() < 0.5 else "big"
    old = int.from_bytes(file[at : at + size], order)  # type: ignore[arg-type]
    new = chance.choice((chance.choice(EDGES), old + chance.choice((-8, -4, -1, 1, 4, 8))))
    return file[:at] + (new % (1 << 8 * size)).to_bytes(size, order) + file[at + size :]  # type: ignore[arg-type]


def cut(file: bytes, chance: random.Random) -> bytes:
    """The file ends earlier."""
    return file[: chance.randrange(len(file))]


def grown(file: bytes, chance: random.Random) -> bytes:
    """Bytes more, somewhere."""
    at = chance.randrange(len(file) + 1)
    return file[:at] + chance.randbytes(chance.choice((1, 4, 16))) + file[at:]


def shrunk(file: bytes, chance: random.Random) -> bytes:
    """Bytes less, somewhere."""
    at = chance.randrange(len(file))
    return file[:at] + file[at + chance.choice((1, 4, 16)) :]


def repeated(file: bytes, chance: random.Random) -> bytes:
    """Some of it once more."""
    first = chance.randrange(len(file))
    last = min(len(file), first + chance.randrange(1, 200))
    at = chance.choice((last, chance.randrange(len(file) + 1)))
    return file[:at] + file[first:last] + file[at:]


def reordered(file: bytes, chance: random.Random) -> bytes:
    """Records or blocks in another order, twice, left out, or twice with other bytes."""
    parts = [it.content for it in pieces(file)]
    if len(parts) < 2:
        return file
    for _ in range(chance.randrange(1, 4)):
        one, other = chance.randrange(1, len(parts)), chance.randrange(1, len(parts) + 1)
        piece = parts[one]
        if chance.random() < 0.6:
            front = len(piece) if chance.random() < 0.3 else 90
            piece = byte_changed(piece[:front], chance) + piece[front:]
        if chance.random() < 0.5:
            parts.insert(other, piece)
        else:
            parts.insert(min(other, len(parts) - 1), parts.pop(one))
    if chance.random() < 0.2 and len(parts) > 2:
        del parts[chance.randrange(1, len(parts))]
    return b"".join(parts)


def mirrored(file: bytes, chance: random.Random) -> bytes:
    """Each frame twice, one behind the other, the second in pcapng perhaps at another interface, which need not be
    named."""
    is_elsewhere = chance.random() < 0.5
    told = []
    for piece in pieces(file):
        told.append(piece.content)
        if piece.is_frame:
            told.append(moved(piece, chance) if is_elsewhere and piece.kind is not None else piece.content)
    return b"".join(told)


def moved(piece: Piece, chance: random.Random) -> bytes:
    """A packet's block at one of the first three interfaces."""
    place, size = chance.randrange(3), {2: 2, 6: 4}.get(piece.kind or 0, 0)
    it = piece.content
    return it[:8] + place.to_bytes(size, piece.order) + it[8 + size :] if size else it


def counted(file: bytes, chance: random.Random) -> bytes:
    """Statistics of an interface, anywhere among the blocks, one to three times."""
    if file[:4] in CLASSIC:
        return file
    found = list(pieces(file))
    parts, order = [it.content for it in found], found[0].order
    for _ in range(chance.randrange(1, 4)):
        counts = [(code, chance.choice((0, 1, 7, 1 << 32, (1 << 64) - 1))) for code in (4, 5, 7)]
        block = recorded.statistics(SIGNS[order], chance.randrange(3), *counts, is_ended=False)
        parts.insert(chance.randrange(1, len(parts) + 1), block)
    return b"".join(parts)


CHANGES: tuple[Callable[[bytes, random.Random], bytes], ...] = (
    byte_changed, byte_changed, number_changed, number_changed, number_changed, cut, grown, shrunk, repeated,
)


def changed(file: bytes, chance: random.Random) -> bytes:
    """A sound recording with one to three changes, or with its pieces in another order, twice, or with counts of
    losses."""
    if chance.random() < 0.2:
        file = mirrored(file, chance)
    if chance.random() < 0.2:
        return counted(file, chance)
    if chance.random() < 0.4:
        return reordered(file, chance)
    for _ in range(chance.choice((1, 1, 1, 2, 3))):
        if file:
            file = chance.choice(CHANGES)(file, chance)
    return file
