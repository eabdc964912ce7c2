"""What came of a file that did not come over by a lawful and whole transfer. Nothing of it is proved."""
from __future__ import annotations

from dataclasses import dataclass

from .capture import Capture
from .history import History, history_before
from .packets import Data, count

Blocks = dict[int, set[bytes]]


@dataclass(frozen=True)
class Part:
    """The blocks that were taken, in their order from 1, and why there are no more."""

    blocks: tuple[bytes, ...]
    why: str

    def content(self) -> bytes:
        return b"".join(self.blocks)

    def told(self) -> str:
        """Which blocks they are."""
        which = "block 1" if len(self.blocks) == 1 else f"blocks 1 to {len(self.blocks):,}"
        return f"{which}: {self.why}" if self.blocks else f"nothing: {self.why}"


def blocks_of(history: History) -> Blocks:
    """All that passed as each block from the end that sends the file to the other."""
    way = "in" if history.receiver_way() == "out" else "out"
    found: Blocks = {}
    for it in history.passed:
        if it.place == "main" and it.datagram.way == way and isinstance(it.packet, Data):
            found.setdefault(it.packet.block, set()).add(it.packet.content)
    return found


def why_ended(blocks: Blocks, taken: list[bytes], size: int) -> str:
    """Why no block is taken after these, or nothing where one is."""
    number = len(taken) + 1
    if taken and len(taken[-1]) < size:
        return f"block {number - 1:,} is the last, as it is shorter than {count(size, 'byte')}"
    contents = blocks.get(number, set())
    if not contents:
        return f"block {number:,} is not there"
    if len(contents) > 1:
        return f"block {number:,} passed with {len(contents)} contents"
    if len(*contents) > size:
        return f"block {number:,} is longer than {count(size, 'byte')}"
    return ""


def part_of(capture: Capture) -> Part:
    """The blocks of a text in their order from 1, each there and with one content in the whole text, up to the last."""
    history = history_before(capture, len(capture.datagrams) + 1)
    blocks, size, taken = blocks_of(history), history.block_size(), list[bytes]()
    while not (why := why_ended(blocks, taken, size)):
        taken += blocks[len(taken) + 1]
    return Part(tuple(taken), why)
