"""Names of options of one number, as `crates/tftp_packet/src/name_marks.rt` makes it, so that the numbers do not tell the
names apart. They are made by sums that come to nothing, since a drawn text has none.
"""
from __future__ import annotations

import itertools
import random
from collections.abc import Iterator

# The odd number next to 2^64 over the golden ratio.
FACTOR, WORD = 0x9E37_79B9_7F4A_7C15, 1 << 64
# What can be added to the last five pairs of bytes of a name, read as numbers, so that its number stays.
STEPS = (
    (-416, 1217, -2307, 4298, 1868),
    (-163, -788, -2850, 2934, -2789),
    (-231, 653, 7154, 2450, -3822),
    (-8937, -1027, 1470, -1733, 1147),
    (-5266, 8228, -3703, -4267, -2652),
)
# How many bytes these pairs have.
SIZE = 10
# Bytes of names that are no zero byte and no letter of either case, so that no two of them differ by case alone.
SIGNS = frozenset(it for it in range(1, 256) if not bytes((it,)).isalpha())
# The pairs of the first of the names.
MIDDLE = 0x8080


def mixed(name: bytes) -> int:
    """The number of a name in lower case."""
    mix = 0
    for place in range(0, len(name), 2):
        mix = (mix + int.from_bytes(name[place : place + 2], "little")) * FACTOR % WORD
    return mix


def alike(size: int, count: int) -> Iterator[bytes]:
    """So many names of that even number of bytes, at least ten, which have one number."""
    front, found = b"a" * (size - SIZE), 0
    turns = sorted(itertools.product(range(-4, 5), repeat=len(STEPS)), key=lambda turn: sum(abs(it) for it in turn))
    for turn in turns:
        pairs = [MIDDLE + sum(times * step[at] for times, step in zip(turn, STEPS)) for at in range(SIZE // 2)]
        if found == count or min(pairs) < 0 or max(pairs) > 0xFFFF:
            continue
        end = b"".join(it.to_bytes(2, "little") for it in pairs)
        if SIGNS.issuperset(end):
            found += 1
            yield front + end
    if found < count:
        raise ValueError(f"there are {found} such names")


def short(size: int, count: int) -> list[bytes]:
    """So many names of that number of bytes, in no order."""
    names = itertools.islice(itertools.product(sorted(SIGNS), repeat=size), count)
    found = [bytes(it) for it in names]
    random.Random(count).shuffle(found)
    return found
