"""A recording without some of its frames, which are counted from 1 as Wireshark counts them."""
from __future__ import annotations

from collections.abc import Collection

from .pieces import pieces


def without_frames(recording: bytes, gone: Collection[int]) -> bytes:
    """The recording without the frames of these numbers."""
    kept, number = list[bytes](), 0
    for piece in pieces(recording):
        number += piece.is_frame
        if not (piece.is_frame and number in gone):
            kept.append(piece.content)
    return b"".join(kept)
