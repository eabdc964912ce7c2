"""The colours of the pictures, by what they mean, on a light and on a dark ground. On its ground each text has a
contrast of at least 4.5 to 1, and each line one of at least 3 to 1."""
from __future__ import annotations

LIGHT = {
    "ground": "#ffffff", "ink": "#111111", "words": "#333333", "muted": "#595959", "fold": "#f1f1f1", "edge": "#8a8a8a",
    "data": "#1f5fa8", "ack": "#2c7a3f", "request": "#6a3d9a", "error": "#b05f00", "none": "#555555",
    "repeat": "#767676", "stray": "#806230", "refused": "#d40000", "after": "#8f8f8f", "sound": "#1b6b2f",
}
DARK = {
    "ground": "#16181c", "ink": "#f2f2f2", "words": "#dddddd", "muted": "#a8adb5", "fold": "#24282f", "edge": "#7b828d",
    "data": "#7fb2ee", "ack": "#7ccf8f", "request": "#c5a3ea", "error": "#f0a94b", "none": "#b5b5b5",
    "repeat": "#959ba5", "stray": "#d3b074", "refused": "#ff8080", "after": "#757b84", "sound": "#7ccf8f",
}
# What words are written in, and on which ground.
TEXTS = ("ink", "words", "muted", "refused", "sound")
GROUNDS = ("ground", "fold")
FONT = "font-family:'DejaVu Sans',Verdana,Arial,sans-serif"


def lines_of(colours: dict[str, str]) -> str:
    return "".join(f".f-{name}{{fill:{colour}}}.s-{name}{{stroke:{colour}}}" for name, colour in colours.items())


def picture_style() -> str:
    """The style of a picture: the colours by name, of what is filled and of what is a line."""
    words = f"text{{{FONT}}}.hollow{{fill:none}}"
    return f"{words}{lines_of(LIGHT)}@media (prefers-color-scheme:dark){{{lines_of(DARK)}}}"
