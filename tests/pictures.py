"""What is drawn in a picture of tools/tftp-ladder: its words, its arrows, and the contrast of its colours."""
from __future__ import annotations

import re
import xml.etree.ElementTree as ElementTree

SVG = "{http://www.w3.org/2000/svg}"


class Picture:
    """What is drawn."""

    def __init__(self, text: str) -> None:
        self.root = ElementTree.fromstring(text)
        self.words = [each.text or "" for each in self.root.iter(f"{SVG}text")]
        self.heads = [each.get("class") for each in self.root.iter(f"{SVG}polygon")]
        self.style = "".join(each.text or "" for each in self.root.iter(f"{SVG}style"))
        self.height = int(self.root.get("height", "0"))

    def has(self, words: str) -> bool:
        return any(words in text for text in self.words)

    def lines(self) -> list[ElementTree.Element]:
        return list(self.root.iter(f"{SVG}line"))

    def told(self) -> list[str]:
        """What a reader of the screen is told: the title and the description."""
        named = [self.root.find(f".//*[@id='{name}']") for name in (self.root.get("aria-labelledby") or "").split()]
        return [each.text or "" for each in named if each is not None]

    def styles(self) -> list[tuple[str, str]]:
        """The style in light and in dark."""
        light, _, dark = self.style.partition("@media (prefers-color-scheme:dark)")
        return [("light", light), ("dark", dark)]

    def texts(self) -> set[str]:
        """The names of the colours in which words are written."""
        return {each.get("class", "")[2:] for each in self.root.iter(f"{SVG}text")}


def luminance(colour: str) -> float:
    """WCAG 2.2, "relative luminance"."""
    parts = [int(colour[place : place + 2], 16) / 255 for place in (1, 3, 5)]
    linear: list[float] = [part / 12.92 if part <= 0.04045 else ((part + 0.055) / 1.055) ** 2.4 for part in parts]
    return 0.2126 * linear[0] + 0.7152 * linear[1] + 0.0722 * linear[2]


def contrast(one: str, other: str) -> float:
    """WCAG 2.2, "contrast ratio"."""
    high, low = sorted((luminance(one), luminance(other)), reverse=True)
    return (high + 0.05) / (low + 0.05)


def colours_of(style: str) -> dict[str, str]:
    return dict(re.findall(r"[.]f-(\w+)\{fill:(#\w{6})\}", style))


def least_contrast(colours: dict[str, str], text: str) -> float:
    """That of words on the two grounds."""
    return min(contrast(colours[text], colours[it]) for it in ("ground", "fold"))


def contrast_of(picture: Picture) -> dict[str, float]:
    """The least contrast of each colour in which a picture has words, in light and in dark."""
    styles = [(name, colours_of(style)) for name, style in picture.styles()]
    return {f"{name}, {text}": least_contrast(colours, text) for name, colours in styles for text in picture.texts()}
