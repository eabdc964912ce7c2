"""A report on a recording as a page of HTML, which loads nothing and runs nothing: the transfers in a table, which its
style alone can filter and put in other orders, and of each what is to be said of it."""
from __future__ import annotations

from collections import Counter
from collections.abc import Callable, Iterable
from dataclasses import dataclass
from html import escape
from itertools import groupby
from typing import Optional

from .beside import Bytes, Line, bytes_beside
from .capture import Capture
from .colours import DARK, LIGHT, lines_of, picture_style
from .drawn import draw
from .explained import Told, explain
from .facts import Facts
from .lost import Gaps, told_gaps
from .packets import count, words_of
from .plotted import plot
from .recording import Judged, Listed
from .remarks import NO_VERDICT, CameOver, Remarks, named
from .timing import timing_of

ROWS = 60
# What is not seen of times.
LOST = "What a network lost, held or repeated is not told apart from what an end did."
HEADINGS = ("No.", "Verdict", "Client", "Server", "File", "Size", "Options agreed", "Seconds", "Throughput", "Repeated")
# What a verdict says in a word, the worst first, and by what it begins.
KINDS = {
    "refused": "refused ", "doubtful": "doubtful: ", "aborted": "aborted ", "incomplete": "incomplete ",
    "too long": "too long ", "accepted": "accepted ",
}
# The columns of numbers.
NUMBERS = ("Size", "Seconds", "Throughput", "Repeated")
# Where a page is narrow, each row of the table is a card with the headings in it.
STYLE = """
:root{color-scheme:light dark}
body{font:16px/1.5 'DejaVu Sans',Verdana,Arial,sans-serif;margin:1.5rem auto;max-width:75rem;padding:0 1rem}
.wide{overflow-x:auto}
table{font-size:.85rem;display:grid;grid-template-columns:repeat(10,auto)}
thead,tbody,tr{display:contents}
thead th{order:-1}tbody>tr>*{order:var(--at)}
fieldset{border:1px solid;display:inline-block;margin:0 .6rem .6rem 0}
fieldset span{display:inline-block;margin-right:.8rem}
th,td{text-align:left;vertical-align:top;padding:.3rem .6rem;border-bottom:1px solid}
td.number{text-align:right;font-variant-numeric:tabular-nums;white-space:nowrap}
caption{text-align:left;font-weight:bold;padding-bottom:.4rem;grid-column:1/-1;order:-2}
section{border-top:2px solid;margin-top:2.5rem}
dl{display:grid;grid-template-columns:max-content 1fr;gap:.2rem 1rem}
dt{font-weight:bold;grid-column:1}dd{margin:0;grid-column:2;overflow-wrap:anywhere}
pre{font-size:.75rem;overflow-x:auto;padding:.6rem;margin:0}
h1{overflow-wrap:anywhere}h4{margin:.6rem 0}figure{margin:0}
.beside{display:flex;flex-wrap:wrap;gap:1rem}.beside div{min-width:0;max-width:100%}
svg{max-width:100%;height:auto}
@media (max-width:48rem){
body{margin:.8rem auto}table{display:flex;flex-direction:column}thead{display:none}
tbody>tr{display:block;order:var(--at);border-bottom:2px solid;padding:.5rem 0}
tbody>tr>*{display:grid;grid-template-columns:8.5rem 1fr;border:0;padding:.1rem 0;overflow-wrap:anywhere}
tbody>tr>*::before{content:attr(data-heading);font-weight:bold}
td.number{text-align:left;white-space:normal}dl{grid-template-columns:1fr}dd{grid-column:1}
figure{overflow-x:auto}figure svg{max-width:none}.again{padding-left:1.2rem;overflow-wrap:anywhere}
}
@media print{fieldset{display:none}body{max-width:none;margin:0}a{text-decoration:none}
section,figure,.beside div{break-inside:avoid}}
"""


@dataclass(frozen=True)
class Entry:
    """A transfer, as the page has it; the file where it is accepted, and where it is refused what would be said
    further, and which datagrams must be missing so that it is lawful."""

    listed: Listed
    judged: Judged
    capture: Capture
    facts: Facts
    file: Optional[CameOver]
    remarks: Optional[Remarks] = None
    gaps: Gaps = ()

    def number(self) -> int:
        return self.listed.number

    def says(self) -> str:
        """The verdict, as it is told of a recording."""
        return f"{'doubtful: ' if self.judged.doubts else ''}{self.judged.verdict.line}"

    def kind(self) -> str:
        """The verdict in a word."""
        return next(kind for kind, begins in KINDS.items() if self.says().startswith(begins))

    def state(self) -> str:
        """The colour of its verdict."""
        if self.judged.verdict.status == 0:
            return "sound"
        return "refused" if self.is_failure() else "odd"

    def is_failure(self) -> bool:
        """Whether it is refused without a doubt."""
        return self.judged.verdict.refused() is not None and not self.judged.doubts

    def rule_number(self) -> int:
        """The number of the rule that a refusal names, and 0 where nothing is refused."""
        found = self.judged.verdict.refused()
        return found[1] if found else 0

    def rule(self) -> str:
        """That rule by its number and name."""
        found = self.judged.verdict.refused()
        return f"{found[1]} {found[2]}" if found else ""

    def place(self) -> str:
        """Where it was recorded, and as who saw it it is judged."""
        if self.judged.is_between():
            return "judged between the ends"
        is_both = self.judged.row is not None and self.judged.row.place == "both"
        where = "both ends have one address" if is_both else f"recorded at the {self.judged.place}"
        return f"{where}, judged as the {self.judged.place} saw it"

    def size(self) -> str:
        return f"{self.file.size:,}" if self.file else f"({self.facts.bytes:,})"


def name_of(path: str) -> str:
    """A file's name as a person may read it."""
    return words_of(path.encode(errors="surrogateescape"))[1:-1]


def page_style() -> str:
    """The colours of the page and of its pictures, light and dark; on paper it is light."""
    def of(colours: dict[str, str]) -> str:
        rules = (
            ("body", f"background:{colours['ground']};color:{colours['words']}"), ("a", f"color:{colours['data']}"),
            ("pre", f"background:{colours['fold']};color:{colours['ink']}"), (".sound", f"color:{colours['sound']}"),
            (".refused", f"color:{colours['refused']}"), (".odd", f"color:{colours['error']}"),
            ("mark", f"background:{colours['refused']};color:{colours['ground']}"),
            (".muted", f"color:{colours['muted']}"),
            ("th,td,tr,section,fieldset", f"border-color:{colours['edge']}"),
        )
        return "".join(f"{name}{{{rule}}}" for name, rule in rules)

    dark = f"@media screen and (prefers-color-scheme:dark){{{of(DARK)}{lines_of(DARK)}}}"
    pictures = picture_style().partition("@media")[0]
    return f"{STYLE}{choosing_style()}{of(LIGHT)}{pictures}{dark}"


def rate(facts: Facts) -> str:
    """Bytes a second, in a unit in which it is short."""
    per_second = facts.rate()
    if per_second is None:
        return "-"
    for unit, size in (("MB/s", 1e6), ("kB/s", 1e3)):
        if per_second >= size:
            return f"{per_second / size:,.1f} {unit}"
    return f"{per_second:,.0f} B/s"


def word_of(kind: str) -> str:
    """A kind as a name in the page."""
    return f"is-{kind.replace(' ', '-')}"


# The orders in which the rows may stand, by their names and what comes first.
ORDERS: dict[str, tuple[str, Callable[[Entry], float]]] = {
    "number": ("by number", lambda it: it.number()),
    "verdict": ("the worst first", lambda it: list(KINDS).index(it.kind())),
    "size": ("the largest first", lambda it: -(it.file.size if it.file else it.facts.bytes)),
    "seconds": ("the longest first", lambda it: -(it.facts.seconds or 0)),
    "repeated": ("the most repeated first", lambda it: -(it.facts.repeated_blocks + it.facts.repeated_acks)),
}


def places_of(entries: list[Entry]) -> dict[int, dict[str, int]]:
    """Of each transfer the place that it has in each order."""
    places: dict[int, dict[str, int]] = {it.number(): {} for it in entries}
    for name, (_, key) in ORDERS.items():
        for place, it in enumerate(sorted(entries, key=key), 1):
            places[it.number()][name] = place
    return places


def choice(group: str, name: str, words: str, is_first: bool) -> str:
    one = f"{group}-{name}"
    checked = " checked" if is_first else ""
    box = f'<input type="radio" name="{group}" id="{one}"{checked}>'
    return f'<span>{box}<label for="{one}">{escape(words)}</label></span>\n'


def choices(entries: list[Entry]) -> str:
    """What of the transfers is shown, and in which order; nothing where there is only one."""
    if len(entries) < 2:
        return ""
    kinds = Counter(it.kind() for it in entries)
    shown = choice("show", "all", f"all {len(entries):,}", True)
    shown += "".join(choice("show", word_of(it), f"{kinds[it]:,} {it}", False) for it in KINDS if kinds[it])
    orders = "".join(choice("by", name, words, name == "number") for name, (words, _) in ORDERS.items())
    fields = (("Show", shown), ("Order of the table", orders))
    return "".join(f"<fieldset><legend>{legend}</legend>\n{inputs}</fieldset>\n" for legend, inputs in fields)


def choosing_style() -> str:
    """What a choice does: it hides what is of another kind, and gives each row its place."""
    words = map(word_of, KINDS)
    hidden = (f"main:has(#show-{it}:checked) :is(tr,section).of:not(.{it}){{display:none}}" for it in words)
    placed = (f"main:has(#by-{name}:checked) tbody>tr{{--at:var(--{name})}}" for name in ORDERS)
    return "".join((*hidden, *placed))


def table_row(it: Entry, places: dict[str, int]) -> str:
    listed, facts = it.listed, it.facts
    agreed = " ".join(f"{name}={value}" for name, value in facts.agreed) or "-"
    seconds = f"{facts.seconds:.3f}" if facts.seconds is not None else "-"
    again = f"{facts.repeated_blocks:,}, {facts.repeated_acks:,}"
    number = f'<a href="#t{it.number()}">{it.number()}</a>'
    words = (it.says(), listed.client, listed.server, f"{listed.kind} {listed.file}", it.size(), agreed)
    cells = [number, *(escape(word) for word in (*words, seconds, rate(facts), again))]
    at = "".join(f"--{name}:{place};" for name, place in places.items())
    parts = [cell_of(heading, content, it.state()) for heading, content in zip(HEADINGS, cells)]
    return f'<tr class="of {word_of(it.kind())}" role="row" style="{at}">{"".join(parts)}</tr>'


def cell_of(heading: str, content: str, state: str) -> str:
    """A cell of a row, which has its heading with it, where the table is narrow."""
    kind = {"Verdict": f' class="{state}"', **dict.fromkeys(NUMBERS, ' class="number"')}.get(heading, "")
    if heading == HEADINGS[0]:
        return f'<th scope="row" role="rowheader" data-heading="{heading}"><span>{content}</span></th>'
    return f'<td role="cell" data-heading="{heading}"{kind}><span>{content}</span></td>'


def table(entries: list[Entry]) -> str:
    heads = "".join(f'<th scope="col" role="columnheader">{escape(words)}</th>' for words in HEADINGS)
    places = places_of(entries)
    rows = "\n".join(table_row(it, places[it.number()]) for it in entries)
    told = "Size in bytes, in brackets what passed of a file that is not accepted. Repeated: blocks, ACKs."
    return (
        '<div class="wide" role="region" aria-label="The transfers" tabindex="0">\n'
        f'<table role="table">\n<caption>The transfers</caption>\n<thead role="rowgroup"><tr role="row">{heads}</tr>'
        f'</thead>\n<tbody role="rowgroup">\n{rows}\n</tbody></table></div>\n<p class="muted">{told}</p>\n'
    )


def reasons(told: Told) -> str:
    """Headings and words; a heading stands once where several words follow it."""
    parts = []
    for heading, pairs in groupby(told, key=lambda pair: pair[0]):
        parts.append(f"<dt>{escape(heading)}</dt>" + "".join(f"<dd>{escape(words)}</dd>" for _, words in pairs))
    return f"<dl>\n{''.join(parts)}\n</dl>\n"


def hex_line(line: Line) -> str:
    bytes_in_hex = [(at in line.differs, f"{byte:02x}") for at, byte in enumerate(line.content)]
    pairs = [f"<mark>{digits}</mark>" if is_other else digits for is_other, digits in bytes_in_hex]
    room = "   " * (16 - len(pairs))
    plain = "".join(chr(byte) if 32 <= byte < 127 else "." for byte in line.content)
    return f"{line.place:05x}  {' '.join(pairs)}{room}  {escape(plain)}"


def hex_part(it: Bytes, heading: str) -> str:
    lines = [f"... {count(it.before, 'byte')} before"] * bool(it.before) + [hex_line(line) for line in it.lines]
    lines += [f"... {count(it.behind, 'byte')} more"] * bool(it.behind)
    body = "\n".join(lines) or "(no bytes)"
    return f'<div><h4>{escape(heading)}: {escape(it.datagram.place())}</h4><pre tabindex="0">{body}</pre></div>'


def bytes_of(it: Entry) -> str:
    parts = bytes_beside(it.capture, it.judged.verdict)
    headings = ["Refused", *(["Compared with"] * (len(parts) - 1))]
    shown = "\n".join(hex_part(part, heading) for part, heading in zip(parts, headings))
    return f'<h3>The bytes</h3>\n<div class="beside">\n{shown}\n</div>\n' if parts else ""


def what_if(it: Entry) -> str:
    """What would be said further, which is no verdict."""
    if it.remarks is None or not it.remarks.refused:
        return ""
    items = "".join(
        f"<li>{escape(f'{remark.datagram.place()}: rule {remark.rule()}: {remark.says()}')}</li>"
        for remark in it.remarks.refused
    )
    ended = f"Without {named(it.remarks.refused)}: {it.remarks.left.line}"
    ended += f"; the file has {it.remarks.file.told()}" if it.remarks.file else ""
    return (
        f"<h3>What if</h3>\n<p>{escape(NO_VERDICT.capitalize())}</p>\n<ol>{items}</ol>\n"
        f'<p class="muted">{escape(ended)}.</p>\n'
    )


def times(it: Entry) -> str:
    """How long it took, what passed again and when, and the longest silence."""
    timing, facts = timing_of(it.capture), it.facts
    if not it.capture.datagrams:
        return ""
    took = [("Time", f"{facts.seconds:.3f} s, {rate(facts)}.")] if facts.seconds is not None else []
    items = "".join(f"<li>{escape(words)}</li>" for words in timing.told_repeats())
    again = f'<ul class="again">{items}</ul>\n' if items else ""
    return f'<h3>Times</h3>\n{reasons([*took, *timing.told()])}{again}<p class="muted">{LOST}</p>\n'


def pictures(it: Entry) -> str:
    name, verdict = f"t{it.number()}", it.judged.verdict
    if not it.capture.datagrams:
        return ""
    over_time = plot(it.capture, verdict, f"{name}-plot", is_alone=False)
    ladder = draw(it.capture, verdict, ROWS, False, f"{name}-ladder", is_alone=False, gaps=it.gaps)
    shown = (("Blocks over time", over_time), ("The exchange", ladder))
    return "".join(f'<h3>{heading}</h3>\n<figure tabindex="0">{picture}</figure>\n' for heading, picture in shown)


def section(it: Entry, is_drawn: bool) -> str:
    """What is said of a transfer, with its pictures where they are drawn."""
    told = [*explain(it.judged.verdict, it.judged.text, it.capture), *told_gaps(it.gaps, it.capture), *it.judged.told()]
    if it.judged.row and it.judged.row.ended:
        told.append(("Ended", f"{it.judged.row.ended}."))
    if it.file:
        told.append(("File", f"{it.file.told()}."))
    name, kind = f"t{it.number()}", word_of(it.kind())
    asked, listed = f"{it.listed.kind} {it.listed.file}", it.listed
    frames = f"frames {listed.first_frame:,} to {listed.last_frame:,}"
    seen = f"{listed.client} and {listed.server}, {frames}; {it.place()}"
    return (
        f'<section class="of {kind}" aria-labelledby="{name}">\n<h2 id="{name}">{it.number()}. {escape(asked)}</h2>'
        f'\n<p class="{it.state()}"><strong>{escape(it.says())}</strong></p>\n'
        f'<p class="muted">{escape(seen)}</p>\n'
        f"{reasons(told)}{bytes_of(it)}{what_if(it)}{times(it)}{pictures(it) if is_drawn else ''}</section>\n"
    )


def summed(entries: list[Entry]) -> str:
    """How many transfers have which kind of verdict, the worst first."""
    kinds = Counter(it.kind() for it in entries)
    told = ", ".join(f"{kinds[kind]:,} {kind}" for kind in KINDS if kinds[kind])
    return f"{count(len(entries), 'transfer')}: {told}"


def drawn_ones(entries: list[Entry], most: int) -> set[int]:
    """The numbers of those with pictures: what is not accepted first."""
    in_order = sorted(entries, key=lambda it: (it.judged.verdict.status == 0, it.number()))
    return {it.number() for it in in_order[:most]}


def page(path: str, entries: list[Entry], told: Iterable[str], most: int) -> str:
    """The report; what was told of the recording beside its rows is in it."""
    name = escape(name_of(path))
    drawn = drawn_ones(entries, most)
    beside = [*told]
    if len(drawn) < len(entries):
        some = f"{count(len(drawn), 'transfer')} of {len(entries):,}"
        beside.append(f"{some} have pictures: those not accepted come first.")
    listed = "".join(f"<li>{escape(words)}</li>" for words in beside)
    notes = f"<ul>{listed}</ul>\n" if listed else ""
    sections = "".join(section(it, it.number() in drawn) for it in entries)
    policy = "default-src 'none'; style-src 'unsafe-inline'"
    return (
        f'<!DOCTYPE html>\n<html lang="en">\n<head>\n<meta charset="utf-8">\n'
        f'<meta http-equiv="Content-Security-Policy" content="{policy}">\n'
        f'<meta name="viewport" content="width=device-width, initial-scale=1">\n<title>TFTP in {name}</title>\n'
        f"<style>{page_style()}</style>\n</head>\n<body>\n<main>\n<h1>TFTP in {name}</h1>\n<p>{summed(entries)}.</p>\n"
        f"{notes}{choices(entries)}{table(entries)}{sections}</main>\n</body>\n</html>\n"
    )
