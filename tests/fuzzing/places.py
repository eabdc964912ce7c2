"""Compares the places, doubts and views that tests_tools prints of recordings with those of the definition, as
attribution.py has it."""
from __future__ import annotations

import itertools
import random
import subprocess
from ipaddress import ip_address

from fuzzing.attribution import ERROR_5, Attribution, Datagram, Endpoint, Transfer, attributed, begins


# The doubts of a transfer that tests_tools tells by name; of the others it tells `doubted`.
WORDS = ("late", "disordered", "again", "apart")
# What it tells of a datagram beside its place, and is compared.
OF_DATAGRAMS = ("earlier", "terms", "anew")


def row(it: Datagram) -> str:
    """A datagram as tests_tools reads it."""
    ends = (word for end in (it.source, it.target) for word in (ip_address(end.host).packed.hex(), str(end.port)))
    return " ".join((str(it.nanoseconds()), *ends, it.payload.hex() or "-"))


def beside_of(one: Transfer, it: Datagram) -> tuple[str, ...]:
    """What is told of a datagram of a transfer, in these words."""
    holds = (one.may_be_earlier(it), one.rests_on_terms(it), one.follows_unknown_id(it))
    return tuple(word for word, is_so in zip(OF_DATAGRAMS, holds) if is_so)


def passed_in(one: Transfer) -> set[str]:
    """Whether an OACK passed that may be late, an ERROR 5, and its client's first word before anything came to it; and
    whether its client asked more than once."""
    talked = list(one.talked())
    agrees = any(begins(it.payload, 6) and one.may_be_earlier(it) for it in talked)
    unknown = any(it.payload[:4] == ERROR_5 for it in talked)
    told_of = (
        ("agrees", agrees), ("unknown", unknown), ("first", bool(one.first_words)), ("asked", one.has_asked_more)
    )
    return {word for word, is_so in told_of if is_so}


def told(found: Attribution) -> list[str]:
    """What the prototype says of a recording: each datagram's place, and each transfer's doubts and views."""
    openings = {one.number for one in found.transfers}
    beside = {it.number: beside_of(one, it) for one in found.transfers for it in one.talked()}
    rows = []
    for number, place in enumerate(found.places):
        asked = "opens" if number in openings else "repeats"
        kind = asked if place.kind == "request" else place.kind
        rows.append(" ".join((kind if place.transfer is None else f"{kind} {place.transfer}", *beside.get(number, ()))))
    for one in found.transfers:
        late = [doubt.since for doubt in one.doubts if doubt.word == "late"]
        its = {doubt.word for doubt in one.doubts}
        doubted = ("doubted",) if its - {"late"} else ()
        words = sorted({*(word for word in its if word in WORDS), *passed_in(one), *doubted})
        rows.append(" ".join((f"transfer {one.number}", *words, *(f"since {first}" for first in late[:1]))))
        rows.append(" ".join(("at-client", *(str(it.number) for it in one.view("client")))))
        rows.append(" ".join(("at-server", *(str(it.number) for it in one.view("server")))))
    return rows


def said(lines: list[str]) -> list[str]:
    """What tests_tools says of one, in the same words."""
    rows: list[str] = []
    since: dict[str, int] = {}
    for number, line in enumerate(lines):
        kind, *words = line.split()
        if kind.startswith("at-"):
            rows.append(line)
            continue
        if kind != "transfer":
            rows.append(" ".join((kind, *words[:1], *(word for word in words[1:] if word in OF_DATAGRAMS))))
            if "late" in words:
                since.setdefault(words[0], number)
            continue
        doubts = sorted(words[1:])
        first = (f"since {since[words[0]]}",) if words[0] in since else ()
        rows.append(" ".join((f"transfer {words[0]}", *doubts, *first)))
    return rows


def spoiled(seed: int, recording: list[Datagram]) -> list[Datagram]:
    """The recording with datagrams lost, repeated and out of order, silences of about 300 s, other ports and bytes."""
    drawn = random.Random(seed)
    places = [place for place in range(len(recording)) for _ in range(drawn.choice((0, 1, 1, 1, 1, 1, 2)))]
    for at in range(1, len(places)):
        if drawn.random() < 0.1:
            places[at - 1], places[at] = places[at], places[at - 1]
    rows: list[Datagram] = []
    silent, hosts = 0.0, {recording[0].target.host: "2001:db8::1"} if drawn.random() < 0.3 else {}
    for place in places:
        it = recording[place]
        silent += drawn.choice((0,) * 60 + (20, 299, 300, 301, 900))
        port = drawn.choice((69, 1069, 41_000)) if drawn.random() < 0.03 else it.target.port
        host = drawn.choice(recording).source.host if drawn.random() < 0.03 else it.source.host
        source = Endpoint(hosts.get(host, host), it.source.port)
        target = Endpoint(hosts.get(it.target.host, it.target.host), port)
        payload = drawn.choice(recording).payload if drawn.random() < 0.05 else it.payload
        rows.append(Datagram(len(rows), round(it.time + silent, 6), source, target, payload))
    return rows


def differences(program: str, recordings: list[list[Datagram]]) -> list[str]:
    """Where tests_tools says other than the prototype, a line each."""
    text = "\n\n".join("\n".join(map(row, recording)) for recording in recordings) + "\n"
    ran = subprocess.run([program, "places"], input=text.encode(), capture_output=True, check=False)
    if ran.returncode or ran.stderr:
        return [f"{program} ended with status {ran.returncode} and wrote {ran.stderr!r}"]
    answers = ran.stdout.decode().split("end\n")[:-1]
    if len(answers) != len(recordings):
        return [f"{len(answers)} answers to {len(recordings)} recordings"]
    return [
        f"recording {number}, line {place}: {one!r}, and the prototype {other!r}"
        for number, (answer, recording) in enumerate(zip(answers, recordings))
        for place, (one, other) in enumerate(
            itertools.zip_longest(said(answer.splitlines()), told(attributed(recording)))
        )
        if one != other
    ]
