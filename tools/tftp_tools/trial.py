"""A trial: a client that is run against a server through a relay which disturbs what passes by a seed, and both legs
in recordings."""
from __future__ import annotations

import contextlib
import subprocess
import threading
import time
from collections import Counter
from dataclasses import dataclass
from pathlib import Path
from typing import Optional

from .errors import Refused, told
from .recording import ENDS, EndName
from .relay import FATES, Endpoint, Fate, Odds, Relay, fates_by
from .started import STEP, filled, free_port, started, wait_until_listening
from .written import pcapng

# When the client has ended, the relay goes on until nothing has passed for so many seconds, and so many at most.
QUIET, LINGER = 0.6, 8.0
# What the client may send, which stands in its folder.
UPLOAD = "upload.bin"


@dataclass(frozen=True)
class Plan:
    """What is tried: the words of the client and of the server, where the server and the relay listen, how likely each
    fate is and how long what is delayed is held, how long the client may take, the file that is asked for and its size,
    and how many seeds run at a time."""

    client: tuple[str, ...]
    serve: tuple[str, ...]
    server: Optional[Endpoint]
    listen: Endpoint
    odds: Odds
    hold: float
    timeout: float
    file: str
    size: int
    jobs: int


@dataclass(frozen=True)
class Run:
    """What was recorded of a seed, at which port each leg was asked, how the client ended, what was disturbed, and for
    whom the ports of the relay stood."""

    seed: int
    recordings: dict[EndName, Path]
    asked: dict[EndName, Endpoint]
    ended: str
    tally: Counter[Fate]
    behind: dict[Endpoint, Endpoint]

    def disturbed(self) -> str:
        return ", ".join(f"{fate} {self.tally[fate]}" for fate in FATES)


def content_of(name: str, size: int) -> bytes:
    """A file of lines of which none is another."""
    whole = b"".join(b"%s line %06d\n" % (name.encode(), number) for number in range(size // 13 + 1))
    return whole[:size]


def make_folders(plan: Plan, folder: Path) -> tuple[Path, Path]:
    """The folders of the client and of the server, each with the file that it has at first. The server may have other
    rights than who calls."""
    client, served = folder / "client", folder / "served"
    with told(f"cannot make the folder {str(folder)!r}"):
        for each in (folder, client, served):
            each.mkdir(parents=True)
            each.chmod(0o777 if each == served else 0o755)
        for place in (client / UPLOAD, *([served / plan.file] if plan.serve else [])):
            place.write_bytes(content_of(place.name, plan.size))
            place.chmod(0o666)
    return client, served


def outcome(client: subprocess.Popen[bytes], timeout: float, stop: threading.Event) -> str:
    """How the client ended; it is ended after a time, and where all is to stop."""
    until = time.monotonic() + timeout
    while (status := client.poll()) is None and time.monotonic() < until and not stop.is_set():
        time.sleep(STEP)
    if status is None:
        return f"the client was ended after {timeout:g} s"
    return f"the client ended with status {status}" if status >= 0 else f"the client ended by signal {-status}"


def run(plan: Plan, seed: int, folder: Path, stop: threading.Event) -> Run:
    """Runs the client under a seed, in a new folder."""
    client, served = make_folders(plan, folder)
    server = plan.server or free_port(plan.listen.host)
    with contextlib.ExitStack() as stack:
        if plan.serve:
            words = filled(plan.serve, {"host": server.host, "port": server.port, "folder": served})
            process = stack.enter_context(started(words, served, folder / "server.log"))
            wait_until_listening(process, server, folder / "server.log")
        with told(f"cannot listen at {plan.listen.told()}"):
            relay = stack.enter_context(Relay(plan.listen, server, fates_by(seed, plan.odds), plan.hold))
        asked = {"host": relay.listens.host, "port": relay.listens.port, "file": plan.file, "upload": UPLOAD}
        with started(filled(plan.client, {**asked, "seed": seed}), client, folder / "client.log") as process:
            ended = outcome(process, plan.timeout, stop)
        relay.wait_until_quiet(QUIET, LINGER)
    if relay.failed:
        raise Refused(f"the relay could not go on: {relay.failed.strerror or relay.failed}")
    return recorded(relay, seed, folder, server, ended)


def recorded(relay: Relay, seed: int, folder: Path, server: Endpoint, ended: str) -> Run:
    """Writes both legs."""
    recordings = {end: folder / f"{end}.pcapng" for end in ENDS}
    for end, place in recordings.items():
        with told(f"cannot write {str(place)!r}"):
            place.write_bytes(pcapng(relay.legs[end], b"tftp-trial", relay.missed[end]))
    behind = {side.at: side.stands_for for side in relay.sides.values()}
    asked: dict[EndName, Endpoint] = {"client": relay.listens, "server": server}
    return Run(seed, recordings, asked, ended, relay.tally, behind)
