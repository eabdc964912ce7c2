"""Programs that are started for a trial, each with its children in a group of processes of its own, and are ended with
it; and whether something listens at a port of UDP."""
from __future__ import annotations

import contextlib
import os
import random
import signal
import socket
import struct
import subprocess
import threading
import time
from collections.abc import Iterator, Mapping, Sequence
from pathlib import Path
from typing import Optional

from .errors import Refused, told
from .relay import Endpoint, opened

# The kernel's lists of the ports that are bound, and what may be bound there for any address.
LISTS = (Path("/proc/net/udp"), Path("/proc/net/udp6"))
ANY = ("0.0.0.0", "::")
# So many seconds a server may take until it listens, and a program that is asked to end.
READY, ENDING = 5.0, 1.0
STEP = 0.02
# Ports below those that a kernel gives out by itself, each once, in no order.
PORTS = range(20_000, 32_000)
FREE = iter(random.sample(PORTS, len(PORTS)))
# A program that is being started has each socket for a moment: a port that is tried meanwhile is not free at once.
STARTING = threading.Lock()


def filled(words: Sequence[str], values: Mapping[str, object]) -> list[str]:
    """The words with values in the place of their names in braces; other braces stay."""
    whole = list(words)
    for name, value in values.items():
        whole = [word.replace(f"{{{name}}}", str(value)) for word in whole]
    return whole


def end(process: subprocess.Popen[bytes]) -> None:
    """Ends a program and what it began, at once where it does not end when it is asked."""
    for asked in (signal.SIGTERM, signal.SIGKILL):
        with contextlib.suppress(ProcessLookupError, PermissionError):
            os.killpg(process.pid, asked)
        with contextlib.suppress(subprocess.TimeoutExpired):
            process.wait(ENDING)


@contextlib.contextmanager
def started(words: Sequence[str], folder: Path, log: Path) -> Iterator[subprocess.Popen[bytes]]:
    """A program that runs meanwhile in a folder; what it says goes to a file."""
    with told(f"cannot write {str(log)!r}"), open(log, "wb") as file:
        with told(f"cannot run {words[0]!r}"), STARTING:
            process = subprocess.Popen(
                words, cwd=folder, stdin=subprocess.DEVNULL, stdout=file, stderr=subprocess.STDOUT,
                start_new_session=True,
            )
    try:
        yield process
    finally:
        end(process)


def host_of(digits: str) -> str:
    """A host as the kernel's lists have it: words of 32 bits as they lie in memory."""
    words = (int(digits[at : at + 8], 16) for at in range(0, len(digits), 8))
    packed = b"".join(struct.pack("=I", word) for word in words)
    return socket.inet_ntop(socket.AF_INET if len(packed) == 4 else socket.AF_INET6, packed)


def bound() -> Optional[set[Endpoint]]:
    """The endpoints of UDP at which something listens; nothing where the kernel does not tell."""
    found = set()
    with contextlib.suppress(OSError):
        for line in "".join("".join(it.read_text().splitlines(True)[1:]) for it in LISTS if it.exists()).splitlines():
            host, _, port = line.split()[1].partition(":")
            found.add(Endpoint(host_of(host), int(port, 16)))
        return found if LISTS[0].exists() else None
    return None


def is_listening(at: Endpoint) -> bool:
    """Whether something listens there; where the kernel does not tell, it is taken to after a while."""
    known = bound()
    if known is None:
        time.sleep(READY / 10)
        return True
    return any(Endpoint(host, at.port) in known for host in (at.host, *ANY))


def wait_until_listening(process: subprocess.Popen[bytes], at: Endpoint, log: Path) -> None:
    """Waits for a server; one that ends before it listens, or takes too long, is refused."""
    until = time.monotonic() + READY
    while not is_listening(at):
        said = (log.read_text(errors="backslashreplace").splitlines() or ["it said nothing"])[-1]
        if process.poll() is not None:
            raise Refused(f"the server ended with status {process.returncode} before it listened: {said}")
        if time.monotonic() > until:
            raise Refused(f"the server does not listen at {at.told()}: {said}")
        time.sleep(STEP)


def free_port(host: str) -> Endpoint:
    """An endpoint of this host at which nothing listens, and which the kernel gives to nobody who asks for any port."""
    for port in FREE:
        with contextlib.suppress(OSError), STARTING, contextlib.closing(opened(Endpoint(host, port))):
            return Endpoint(host, port)
    raise Refused(f"no port of {host} can be had")
