"""Prints how long a byte takes of the texts and recordings that cost most, in those of a plain read of the same size in
blocks of 1,428 bytes by the same command: processor time, the best of three runs, and the most memory for each byte.
Tells where one takes more than it may, and then ends with status 1.

    worst.py PROGRAM TRANSFERS [MB]
"""
import os
import pathlib
import subprocess
import sys
import tempfile
from typing import NamedTuple

from measure import best_of, figures

GENERATE = pathlib.Path(__file__).with_name("generate.py")
RUNS = 3
PLAIN, PLAIN_RECORDING = ("capture", "1428"), ("recording", "1428")
# What the text is, how it is made, the commands that are tried on it, and how many times a plain byte's time they may
# take.
ROWS = [
    ("netascii, a file of CR alone", ["returns"], ["check", "extract", "normal", "count"], 15),
    ("netascii, lines that end in CR", ["old"], ["check", "extract", "normal", "count"], 15),
    ("a request of 64 options again and again", ["requests", "64"], ["check", "show"], 15),
    ("a request of 120 options again and again", ["requests", "120"], ["check", "show"], 15),
    ("35 options whose names have one number, respelled", ["respelled"], ["check", "show"], 15),
    ("an OACK of 64 long names again and again", ["oacks"], ["show"], 15),
    ("an OACK of 1,000 names of one number", ["alike"], ["show"], 15),
    ("an OACK of 16,000 names, two of one number", ["tiny"], ["show"], 15),
    ("an OACK of 13,000 names of three bytes", ["three"], ["show"], 15),
    ("an OACK of 5,900 names that begin alike", ["nine"], ["show"], 15),
    ("65,534 stray ports, each once", ["once"], ["check"], 15),
    ("a million hosts", ["hosts"], ["check"], 15),
    ("empty lines", ["blank"], ["check", "show"], 15),
    ("comments of one byte", ["short"], ["check", "show"], 15),
]
# The same of recordings.
OF_RECORDINGS = [("requests alone, each from another client", ["asks"], ["check"], 15)]
# So many MB have the texts of some kinds, which take long for each byte.
SMALL = {"alike": 2, "tiny": 1, "three": 1, "nine": 1, "once": 1, "asks": 8}


def made(folder: str, size: int, kind: str, *words: str) -> str:
    """The path of a text or a recording of a kind, of about so many bytes."""
    end = "pcap" if kind in ("asks", "recording") else "capture"
    path = os.path.join(folder, f"{'-'.join([kind, *words])}-{size}.{end}")
    with open(path, "wb") as text:
        subprocess.run([sys.executable, str(GENERATE), kind, str(size), *words], stdout=text, check=True)
    return path


class Cost(NamedTuple):
    """The time that a command takes for a byte, in nanoseconds, and its most memory, in bytes, for one."""

    time: float
    memory: float


def cost(path: str, least: str, program: str, command: str) -> Cost:
    """What a command takes for a byte of a file, beyond what it takes for the least one."""
    words = [program, command, *(["-"] if path.endswith("pcap") else [])]
    (best,), (start,) = (best_of(RUNS, it, words, most_status=1) for it in (path, least))
    size = os.path.getsize(path)
    return Cost(max(1e-6, best.seconds - start.seconds) / size * 1e9, best.memory / size)


def main(program: str, transfers: str, megabytes: str = "62") -> int:
    over = 0
    print("Time and memory for a byte: the time in those of a plain read in blocks of 1,428 bytes by the same command:")
    rows = [(program, PLAIN, *row) for row in ROWS] + [(transfers, PLAIN_RECORDING, *row) for row in OF_RECORDINGS]
    with tempfile.TemporaryDirectory() as folder:
        for tried, plain, name, words, commands, most in rows:
            size = min(int(megabytes), SMALL.get(words[0], int(megabytes))) * 1_000_000
            least = made(folder, 1, *plain)
            path, beside = made(folder, size, *words), made(folder, int(megabytes) * 1_000_000, *plain)
            for command in commands:
                took, base = (cost(it, least, tried, command) for it in (path, beside))
                times = took.time / base.time
                over += times > most
                told = f", more than {most}" if times > most else ""
                print(f"{name:<48}  {command:<7}  {figures(times):>5} times, {figures(took.memory)} bytes{told}", flush=True)
            for it in (path, beside, least):
                os.remove(it)
    return 1 if over else 0


if __name__ == "__main__":
    sys.exit(main(*sys.argv[1:]))
