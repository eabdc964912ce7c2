"""Prints how long `tftp-match` takes of both ends of a read, in blocks of several sizes, in the time of `check` on the
one text and on the other: processor time, the best of three runs, and the most memory. Ends with status 1 where it is
more than 2.2 times.

    matching.py PROGRAM MATCH [MB]
"""
import os
import sys
import tempfile

from measure import best_of, figures
from worst import made

RUNS = 3
SIZES = (8, 512, 1_428, 65_464)
MOST = 2.2
TURNED = {b"in": b"out", b"out": b"in"}


def at_server(line: bytes) -> bytes:
    """A line of a client's text as the server has it, to which nothing was lost."""
    if line.startswith(b"end "):
        return b"end server\n"
    word, *rest = line.split(b" ", 3)
    if word not in TURNED:
        return line
    local, remote, payload = rest
    return b" ".join((TURNED[word], remote, local, payload))


def pair(folder: str, size: int, block: int) -> tuple[str, str]:
    """The paths of both ends' texts, of about so many bytes each."""
    client = made(folder, size, "capture", str(block))
    server = f"{client}-server"
    with open(client, "rb") as lines, open(server, "wb") as turned:
        turned.writelines(map(at_server, lines))
    return client, server


def main(program: str, match: str, megabytes: str = "100") -> int:
    over = 0
    print("Time of tftp-match on both ends, in that of check on each:")
    for block in SIZES:
        with tempfile.TemporaryDirectory() as folder:
            client, server = pair(folder, int(megabytes) * 1_000_000, block)
            (of_client,), (of_server,) = (best_of(RUNS, path, [program, "check"]) for path in (client, server))
            (both,) = best_of(RUNS, client, [match, "-", server])
            answer = both.answer.splitlines()
            if answer != [of_client.answer, of_server.answer, "matched lost 0 repeated 0"]:
                sys.exit(f"blocks of {block}: {answer}")
            times = both.seconds / (of_client.seconds + of_server.seconds)
            over += times > MOST
            size = os.path.getsize(client) + os.path.getsize(server)
            print(
                f"blocks of {block:<6}  {figures(times)} times, {figures(both.seconds)} s,"
                f" {both.memory / 1e6:.1f} MB of memory for {figures(size / 1e6)} MB"
                + (f", more than {MOST}" if times > MOST else ""),
                flush=True,
            )
    return 1 if over else 0


if __name__ == "__main__":
    sys.exit(main(*sys.argv[1:]))
