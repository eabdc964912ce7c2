"""Tries every wrong body of the repository, those in crates/NAME/must-fail and those in crates/NAME/plants: the prover
must refuse each. Many are tried in one check, on copies outside the repository; what is here is only read.

An edit is refused where the function that it changes has an open goal of its own. Prints a line for each edit with
the function, the clause and the reason. An edit fails that cannot be applied, that is proved, that is refused only by
its types or its syntax, that only makes another function's proof fall, or whose check does not end.
"""
from __future__ import annotations

import argparse
import concurrent.futures
import pathlib
import resource
import signal
import sys
import tempfile
import time
from collections.abc import Collection
from concurrent.futures import ThreadPoolExecutor

from tftp_plants import edits, rooms, tries

TOP = pathlib.Path(__file__).resolve().parents[2]


class Given(argparse.Namespace):
    """The words of a call."""

    names: list[str]
    jobs: int
    seconds: int
    edits: pathlib.Path | None
    fresh: bool


def words() -> Given:
    whole = argparse.RawDescriptionHelpFormatter
    form = argparse.ArgumentParser(prog="plants", description=__doc__, formatter_class=whole)
    form.add_argument("names", nargs="*", metavar="NAME", help="a crate, an edit, or CRATE/EDIT; none: all")
    form.add_argument("--jobs", type=int, default=2, metavar="N", help="checks at a time (2)")
    form.add_argument("--seconds", type=int, default=1200, metavar="N", help="how long a check may take (1200)")
    others = "tries the edits FOLDER/CRATE/*.edit in place of the repository's"
    form.add_argument("--edits", type=pathlib.Path, metavar="FOLDER", help=others)
    fresh = "takes nothing from the crates' out/, and first checks each from nothing"
    form.add_argument("--fresh", action="store_true", help=fresh)
    return form.parse_args(namespace=Given())


def is_named(edit: edits.Edit, names: Collection[str]) -> bool:
    own = {edit.crate, edit.name, f"{edit.crate}/{edit.name}", str(edit)}
    return not names or not own.isdisjoint(names)


def told(it: tries.Try) -> None:
    print(f"{it.edit}: {'refused: ' if it.is_refused else 'FAILED: '}{it.reason}", flush=True)


def try_crate(
    crate: str, found: list[edits.Edit], room: rooms.Rooms, pool: ThreadPoolExecutor
) -> list[tries.Try]:
    """Tries a crate's edits, and prints a line for each."""
    try:
        tried = tries.Tries(crate, found, room)
    except rooms.NotProved as why:
        print(why, flush=True)
        return [tries.Try(it, reason="its crate is not proved") for it in found]
    groups, kept = tried.groups(), room.kept_of(crate)
    print(f"{crate}: {len(found)} edits in {len(groups)} checks", flush=True)
    for it in tried.tries:
        if it.reason:
            told(it)
    for running in concurrent.futures.as_completed([pool.submit(run, tried, it) for it in groups]):
        for it in running.result():
            told(it)
    if room.kept_of(crate) != kept:
        print(f"{crate}: a check has written over the work that was kept for the others: nothing is known", flush=True)
        return [tries.Try(it.edit, reason="its check was spoiled") for it in tried.tries]
    return tried.tries


def run(tried: tries.Tries, group: tries.Group) -> list[tries.Try]:
    tried.run(group)
    return group.tries


def main() -> int:
    given, started = words(), time.monotonic()
    signal.signal(signal.SIGTERM, lambda *_: sys.exit(1))
    done: list[tries.Try] = []
    with tempfile.TemporaryDirectory(prefix="plants-") as folder, ThreadPoolExecutor(given.jobs) as pool:
        room = rooms.Rooms(TOP, folder, given.seconds, given.fresh)
        try:
            all_of_them = {crate: edits.edits_of(crate, TOP, given.edits) for crate in room.libraries}
            for crate, found in all_of_them.items():
                named = [it for it in found if is_named(it, given.names)]
                done += try_crate(crate, named, room, pool) if named else []
        finally:
            signal.signal(signal.SIGTERM, signal.SIG_IGN)
            room.end_all()
    failed = [str(it.edit) for it in done if not it.is_refused]
    used = resource.getrusage(resource.RUSAGE_CHILDREN)
    print(f"{time.monotonic() - started:.0f} s, {used.ru_utime + used.ru_stime:.0f} s of processor time")
    print(f"{len(done) - len(failed)} refused, {len(failed)} failed{': ' + ' '.join(failed) if failed else ''}")
    return 1 if failed or not done else 0

