"""How the scripts end where they can't do what they were asked for: words on standard error, and status 2."""
from __future__ import annotations

import contextlib
import os
import sys
import traceback
from collections.abc import Callable, Iterator


class Refused(Exception):
    """Why nothing, or no more, is said."""


@contextlib.contextmanager
def told(what: str) -> Iterator[None]:
    """What the system refuses, in words."""
    try:
        yield
    except OSError as why:
        raise Refused(f"{what}: {why.strerror or why}") from None


def shown(words: str) -> str:
    """Words in one line, as they can be printed: signs of control, and those that turn the way of writing, are
    escaped, as they may stand in the name of a file."""
    return "".join(it if it.isprintable() else it.encode("unicode_escape").decode() for it in words)


def tell(script: str, message: str) -> None:
    """A line on standard error; where that is closed there is nobody to tell."""
    with contextlib.suppress(OSError):
        os.write(2, f"{script}: {shown(message)}\n".encode(errors="backslashreplace"))


def write_out(text: str) -> None:
    """Standard output takes the text, or the call is refused."""
    with told("standard output cannot be written"):
        view = memoryview(text.encode("utf-8", "backslashreplace"))
        while view:
            view = view[os.write(1, view) :]


def read_file(path: str) -> bytes:
    """A file, or standard input for `-`."""
    if path == "-":
        with told("standard input cannot be read"), open(0, "rb", closefd=False) as given:
            return given.read()
    with told(f"cannot read the file {path!r}"), open(path, "rb") as given:
        return given.read()


def run_script(script: str, main: Callable[[], int]) -> None:
    """Ends with the status of `main`, or tells why not and ends with status 2: status 1 says that a transfer is not
    accepted, so no fault of a script ends with it."""
    try:
        sys.exit(main())
    except Refused as refusal:
        tell(script, str(refusal))
    except MemoryError:
        tell(script, "there is not enough memory")
    except KeyboardInterrupt:
        tell(script, "interrupted")
        sys.exit(130)
    except Exception:
        traceback.print_exc()
    sys.exit(2)
