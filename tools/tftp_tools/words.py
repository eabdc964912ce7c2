"""The words by which a script is called: its help, the version, and what is said of a word that it does not know."""
from __future__ import annotations

import argparse
import difflib
import re
import sys
from collections.abc import Sequence
from pathlib import Path
from typing import Any, NoReturn, Optional, Union

from .errors import Refused, told, write_out

# It stands where the launchers have it, in a checkout as where the scripts are installed.
PLACE = Path(__file__).resolve().parent.parent / "commands.sh"
VERSION = re.compile(r"(?m)^version=(\S+)$")
OPTION = re.compile(r"(?<![\w-])--[a-z]+(?:-[a-z]+)*")
# How like an option is to a word that may have been meant as it, from 0 to 1.
LIKENESS = 0.75


def version() -> str:
    """The version of the launchers and of the scripts."""
    with told(f"cannot read the file {str(PLACE)!r}"):
        found = VERSION.search(PLACE.read_text("utf-8"))
    if not found:
        raise Refused(f"there is no version in {str(PLACE)!r}")
    return found[1]


class TellVersion(argparse.Action):
    """Writes the script's name and the version, and ends."""

    def __call__(
        self, parser: argparse.ArgumentParser, namespace: argparse.Namespace,
        values: Union[str, Sequence[Any], None], option_string: Optional[str] = None,
    ) -> None:
        write_out(f"{parser.prog} {version()}\n")
        parser.exit()


class Parser(argparse.ArgumentParser):
    """Writes help and version as all that a script writes, and refuses wrong words in one line."""

    def __init__(self, script: str, description: str, epilog: str) -> None:
        super().__init__(prog=script, description=description, epilog=epilog)
        self.add_argument("-V", "--version", action=TellVersion, nargs=0, help="show the version and exit")

    def print_help(self, file: Any = None) -> None:
        write_out(self.format_help())

    def error(self, message: str) -> NoReturn:
        raise Refused(f"{message}; {self.prog} --help says more")

    def unknown(self, word: str) -> str:
        """What is said of a word for which there is no use: of an option also which one is like it."""
        name = word.partition("=")[0]
        if not name.startswith("-"):
            return f"'{word}' is a word too many"
        like = difflib.get_close_matches(name, OPTION.findall(self.format_help()), 1, LIKENESS)
        return f"there is no option '{name}'" + "".join(f", but there is {option}" for option in like)

    def asked(self) -> argparse.Namespace:
        """What is asked for; options may stand between the other words, but where -- says that they end."""
        has_end = "--" in sys.argv[1:]
        asked, further = self.parse_known_args() if has_end else self.parse_known_intermixed_args()
        if further:
            self.error(self.unknown(further[0]))
        return asked
