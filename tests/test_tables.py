"""What each rule is called: the scripts' one table beside the definition of what the programs print; that no other
script or test has a printed name; and that on a copy whose table has other names tools/tables writes them wherever a
page or the plugin of Wireshark has one.
"""
from __future__ import annotations

import pathlib
import re
import shutil
import subprocess
import sys
from collections.abc import Iterator

from checks import Checks
from refusals import Rule
from repository import TOP

TABLE, CRATES = "tools/tftp_tools/rules.py", TOP / "crates"
# Changes of earlier versions are told with the names that were printed then, so the page of changes is none of these.
SCRIPTS, PAGES = ("tools", "tests", "bench"), ("docs", "share", "README.md", "CONTRIBUTING.md")
# What the sources call their rules and files, and messages of commits: these are no printed names.
OF_SOURCES = re.compile(r"`[A-Z]\w+`|Unlawful\(\d+, \w+(?:\(\w+\))?\)|\"law_end: [^\"]*\"")
# Pages that are made of the sources, and so have what these call their rules.
MADE = "docs/contracts/"
# What has each rule.
WRITTEN = ("docs/VERDICTS.md", "docs/SPECIFICATION.md", "share/wireshark/tftp-audit.lua")


def defined(file: str, function: str, value: str) -> dict[str, str]:
    """What a definition answers for each rule."""
    line = re.compile(rf"(?m)^{function} \(?(\w+)(?: fault\))? = {value}$")
    return dict(line.findall((CRATES / file).read_text()))


def texts(folder: pathlib.Path, among: tuple[str, ...]) -> Iterator[tuple[str, str]]:
    """The files there with their texts."""
    for name in among:
        path = folder / name
        for file in sorted(path.glob("**/*")) if path.is_dir() else (path,):
            page = str(file.relative_to(folder))
            if file.is_file() and file.suffix not in (".pyc", ".pcap", ".pcapng") and not page.startswith(MADE):
                yield page, file.read_text(encoding="utf-8", errors="replace")


def tables(folder: pathlib.Path, *words: str) -> tuple[str, str, int]:
    command = [sys.executable, str(folder / "tools" / "tables"), *words]
    done = subprocess.run(command, capture_output=True, text=True, timeout=60)
    return done.stdout, done.stderr, done.returncode


class Tables(Checks):
    """What each rule is called."""

    def test_definition(self) -> None:
        """The numbers and names of the table are those of the definitions."""
        decimal, quoted = r"(\d+)", r'codes "(\w+)"'
        numbers = defined("law_end/specs/Rules.antt", "number_of", decimal)
        numbers |= defined("law_model/specs/Rules/Rules.antt", "end_number", decimal)
        numbers |= defined("law_model/specs/Rules/PortNames.antt", "port_number", decimal)
        numbers |= defined("tftp_nego/specs/AgreementNames.antt", "agreement_number", decimal)
        names = defined("law_end/specs/RuleNames.antt", "rule_name", quoted)
        names |= defined("law_model/specs/Rules/EndNames.antt", "end_name", quoted)
        names |= defined("law_model/specs/Rules/PortNames.antt", "port_name", quoted)
        names |= defined("tftp_nego/specs/AgreementNames.antt", "agreement_name", quoted)
        self.check("27 rules are defined", len(numbers) == 27 and numbers.keys() == names.keys(), (numbers, names))
        of_crates = {int(numbers[rule]): names[rule] for rule in numbers}
        of_table = {rule.number: rule.printed for rule in Rule}
        for number in sorted(of_crates.keys() | of_table.keys()):
            got = of_table.get(number), of_crates.get(number)
            self.check(f"rule {number} in {TABLE} as in the definitions", got[0] == got[1], got)

    def test_scripts(self) -> None:
        """A script or a test names a rule as the table does, never as it is printed."""
        printed = re.compile("|".join(rf"\b{rule.printed}\b" for rule in Rule))
        for name, text in texts(TOP, SCRIPTS):
            if name != TABLE:
                found = sorted(set(printed.findall(text)))
                self.check(f"{name} has no printed name", not found, found)

    def test_written(self) -> None:
        """The tables of the pages are those of the scripts."""
        got = tables(TOP, "--check")
        self.check("tools/tables --check", got == ("", "", 0), got)

    def test_renamed(self) -> None:
        """On a copy each rule is called otherwise in the table, and then wherever a page has its name."""
        folder = self.folder
        for it in ("tools", *PAGES):
            if (TOP / it).is_dir():
                shutil.copytree(TOP / it, folder / it, ignore=shutil.ignore_patterns("__pycache__"))
            else:
                shutil.copy(TOP / it, folder / it)
        got = tables(folder, "--check")
        self.check("what is written is that of the table", got == ("", "", 0), got)
        table = folder / TABLE
        text = table.read_text()
        for rule in Rule:
            text = text.replace(f'{rule.number}, "{rule.printed}"', f'{rule.number}, "Renamed{rule.number}"')
        table.write_text(text)
        before = dict(texts(folder, PAGES))
        output, errors, status = tables(folder, "--check")
        is_told = all(f"{page}: line " in output for page in WRITTEN)
        self.check("other names are told", (errors, status) == ("", 1) and is_told, (output, errors, status))
        self.check("--check writes nothing", dict(texts(folder, PAGES)) == before)
        got = tables(folder)
        self.check("other names are written", got[1:] == ("", 0), got)
        got = tables(folder, "--check")
        self.check("nothing is left to write", got == ("", "", 0), got)
        printed = re.compile("|".join(rf"\b{rule.printed}\b" for rule in Rule))
        for page, text in texts(folder, PAGES):
            found = sorted(set(printed.findall(OF_SOURCES.sub("", text))))
            self.check(f"{page} has each name behind its number", not found, found)
        for page in WRITTEN:
            text = (folder / page).read_text()
            missing = [rule.number for rule in Rule if f"Renamed{rule.number}" not in text]
            self.check(f"{page} has each rule", not missing, missing)
