"""What the scripts say of their words, of files that cannot be read and of outputs that fail: one line on standard error,
and status 2; and where the version and the options of the launchers stand beside the pages.
"""
from __future__ import annotations

import os
import pathlib
import re
import subprocess
import sys
from collections.abc import Sequence
from typing import Union

from checks import Checks
from launchers import FAILING, MISSING, ODD, VERSION
from repository import TOP
from scratch import MATCH, SCRIPTS, TRANSFERS
from tftp_tools.errors import shown
from tftp_tools.words import version

Word = Union[str, pathlib.Path]
EXAMPLE = TOP / "examples" / "one-block.capture"
# The scripts that read one file; the others run a client, and write files of recordings.
TRIAL, EXTRACT = "tftp-trial", "tftp-extract"
READERS = tuple(name for name in SCRIPTS if name not in (TRIAL, EXTRACT))
# In the place of tftp-audit: it accepts what it is given.
ACCEPTS = "#!/bin/sh\necho accepted get octet blocks 1 bytes $(wc -c)\n"
# In the place of tftp-transfers: it refuses what it is given, with its words.
REFUSES = "#!/bin/sh\necho tftp-transfers: $*: $(wc -c) >&2\nexit 2\n"
# In the place of tftp-transfers: what it tells beside a row names a file with a sign of control.
TELLS = r"""#!/bin/sh
printf 'tftp-transfers: a\033[31m: cut\n' >&2
echo '{"number":1,"place":"client","verdict":"accepted","doubts":[],"frame":null,"accused":null}'
"""
# How a script ends by what its work raises: the error, the status, and what is told of it.
ENDS = (
    ("Refused('a\\x1bb')", 2, r"x: a\x1bb"), ("MemoryError", 2, "x: there is not enough memory"),
    ("KeyboardInterrupt", 130, "x: interrupted"), ("ValueError('why')", 2, "ValueError: why"),
    ("SystemExit(1)", 1, ""),
)
USAGE = re.compile(r"(?ms)^usage='(.*?)'$")
OPTION = re.compile(r"(?<![\w-])--[a-z]+(?:-[a-z]+)*")


def script(name: str) -> pathlib.Path:
    return TOP / "tools" / name


def ran(command: Sequence[Word]) -> tuple[str, str, int]:
    """What a command writes, what it writes as errors, and its status. No launcher builds a program meanwhile: each
    refuses that it is to be for such a processor."""
    setting = {**os.environ, "TFTP_AUDIT_CPU": "none"}
    done = subprocess.run(command, capture_output=True, input="", encoding="utf-8", timeout=60, env=setting)
    return done.stdout, done.stderr, done.returncode


class Words(Checks):
    """The words of the scripts."""

    def program(self, text: str, name: str = "a program") -> pathlib.Path:
        """A program of this text."""
        made = self.folder / name
        made.write_text(text)
        made.chmod(0o755)
        return made

    def refuses(self, name: str, words: Sequence[Word], message: str) -> None:
        """The script prints nothing, says this in a line, and ends with status 2."""
        got = ran([script(name), *words])
        self.check(f"{name} {list(map(str, words))}", got == ("", f"{name}: {message}\n", 2), got)

    def test_help(self) -> None:
        for name in SCRIPTS:
            for word in ("--help", "-h"):
                output, errors, status = ran([script(name), word])
                is_whole = output.startswith(f"usage: {name} ") and "--version" in output and "Status" in output
                is_whole = is_whole or name == "tftp-explain" and "so is the status" in output
                self.check(f"{name} {word}", is_whole and (errors, status) == ("", 0), (output, errors))
            for word in ("--version", "-V"):
                got = ran([script(name), word])
                self.check(f"{name} {word}", got == (f"{name} {VERSION}\n", "", 0), got)

    def test_unknown(self) -> None:
        """A word for which there is no use is told, and which option is like it."""
        for name in READERS:
            ends = f"; {name} --help says more"
            for word, like in (("--frobnicate", ""), ("-x", ""), ("--servise=69", "service"), ("--progam", "program")):
                also = like and f", but there is --{like}"
                self.refuses(name, [EXAMPLE, word], f"there is no option '{word.partition('=')[0]}'{also}{ends}")
            self.refuses(name, [f"--{ODD}"], f"there is no option '--{shown(ODD)}'{ends}")
            self.refuses(name, ["--service"], f"argument --service: expected one argument{ends}")
            self.refuses(name, ["--", "--json"], f"cannot read the file '--json': {MISSING}")
        self.refuses("tftp-explain", [EXAMPLE, "--jso=1"], "argument --json: ignored explicit argument '1'; tftp-explain"
                     " --help says more")
        self.refuses("tftp-report", [EXAMPLE, "2"], "'2' is a word too many; tftp-report --help says more")
        for name in READERS[:2]:
            message = f"'{shown(ODD)}' is a word too many; {name} --help says more"
            self.refuses(name, [EXAMPLE, "1", "client", ODD], message)
            _, errors, status = ran([script(name), EXAMPLE, "1", "clent"])
            is_told = all(word in errors for word in ("'clent'", "client", "server", "between", "--help says more"))
            self.check(f"{name}, an end that is none", is_told and errors.count("\n") == 1 and status == 2, errors)

    def test_unknown_to_trial(self) -> None:
        for word, also in (("--frobnicate", ""), ("--sed", ", but there is --seed"), (f"--{ODD}", "")):
            told = f"there is no option '{shown(word)}'{also}; {TRIAL} --help says more"
            self.refuses(TRIAL, [word, "--", "true"], told)

    def test_unknown_to_extract(self) -> None:
        ends = f"; {EXTRACT} --help says more"
        for word, also in (("--frobnicate", ""), ("--partal", ", but there is --partial"), (f"--{ODD}", "")):
            self.refuses(EXTRACT, [self.folder, EXAMPLE, word], f"there is no option '{shown(word)}'{also}{ends}")
        missing: tuple[tuple[list[Word], str], ...] = (([], "DIR, FILE"), ([self.folder], "FILE"))
        for words, lacking in missing:
            self.refuses(EXTRACT, words, f"the following arguments are required: {lacking}{ends}")
        self.refuses(EXTRACT, [self.folder, EXAMPLE], f"{str(EXAMPLE)!r} is no recording")
        for file, why in (("missing", MISSING), (ODD, MISSING), (str(self.folder), "Is a directory")):
            self.refuses(EXTRACT, [self.folder, file], f"cannot read the file {file!r}: {why}")
        self.refuses(EXTRACT, [EXAMPLE, EXAMPLE], f"cannot make files in the folder {str(EXAMPLE)!r}: Not a directory")

    def test_places(self) -> None:
        """Options may stand between the other words."""
        words: list[Word] = ["--program", self.program(ACCEPTS), EXAMPLE, "1", "--service", "6969", "client"]
        for name in READERS[:2]:
            self.refuses(name, words, f"{str(EXAMPLE)!r} is no recording, so it has no transfer 1")

    def test_files(self) -> None:
        """Why a file cannot be read is the system's word, and its name is printed without signs of control."""
        circle, locked = self.folder / "a circle", self.folder / "a locked file"
        circle.symlink_to(circle)
        locked.write_text("its text")
        locked.chmod(0)
        why: tuple[tuple[Word, str], ...] = (
            ("missing", MISSING), ("", MISSING), (ODD, MISSING), (self.folder, "Is a directory"),
            (EXAMPLE / "x", "Not a directory"), (circle, "Too many levels of symbolic links"),
            (locked, "Permission denied"),
        )
        for name in READERS:
            for file, reason in why:
                if file == locked and os.access(locked, os.R_OK):
                    self.leave(f"{name} of a locked file", "who runs this may read each file")
                    continue
                message = f"cannot read the file {str(file)!r}: {reason}"
                self.refuses(name, [file], message)
                if name != "tftp-report":
                    self.refuses(name, ["--pair", EXAMPLE, file], message)
        self.check("no sign of control is printed", all(sign.isprintable() for sign in repr(ODD)))

    def test_outputs(self) -> None:
        """Where standard output fails, that is told with the system's reason, and is no fault of what is read."""
        accepts = self.program(ACCEPTS)
        for name in READERS:
            calls: list[list[Word]] = [["--help"], ["--version"]]
            if name != "tftp-report":
                calls.append(["--program", accepts, EXAMPLE])
            for words in calls:
                for failure, command, why in FAILING:
                    _, told, status = ran(["sh", "-c", command, "sh", script(name), *words])
                    wanted = f"{name}: standard output cannot be written: {why}\n"
                    holds = (told, status) in ((wanted, 2), (f"{wanted}status 2\n", 0))
                    self.check(f"{name} {words[0]}, {failure}", holds, (told, status))

    def test_pipes(self) -> None:
        """What is named and can be read once is read once, and whole."""
        recording = TOP / "examples" / "loopback-session.pcap"
        sizes = [path.stat().st_size for path in (EXAMPLE, recording)]
        piped: list[Word] = ["sh", "-c", 'given=$1; shift; cat "$given" | "$@" /dev/fd/0', "sh"]
        accepts, refuses = self.program(ACCEPTS), self.program(REFUSES, "another program")
        for name in READERS:
            words: list[Word] = [script(name), "--program", accepts, "--transfers", refuses]
            got = ran([*piped, recording, *words])
            wanted = f"{name}: check --json -- -: {sizes[1]}\n"
            self.check(f"a recording, piped to {name}", got == ("", wanted, 2), got)
            if name != "tftp-report":
                twice = "'/dev/fd/0' can be read once, and is read twice: it may come on standard input, as -"
                got = ran([*piped, EXAMPLE, *words, "--pair", EXAMPLE])
                self.check(f"a pair, piped to {name}", got == ("", f"{name}: {twice}\n", 2), got)
                alone, got = ran([*words, EXAMPLE]), ran([*piped, EXAMPLE, *words])
                is_whole = name == "tftp-ladder" or f"bytes {sizes[0]}\n" in got[0]
                self.check(f"a text, piped to {name}", is_whole and got == alone and got[1:] == ("", 0), got)

    def test_ends(self) -> None:
        """A script that fails says so, and never by status 1, which is that of a transfer that is not accepted."""
        for raised, status, told in ENDS:
            code = f"from tftp_tools.errors import *\ndef main(): raise {raised}\nrun_script('x', main)"
            done = subprocess.run([sys.executable, "-c", code], cwd=TOP / "tools", capture_output=True, text=True)
            last = done.stderr.splitlines()[-1:]
            holds = (done.returncode, last, done.stdout) == (status, [told] if told else [], "")
            self.check(f"a script that ends by {raised}", holds, done)

    def test_names(self) -> None:
        """What a program tells of a file is printed without signs of control, on standard error and in a report."""
        code = (
            "import sys\nfrom tftp_tools.recording import Recording\nnotes = []\n"
            "Recording('a', b'', (), sys.argv[1], '').rows('x', None, notes)\nprint(*notes)"
        )
        command = [sys.executable, "-c", code, str(self.program(TELLS))]
        done = subprocess.run(command, cwd=TOP / "tools", capture_output=True, text=True)
        got = done.stdout, done.stderr, done.returncode
        self.check("a name beside the rows", got == (r"a\x1b[31m: cut" + "\n", r"x: a\x1b[31m: cut" + "\n", 0), got)
        for name, wanted in (("größe.pcap", "größe.pcap"), ("a b'\\", "a b'\\"), ("\u2066\udcff\t", r"\u2066\udcff\t")):
            self.check(f"{name!r} is shown", shown(name) == wanted, shown(name))


class Places(Checks):
    """What stands at more places than one."""

    def test_version(self) -> None:
        """The launchers and scripts, the programs, and the list of changes have one version."""
        released = re.findall(r"(?m)^## (\d+\.\d+\.\d+), \d", (TOP / "CHANGELOG.md").read_text())
        self.check("the version of the scripts is that of the programs", version() == VERSION, version())
        self.check("it is the newest that was released", released[:1] == [VERSION], released)
        told = [path for path in (TOP / "tools").rglob("*") if path.is_file() and "__pycache__" not in path.parts]
        naming = [path.name for path in told if f"{VERSION}\n" in path.read_text("utf-8")]
        self.check("no other file of tools/ has it", naming == ["commands.sh"], naming)

    def test_usage(self) -> None:
        """What a launcher tells before its program is built has the options of the manual page."""
        for launcher in (TRANSFERS, MATCH):
            usage = USAGE.findall((TOP / launcher.name).read_text())
            page = (TOP / "docs" / "man" / f"{launcher.name}.1").read_text().replace("\\-", "-")
            headed = "\n".join(re.findall(r"(?m)^\.TP\n\.B\w* (.*)$", page))
            synopsis = page.partition(".SH SYNOPSIS")[2].partition(".SH DESCRIPTION")[0]
            told, wanted = set(OPTION.findall(usage[0])), set(OPTION.findall(headed + synopsis))
            also = {"--check"} if launcher == TRANSFERS else set()
            self.check(f"the options of {launcher.name}", told == wanted | also, told ^ wanted)
