"""What is tried of each launcher, and of the Makefile's targets that build, on a scratch copy with a stand-in for rt.

The stand-in's programs say of which source they were built, what their words are and what their input is.
"""
from __future__ import annotations

import os
import pathlib
import re
import shutil
import subprocess
from collections.abc import Callable

from checks import Checks
from commands import COMMANDS
from repository import TOP
from scratch import AUDIT, LAUNCHERS, MATCH, NEEDED, SCRIPTS, TRANSFERS, V3, Launcher, Ran, Scratch, Word, said_of

# As the program tftp-transfers tells its own.
VERSION = re.findall(r'VERSION: &str = "(.*)"', (TOP / "crates" / "tftp_words" / "src" / "help.rt").read_text())[0]
# What tftp-audit says of words that begin with no command.
HINT = f"tftp-audit: call it as tftp-audit {'|'.join(COMMANDS)} [FILE]; tftp-audit --help says more\n"
# Signs of control and of the way of writing, in the name of a file that is not there, and how they are printed.
ODD, PLAIN_ODD = "a\x1b[31m\n\x7f\u202e\u00e9", r"a\x1b[31m\x0a\x7f\xe2\x80\xae\xc3\xa9"
MISSING = "No such file or directory"
# How standard output fails, and the system's reason.
FAILING = (
    ("a full disk", '"$@" >/dev/full', "No space left on device"), ("closed output", '"$@" >&-', "Bad file descriptor"),
    ("a closed pipe", '{ sleep 0.2; "$@"; echo "status $?" >&2; } | true', "Broken pipe"),
)


def at_hand() -> str:
    """What programs are to be built for on this machine."""
    file = pathlib.Path("/proc/cpuinfo")
    lines = file.read_text().splitlines() if file.exists() else []
    flags: list[str] = next((line.split() for line in lines if line.startswith("flags")), [])
    return V3 if set(NEEDED) <= set(flags) else "any"


def text_for(cpu: str, text: str) -> str:
    """What the stand-in's program says of its source."""
    return text if cpu == "any" else f"{text} for {cpu}"


def give_flags(scratch: Scratch, line: str) -> None:
    """From now on this line is what the list of processors has of flags; that it is asked for is written down."""
    spy, grep = scratch.bin / "grep", shutil.which("grep")
    asked = f"echo asked >>\"$CALLS\"; echo '{line}' | {grep} '^flags'"
    spy.write_text(f'#!/bin/sh\ncase $* in *cpuinfo) {asked} ;; *) exec {grep} "$@" ;; esac\n')
    spy.chmod(0o755)


class Launchers(Checks):
    """The runs of a launcher on its copy, whose state each step finds as the one before left it."""

    launcher: Launcher
    scratch: Scratch

    def try_launcher(self, launcher: Launcher, *further: Callable[[], None]) -> None:
        self.launcher, self.scratch = launcher, Scratch(self.folder, launcher)
        for step in (
            self.unbuilt, self.building, self.libraries, self.edits_meanwhile, self.failing, self.gates, self.links,
            *further, self.states, self.processors, self.gates_here,
        ):
            step()

    def of_audit(self, text: str) -> str:
        """What tftp-audit's source says, where that of the launcher says this."""
        return text if self.launcher == AUDIT else "other"

    def not_built(self) -> str:
        return self.launcher.said("the program was not built, so nothing is run\n")

    def runs(
        self, name: str, got: Ran, text: str, builds: int, words: str = "", given: str = "", status: int = 0
    ) -> None:
        """The program that was built of this text ran, after so many builds, and nothing else is told of it."""
        output, errors, ended, calls = got
        says_time = errors.startswith(self.launcher.says_time()) and "rt: progress" in errors
        told = errors == "" if builds == 0 else says_time
        words = words or said_of(self.launcher.words)
        holds = output == f"{text}: {words}: {given}\n" and ended == status and calls == builds and told
        self.check(name, holds, got)

    def refuses(self, name: str, got: Ran, message: str, builds: int = 0) -> None:
        """Nothing ran, and the last that is told is the message."""
        output, errors, status, calls = got
        self.check(name, output == "" and errors.endswith(message) and status == 2 and calls == builds, got)

    def unbuilt(self) -> None:
        """Help, the version and what is no option are told without a build, by a launcher of the same version."""
        for words in (["--help"], ["-h"], ["check", "--help"]):
            output, *others = self.scratch.run(*words)
            is_told = f"Usage: {self.launcher.name} " in output and output.endswith("\n")
            self.check(f"{words} before a build", is_told and others == ["", 0, 0], (output, *others))
        for word in ("--version", "-V"):
            got = self.scratch.run(word)
            self.check(f"{word} before a build", got == (f"{self.launcher.name} {VERSION}\n", "", 0, 0), got)
        help_says = f"; {self.launcher.name} --help says more\n"
        for word in ("--frobnicate", "-x", "--jso", "--json x", "--frob=1", f"--{ODD}"):
            name = word.partition("=")[0].replace(ODD, PLAIN_ODD)
            got = self.scratch.run("check", word)
            self.refuses(f"check {word!r} before a build", got, f"there is no option '{name}'{help_says}")
            self.check(f"check {word!r}, one line", got[1].count("\n") == 1, got)
        self.failing_output("--help")
        self.failing_output("--version")

    def failing_output(self, word: str) -> None:
        """Where standard output fails, that is told with the system's reason, and the status is 2."""
        launcher = self.scratch.top / self.launcher.name
        for name, command, why in FAILING:
            _, told, status, _ = self.scratch.run("-c", command, "sh", launcher, word, script="sh")
            wanted = self.launcher.said(f"standard output cannot be written: {why}\n")
            holds = (told, status) in ((wanted, 2), (f"{wanted}status 2\n", 0))
            self.check(f"{word}, {name}", holds, (told, status))

    def building(self) -> None:
        self.runs("the first call", self.scratch.call("text"), "one", 1, given="text")
        self.runs("nothing changed", self.scratch.call(), "one", 0)
        for word in ("--build", "--ready"):
            got = self.scratch.run(word)
            self.check(f"{word}, nothing changed", got == ("", "", 0, 0), got)
        self.scratch.source.write_text("two 1")
        self.refuses("a trial run that fails", self.scratch.call(), self.not_built(), 1)
        self.scratch.source.write_text("two")
        self.runs("an edit", self.scratch.call(), "two", 1)
        self.scratch.source.write_text("six")
        os.utime(self.scratch.source, (0, 0))
        self.runs("an edit with an old date", self.scratch.call(), "six", 1)
        os.utime(self.scratch.source, (4_000_000_000, 4_000_000_000))
        self.scratch.source.with_name("first.rt").write_text("edited")
        self.runs("an edit beside a date that is to come", self.scratch.call(), "six", 1)
        self.runs("nothing changed beside a date that is to come", self.scratch.call(), "six", 0)
        self.scratch.program.write_text(self.scratch.program.read_text().replace("six", "not ours"))
        self.runs("another program in its place", self.scratch.call(), "six", 1)
        crates = self.scratch.top / "crates"
        for file in (self.scratch.top / "crates.txt", crates / "tftp_low" / "proofs" / "deep" / "first.rt"):
            file.write_text("edited")
            self.runs(f"an edit of {file.name}", self.scratch.call(), "six", 1)
        for folder in ("src", "specs", "proofs"):
            file = crates / "tftp_low" / folder / "another name.rt"
            file.write_text("")
            self.runs(f"a file more in {folder}", self.scratch.call(), "six", 1)
            file.unlink()
            self.runs(f"a file less in {folder}", self.scratch.call(), "six", 1)
        (crates / "tftp_low" / "must-fail" / "one.edit").write_text("")
        self.runs("a must-fail edit more", self.scratch.call(), "six", 0)

    def edits_meanwhile(self) -> None:
        self.scratch.source.write_text("three")
        got = self.scratch.call(meanwhile="echo four >src/main.rt")
        self.runs("an edit while it builds", got, "three", 1)
        self.runs("the call after it", self.scratch.call(), "four", 1)
        self.runs("the call after that", self.scratch.call(), "four", 0)
        self.scratch.source.write_text("five")
        meanwhile = "text=mixture; echo mixture >src/main.rt; printf five >src/main.rt"
        self.runs("an edit that is taken back", self.scratch.call(meanwhile=meanwhile), "mixture", 1)
        self.runs("the call after the edit was taken back", self.scratch.call(), "five", 1)
        self.runs("the next call", self.scratch.call(), "five", 0)
        meanwhile = "rm ../tftp_low/src/first.rt"
        self.scratch.source.write_text("six")
        self.runs("a source that is removed while it builds", self.scratch.call(meanwhile=meanwhile), "six", 1)
        self.runs("the call after a source was removed", self.scratch.call(), "six", 1)

    def failing(self) -> None:
        """A build that fails beside an older program."""
        old = self.scratch.program.read_bytes(), self.scratch.program.stat().st_mtime_ns
        self.scratch.source.write_text("broken")
        right = self.scratch.launcher.words
        for words in (
            right, right, *self.scratch.launcher.others, ("--build",), ("--ready",), ("check", "tests/here.sh")
        ):
            got = self.scratch.run(*words)
            self.refuses(f"a failed build, {words}", got, "error: broken\n" + self.not_built(), 1)
        for target in ("build", "install"):
            status, errors, tested = self.scratch.make(target)
            holds = status == 2 and "error: broken\n" in errors and not tested
            self.check(f"a failed build, make {target}", holds, errors)
        self.check("a failed build, installed", not self.scratch.installed().exists())
        now = self.scratch.program.read_bytes(), self.scratch.program.stat().st_mtime_ns
        self.check("a failed build leaves the older program", now == old)
        status, errors, tested = self.scratch.make("test")
        holds = status == 2 and "error: broken\n" in errors and not tested and not self.scratch.program.exists()
        self.check("a failed gate", holds, errors)
        self.scratch.source.write_text("mended")
        self.runs("a mended source", self.scratch.call(), "mended", 1)
        self.check("make build, where the other program is to be built", self.scratch.make("build")[0] == 0)
        for target in ("build", "install"):
            self.check(f"make {target}", self.scratch.make(target) == (0, "", False))
        lib = "lib/tftp-audit"
        places = (AUDIT, f"{lib}/tftp-audit"), (TRANSFERS, f"{lib}/tftp-transfers"), (MATCH, "bin/tftp-match")
        for it, place in places:
            program, installed = self.scratch.program_of(it), self.scratch.prefix() / place
            same = installed.exists() and installed.read_bytes() == program.read_bytes()
            self.check(f"make install, {it.name}", same and not installed.is_symlink())
        self.installed_scripts()
        self.installed_launcher()
        self.uninstalled()

    def installed_scripts(self) -> None:
        """The scripts run from where they are installed, with the programs beside them, and all have their pages."""
        folder = self.scratch.installed().parent
        for name in SCRIPTS:
            done = subprocess.run([folder / name, "--help"], capture_output=True, text=True)
            self.check(f"{name}, installed", done.returncode == 0 and done.stdout.startswith(f"usage: {name}"), done)
        for name in (*(it.name for it in LAUNCHERS), *SCRIPTS):
            page = folder.parent / "share" / "man" / "man1" / f"{name}.1"
            self.check(f"{name}, its page installed", page.is_file())
        for name in ("wireshark/tftp-audit.lua", "schemas/check.schema.json"):
            self.check(f"{name}, installed", (folder.parent / "share" / "tftp-audit" / name).is_file())
        done = subprocess.run([folder / "tftp-explain"], input="", capture_output=True, text=True)
        holds = done.returncode == 2 and f"'{folder / AUDIT.name}' gave no verdict" in done.stderr
        self.check("tftp-explain, installed, runs the program beside it", holds, done)
        recording = TOP / "examples" / "loopback-session.pcap"
        done = subprocess.run([folder / "tftp-explain", recording], capture_output=True, text=True)
        holds = done.returncode == 2 and f"'{folder / TRANSFERS.name}' gave no rows" in done.stderr
        self.check("tftp-explain, installed, asks the program beside it for a recording's rows", holds, done)

    def installed_launcher(self) -> None:
        """The installed tftp-audit opens a file, also by a link and from another folder, and answers two options."""
        launcher, folder = self.scratch.prefix() / "bin" / AUDIT.name, self.scratch.top.parent
        text = "mended" if self.scratch.launcher == AUDIT else "other"
        capture, link = folder / "an installed capture", folder / "a link to the installed one"
        capture.write_text("its text")
        link.symlink_to(launcher)
        places: tuple[tuple[pathlib.Path, Word], ...] = (
            (launcher, capture), (launcher, capture.name), (link, capture), (link, f"./{capture.name}"),
        )
        for script, word in places:
            got = self.scratch.run("check", word, script=script, folder=folder, given="other")
            holds = got == (f"{text}: 1 words check: its text\n", "", 0, 0)
            self.check(f"installed, {script.name} check {word}", holds, got)
        for its in (("check",), ("check", "-"), ("check", "--")):
            got = self.scratch.run(*its, script=launcher, given="given")
            self.check(f"installed, {its}", got == (f"{text}: 1 words check: given\n", "", 0, 0), got)
        for words in (
            ("check", "--rollover", "1"), ("check", "--rollover=1", "-"), ("check", "--rollover", "1", "--"),
            ("show", "--rollover", "1"),
        ):
            got = self.scratch.run(*words, script=launcher, given="given")
            wanted = f"{text}: 3 words {words[0]} --rollover 1: given\n", "", 0 if words[0] == "check" else 2, 0
            holds = got == wanted
            self.check(f"installed, {words}", holds, got)
        for words in (("check", "--losses"), ("check", "--losses", "-"), ("check", "--losses", "--")):
            got = self.scratch.run(*words, script=launcher, given="given")
            self.check(f"installed, {words}", got == (f"{text}: 2 words check --losses: given\n", "", 0, 0), got)
        got = self.scratch.run("x", "y", script=launcher, given="given")
        self.check("installed, x y", got == (f"{text}: 2 words x y: given\n", HINT, 2, 0), got)
        got = self.scratch.run("check", capture, script=AUDIT.name, folder=folder, on_path=launcher.parent)
        self.check("installed, found on PATH", got == (f"{text}: 1 words check: its text\n", "", 0, 0), got)
        self.refusals(launcher)

    def refusals(self, script: pathlib.Path) -> None:
        """What tftp-audit refuses by itself, and its two options, in a checkout and installed."""
        folder, example = self.scratch.top.parent, self.scratch.top / "examples" / "one-block.capture"
        circle, locked = folder / "a circle", folder / "a locked file"
        if not locked.exists():
            circle.symlink_to(circle)
            locked.write_text("its text")
            locked.chmod(0)
        for word, why in (
            ("missing", MISSING), ("", MISSING), (ODD, MISSING), (str(folder), "Is a directory"),
            (f"{example}/x", "Not a directory"), (str(circle), "Too many levels of symbolic links"),
        ):
            got = self.scratch.run("check", word, script=script, given="other")
            name = word.replace(ODD, PLAIN_ODD)
            self.refuses(f"{script.name} check {word!r}", got, f"tftp-audit: cannot read the file '{name}': {why}\n")
            self.check(f"{script.name} check {word!r}, one line", got[1].count("\n") == 1, got)
        if os.access(locked, os.R_OK):
            self.leave("a locked file", "who runs this may read each file")
        else:
            got = self.scratch.run("check", locked, script=script)
            self.refuses("a locked file", got, f"tftp-audit: cannot read the file '{locked}': Permission denied\n")
        for word in ("--json", "-x", "--build"):
            got = self.scratch.run("check", word, script=script)
            message = f"tftp-audit: there is no option '{word}'; tftp-audit --help says more\n"
            self.refuses(f"{script.name} check '{word}'", got, message)
        got = self.scratch.run("check", "--", "-x", script=script)
        self.refuses("check -- -x", got, f"tftp-audit: cannot read the file '-x': {MISSING}\n")
        for count in (2, 3):
            got = self.scratch.run("show", *[example] * count, script=script, given="other")
            self.refuses(f"{count} files", got, f"tftp-audit: 'show' takes one file, not {count}\n")
        wrong: tuple[tuple[tuple[Word, ...], str], ...] = (
            (("check", "--rollover"), "--rollover takes 0 or 1, not ''"),
            (("check", "--rollover=2"), "--rollover takes 0 or 1, not '2'"),
            (("extract", "--rollover", "x", example), "--rollover takes 0 or 1, not 'x'"),
            (("show", "--rollover=01"), "--rollover takes 0 or 1, not '01'"),
            (("count", "--rollover", "1", example, example), "'count' takes one file, not 2"),
            (("show", "--losses", example), "--losses is of check alone; tftp-audit --help says more"),
            (("check", "--losses", "--rollover", "1"), "there is no option '--rollover'; tftp-audit --help says more"),
        )
        for its, message in wrong:
            got = self.scratch.run(*its, script=script)
            self.refuses(f"{script.name} {its}", got, f"tftp-audit: {message}\n")
        usage = "\nUsage: tftp-audit <COMMAND> [--rollover <N>] [FILE]\n"
        for words in (["--help"], ["-h"], ["check", "--help"], ["show", "-h"]):
            output, *others = self.scratch.run(*words, script=script)
            is_whole = usage in output and all(f"\n  {command} " in output for command in COMMANDS)
            self.check(f"{script.name} {words}", is_whole and others == ["", 0, 0], (output, *others))
        for option in ("--version", "-V"):
            got = self.scratch.run(option, script=script)
            self.check(f"{script.name} {option}", got == (f"tftp-audit {VERSION}\n", "", 0, 0), got)

    def uninstalled(self) -> None:
        """make uninstall leaves what is another's, and nothing of ours; where nothing is installed it does nothing."""
        prefix = self.scratch.prefix()
        others = {prefix / "bin" / "another", prefix / "share" / "tftp-audit" / "a file of the user"}
        self.check("make install again", self.scratch.make("install") == (0, "", False))
        compiled = prefix / "lib" / "tftp-audit" / "tftp_tools" / "__pycache__" / "rules.cpython-39.pyc"
        compiled.parent.mkdir(exist_ok=True)
        for path in (*others, compiled):
            path.write_text("")
        for name in ("first", "second"):
            self.check(f"the {name} make uninstall", self.scratch.make("uninstall") == (0, "", False))
            left = {path for path in prefix.rglob("*") if not path.is_dir()}
            self.check(f"what the {name} make uninstall leaves", left == others, left ^ others)
            empty = [path for path in prefix.rglob("*") if path.is_dir() and not any(path.iterdir())]
            self.check(f"no empty folder after the {name} make uninstall", not empty, empty)
        self.check("make install after make uninstall", self.scratch.make("install") == (0, "", False))
        self.check("installed once more", self.scratch.installed().is_file())

    def gates(self) -> None:
        """The gate proves and builds once, and what it built is run by the calls after it."""
        for text in ("mended", "gated"):
            self.scratch.source.write_text(text)
            status, errors, tested = self.scratch.make("test")
            calls, of_audit = self.scratch.calls.read_text(), self.of_audit(text)
            tried = [f"{part} were tried on {of_audit}\n" for part in ("scripts", "programs")]
            wanted = "".join((f"rt: ci in {self.scratch.top.name}\n", *tried))
            self.check(f"make test of {text}", (status, tested, calls) == (0, True, wanted), (errors, calls))
            self.runs(f"the call after make test of {text}", self.scratch.call(), text, 0)
        status, errors, tested = self.scratch.make("test", meanwhile="echo later >src/main.rt")
        self.check("an edit while the gate runs", status == 0 and tested, errors)
        self.runs("the call after the gate", self.scratch.call(), "later", 1)
        meanwhile = "text=mixture; echo mixture >src/main.rt; echo later >src/main.rt"
        self.check("an edit that is taken back while the gate runs", self.scratch.make("test", meanwhile)[0] == 0)
        self.runs("the call after that gate", self.scratch.call(), "later", 1)
        self.scratch.source.write_text("mended")
        got = self.scratch.run("--gate")
        told = sorted(line for line in got[1].splitlines() if line.startswith("rt: "))
        is_told = told == ["rt: progress on mended", *["rt: progress on other"] * 2]
        self.check("--gate", is_told and (got[0], *got[2:]) == ("3 passed, 0 failed\n", 0, 0), got)
        kept = {path.name: path.read_text() for path in (self.scratch.top / "out").iterdir()}
        self.check("--gate, what rt wrote is kept alone", kept == {"gate.log": "3 passed, 0 failed\n"}, kept)
        self.runs("the call after --gate", self.scratch.call(), "mended", 0)
        for other in LAUNCHERS:
            if other != self.scratch.launcher:
                got = self.scratch.run(*other.words, script=self.scratch.top / other.name)
                self.runs(f"the launcher {other.name} after --gate", got, "other", 0, words=said_of(other.words))

    def links(self) -> None:
        folder = self.scratch.top.parent / "a folder of links"
        folder.mkdir()
        name, words = self.scratch.launcher.name, self.scratch.launcher.words
        (folder / "whole").symlink_to(self.scratch.top / name)
        (folder / "part").symlink_to(f"../the top/{name}")
        (folder / "link of a link").symlink_to("part")
        (self.scratch.top.parent / "link of the top").symlink_to("the top")
        (folder / "below").symlink_to(f"../link of the top/{name}")
        for link in ("whole", "part", "link of a link", "below"):
            self.runs(f"the link {link}", self.scratch.run(*words, script=folder / link), "mended", 0)
            got = self.scratch.run(*words, script=f"./{link}", folder=folder)
            self.runs(f"the link {link}, from its folder", got, "mended", 0)
        got = self.scratch.run(f"../the top/{name}", *words, script="sh", folder=folder)
        self.runs("sh and the launcher", got, "mended", 0)
        (self.scratch.bin / "a link").symlink_to(self.scratch.top / name)
        self.runs("a link on PATH", self.scratch.run("a link", *words, script="env", folder=folder), "mended", 0)

    def libraries(self) -> None:
        """Before a first build the libraries are built, each once those that it stands on are, and handed out; where
        one fails, or where there is no make, the program's own build comes to it. Beside a program none is built so."""
        crates, crate = self.scratch.top / "crates.txt", self.scratch.launcher.crate
        before = crates.read_text()
        crates.write_text(f"{crate}: tftp_low tftp_high memchr\ntftp_high: tftp_low\ntftp_low: memchr\ntftp_other:\n")
        folder = self.scratch.top / "crates" / "tftp_high"
        folder.mkdir()
        for broken, built, handed in (
            ("", ["tftp_low", "tftp_high"], ["tftp_high", "tftp_low"]),
            ("tftp_high", ["tftp_low", "tftp_high"], ["tftp_low"]),
            ("tftp_low", ["tftp_low"], []),
        ):
            self.scratch.source.write_text(f"libraries{broken}")
            shutil.rmtree(self.scratch.top / "crates" / "tftp_low" / "out", ignore_errors=True)
            shutil.rmtree(folder / "out", ignore_errors=True)
            self.scratch.program.unlink()
            got = self.scratch.run("--build", broken=broken)
            calls = [call.split() for call in self.scratch.calls.read_text().splitlines()]
            libraries_built = [call[-1] for call in calls if call[:2] == ["rt:", "lib"]]
            holds = libraries_built == built and calls[-1][:2] == ["rt:", "run"] and (got[2], got[3]) == (0, 1)
            self.check(f"libraries, {broken or 'none'} broken", holds, (calls, got))
            has_out = sorted(out.parent.parent.name for out in (self.scratch.top / "crates").glob("*/out/rlib"))
            self.check(f"libraries handed out, {broken or 'none'} broken", has_out == handed, has_out)
            left = list(self.scratch.home.rglob("build.*"))
            self.check(f"no copy is left, {broken or 'none'} broken", left == [], left)
        self.scratch.source.write_text("no libraries")
        self.check(
            "beside a program",
            self.scratch.run("--build")[2:] == (0, 1) and "rt: lib" not in self.scratch.calls.read_text(),
        )
        shutil.rmtree(self.scratch.top / "crates" / "tftp_low" / "out", ignore_errors=True)
        shutil.rmtree(folder)
        crates.write_text(before)

    def states(self) -> None:
        """A call reads no source where none was touched; one that was touched and is as it was costs no build."""
        stamp = self.scratch.program.with_name(f"{self.scratch.program.name}.states")
        self.scratch.source.write_text("seven")
        self.scratch.run("--build")
        self.scratch.call()
        before = stamp.read_text()
        spy = self.scratch.bin / "cksum"
        spy.write_text(f'#!/bin/sh\necho "read: $*" >>"$CALLS"\nexec {shutil.which("cksum")} "$@"\n')
        spy.chmod(0o755)
        for name, reads in (("a call that reads no source", False), ("a source that was only touched", True)):
            self.runs(name, self.scratch.call(), "seven", 0)
            self.check(
                f"{name}, read", ("main.rt" in self.scratch.calls.read_text()) == reads, self.scratch.calls.read_text()
            )
            os.utime(self.scratch.source, (0, 0))
        spy.unlink()
        self.check("its state is known after that", stamp.read_text() != before)
        stamp.unlink()
        stamp.mkdir()
        self.runs("a stamp that cannot be written", self.scratch.call(), "seven", 0)
        stamp.rmdir()

    def processors(self) -> None:
        """A program is built for what is said, or for the processor at hand, and that is recorded."""
        for cpu, text in (("any", "eight"), (V3, "nine"), ("", "ten")):
            self.scratch.cpu, wanted, name = cpu, cpu or at_hand(), f"built for {cpu or 'this processor'}"
            self.scratch.source.write_text(text)
            self.runs(name, self.scratch.call(), text_for(wanted, text), 1)
            words = "rt: run -- " if wanted == "any" else f"rt: run --cpu={V3} -- "
            calls = self.scratch.calls.read_text()
            self.check(f"{name}, as rt is told", calls.startswith(words) and calls.count("\n") == 1, calls)
            self.check(f"{name}, as it is recorded", self.scratch.built_for() == wanted, self.scratch.built_for())
            self.runs(f"{name}, called again", self.scratch.call(), text_for(wanted, text), 0)
            got = self.scratch.run("--build")
            self.check(f"{name}, --build again", got == ("", "", 0, 0), got)
        self.other_processors()
        self.no_records()
        self.wrong_processors()
        self.scratch.cpu = "any"

    def other_processors(self) -> None:
        """A program for others is built again, also where its state is known; one for any is so by --build alone, not
        by --ready."""
        stamp = self.scratch.program.with_name(f"{self.scratch.program.name}.states")
        self.scratch.source.write_text("eleven")
        for is_known in (True, False):
            name = f"its state {'' if is_known else 'not '}known"
            self.scratch.cpu = V3
            self.scratch.run("--build")
            self.runs(f"for {V3}, {name}", self.scratch.call(), text_for(V3, "eleven"), 0)
            if not is_known:
                stamp.unlink()
            self.scratch.cpu = "any"
            self.runs(f"for {V3}, called for any, {name}", self.scratch.call(), "eleven", 1)
            self.runs(f"for any, {name}", self.scratch.call(), "eleven", 0)
            if not is_known:
                stamp.unlink()
            self.scratch.cpu = V3
            self.runs(f"for any, called for {V3}, {name}", self.scratch.call(), "eleven", 0)
            got = self.scratch.run("--ready")
            self.check(
                f"for any, --ready for {V3}, {name}", got == ("", "", 0, 0) and self.scratch.built_for() == "any", got
            )
            for cpu in (V3, "any"):
                self.scratch.cpu = cpu
                got = self.scratch.run("--build")
                holds = got[2:] == (0, 1) and self.scratch.built_for() == cpu
                self.check(f"built for {cpu} by --build, {name}", holds, got)
                self.runs(
                    f"the call after it was built for {cpu}, {name}", self.scratch.call(), text_for(cpu, "eleven"), 0
                )

    def no_records(self) -> None:
        """A program of which it is not known for what it was built is built again."""
        record = self.scratch.program.with_name(f"{self.scratch.program.name}.processor")
        for text in ("another\n", ""):
            record.write_text(text)
            self.runs(f"a record that says {text!r}", self.scratch.call(), "eleven", 1)
        record.unlink()
        self.runs("no record", self.scratch.call(), "eleven", 1)
        self.scratch.source.write_text("broken")
        self.scratch.call()
        self.check("no record of a build that fails", self.scratch.built_for() == "", self.scratch.built_for())
        self.scratch.source.write_text("eleven")
        self.scratch.call(meanwhile="echo twelve >src/main.rt")
        self.check("no record beside an edit while it builds", self.scratch.built_for() == "", self.scratch.built_for())

    def wrong_processors(self) -> None:
        for word in ("v3", "Any", "x86-64-v4", " ", f"any {V3}", "*"):
            self.scratch.cpu = word
            for words in (self.scratch.launcher.words, ("--build",), ("--gate",)):
                said = self.scratch.launcher.said(f"TFTP_AUDIT_CPU is any or {V3}, not '{word}'\n")
                got = self.scratch.run(*words)
                holds = got == ("", said, 2, 0) and self.scratch.calls.read_text() == ""
                self.check(f"TFTP_AUDIT_CPU='{word}', {words}", holds, got)

    def gates_here(self) -> None:
        """The gate's programs are for any processor; after them make test-here tries those for the one at hand."""
        self.scratch.source.write_text("thirteen")
        got = self.scratch.run("test-here", script="make")
        told = "the programs for this processor are those for any, so there is nothing more to try"
        self.check("make test-here for any", got[0].splitlines()[-1:] == [told] and got[2:] == (0, 0), got)
        self.scratch.cpu = ""
        give_flags(self.scratch, "Features\t: of another architecture")
        got = self.scratch.run("test-here", script="make")
        self.check("make test-here without flags", got[0].splitlines()[-1:] == [told] and got[2:] == (0, 0), got)
        (self.scratch.bin / "grep").unlink()
        self.scratch.cpu = V3
        self.check(
            f"--gate for {V3}", self.scratch.run("--gate")[2] == 0 and "rt: run" not in self.scratch.calls.read_text()
        )
        self.are_for("--gate", "any")
        self.runs("the call after it", self.scratch.call(), "thirteen", 0)
        self.asks()
        self.try_here("thirteen", "", 3)
        self.try_here("thirteen", f"programs were tried on {text_for(V3, self.of_audit('thirteen'))}", 3)
        self.try_here("thirteen", "--scripts", 0)
        for target, cpu in (
            ("build", V3), ("install", V3), ("ready", V3), ("build-for-any", "any"), ("install", "any"),
            ("ready", "any"),
        ):
            self.check(f"make {target}", self.scratch.make(target)[0] == 0)
            self.are_for(f"make {target}", cpu)
        self.scratch.source.write_text("thirteen 1")
        status, errors, _ = self.scratch.make("test-here")
        holds = status == 2 and self.not_built() in errors and f" for {V3}" not in self.scratch.calls.read_text()
        self.check(f"make test-here for {V3}, a trial run that fails", holds, errors)
        self.scratch.cpu = "any"

    def asks(self) -> None:
        """The scripts ask the programs that the gate built, whose words are none that they know."""
        script, recording = self.scratch.top / "tools" / "tftp-explain", self.scratch.top.parent / "asked"
        recording.write_text("its bytes")
        capture = TOP / "examples" / "one-block.capture"
        asked: tuple[tuple[Launcher, tuple[Word, ...], str], ...] = (
            (AUDIT, (capture,), "gave no verdict"), (TRANSFERS, (recording,), "gave no rows"),
            (MATCH, ("--pair", capture, capture), "did not match the two"),
        )
        for launcher, words, told in asked:
            output, errors, status, builds = self.scratch.run(*words, script=script)
            holds = (output, status, builds) == ("", 2, 0) and f"/{launcher.name}' {told}" in errors
            self.check(f"tftp-explain asks {launcher.name} as the gate built it", holds, (output, errors, builds))

    def are_for(self, name: str, cpu: str) -> None:
        records = [self.scratch.built_for(it) for it in LAUNCHERS]
        self.check(f"after {name} all programs are for {cpu}", records == [cpu] * len(LAUNCHERS), records)

    def try_here(self, text: str, broken: str, builds: int) -> None:
        """What make test-here does, after so many builds, where programs are not for any, and one of its tests
        fails."""
        status, errors, _ = self.scratch.make("test-here", broken=broken)
        of_audit = self.of_audit(text)
        lines = self.scratch.calls.read_text().splitlines()
        calls = [line for line in lines if not line.startswith(f"rt: run --cpu={V3} -- ")]
        wanted = [f"rt: ci in {self.scratch.top.name}"]
        wanted += [f"{part} were tried on {of_audit}" for part in ("scripts", "programs")]
        wanted += [f"programs were tried on {text_for(V3, of_audit)}"] if builds else []
        holds = status == (2 if broken else 0) and calls == wanted and len(lines) - len(calls) == builds
        name = f"make test-here for {V3} where {broken or 'nothing'} fails"
        self.check(name, holds, (errors, lines))
        self.are_for(name, V3 if builds else "any")
