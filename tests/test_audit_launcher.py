"""The launcher tftp-audit: the files that it opens, what it says of wrong words and of a build, and which processors it
builds for, beside what is tried of each launcher."""
from __future__ import annotations

import contextlib
import os
import pathlib
import pty

from commands import COMMANDS
from launchers import HINT, MISSING, ODD, PLAIN_ODD, Launchers, give_flags, text_for
from scratch import AUDIT, NEEDED, V3, Ran, Scratch, Word, said_of

WRONG_WORDS: tuple[list[str], ...] = (
    [], [""], ["help"], ["-x"], ["Check"], ["extrac", "x"], ["--help", "check"], ["--version", "x"], ["--build", "x"],
    ["--ready", "x"],
)
# The first four bytes of a recording, and others.
RECORDINGS = b"\xa1\xb2\xc3\xd4", b"\xa1\xb2\x3c\x4d", b"\xd4\xc3\xb2\xa1", b"\x4d\x3c\xb2\xa1", b"\x0a\x0d\x0d\x0a"
OTHERS = b"", b"\xa1\xb2\xc3", b"\xa1\xb2\xc3\xd5", b"tftp-capture 1", b"x\xa1\xb2\xc3\xd4"


def on_terminal(scratch: Scratch, *words: Word, meanwhile: str = "") -> Ran:
    """As `run`, with standard error a terminal."""
    ours, theirs = pty.openpty()
    output, _, status, builds = scratch.run(*words, errors=theirs, meanwhile=meanwhile)
    os.close(theirs)
    told = b""
    with contextlib.suppress(OSError):
        while piece := os.read(ours, 4096):
            told += piece
    os.close(ours)
    return output, told.decode(), status, builds


def has_terminals() -> bool:
    try:
        for end in pty.openpty():
            os.close(end)
    except OSError:
        print("no terminal can be had here, so what is told on one is not tried")
        return False
    return True


class AuditLauncher(Launchers):
    """The runs of tftp-audit."""

    def test_launcher(self) -> None:
        self.try_launcher(AUDIT, self.files, self.wrong_words, self.progress, self.flags)

    def files(self) -> None:
        folder = self.scratch.top.parent / "a folder of captures"
        folder.mkdir()
        (folder / "the capture").write_text("its text")
        named: tuple[tuple[Word, pathlib.Path | None], ...] = (
            (folder / "the capture", None), ("the capture", folder), ("./the capture", folder),
        )
        for name, where in named:
            got = self.scratch.run("check", name, folder=where, given="other")
            self.runs(f"check {name}", got, "mended", 0, given="its text")
        for command in COMMANDS[1:]:
            got = self.scratch.run(command, folder / "the capture")
            self.runs(f"{command} and a file", got, "mended", 0, words=f"1 words {command}", given="its text", status=2)
        self.runs("check -", self.scratch.run("check", "-", given="given"), "mended", 0, given="given")
        (folder / "-x").write_text("its text")
        got = self.scratch.run("check", "--", "-x", folder=folder)
        self.runs("check -- -x", got, "mended", 0, given="its text")
        self.recordings(folder)
        self.scratch.source.write_text("seven")
        self.refusals(self.scratch.top / AUDIT.name)
        got = self.scratch.run("check", "missing")
        self.refuses("a missing file before a build", got, f"cannot read the file 'missing': {MISSING}\n")
        for words in WRONG_WORDS:
            self.refuses(f"wrong words {words} before a build", self.scratch.run(*words), HINT)
        got = self.scratch.run("check", folder / "the capture")
        self.runs("a file after an edit", got, "seven", 1, given="its text")
        self.scratch.source.write_text("3")
        self.refuses("a trial run that ends with status 3", self.scratch.call(), self.not_built(), 1)
        self.scratch.source.write_text("seven")
        self.scratch.run("--build")

    def recordings(self, folder: pathlib.Path) -> None:
        """Of a recording it is told which program reads it, whether a file is named or is standard input."""
        for begins in (*RECORDINGS, *OTHERS):
            recording = folder / f"a {ODD}"
            recording.write_bytes(begins)
            named = f"tftp-audit: '{folder}/a {PLAIN_ODD}' is a recording: tftp-transfers check judges it\n"
            given = "tftp-audit: standard input is a recording: tftp-transfers check - judges it\n"
            command = '"$0" check <"$1"', self.scratch.top / AUDIT.name, recording
            for name, got, told in (
                ("named", self.scratch.run("check", recording), named),
                ("given", self.scratch.run("-c", *command, script="sh"), given),
            ):
                holds = got[1:] == (told if begins in RECORDINGS else "", 0, 0) and got[0].startswith("mended: 1 words")
                self.check(f"what begins with {begins!r}, {name}", holds, got)
        self.scratch.source.write_text("not built")
        recording.write_bytes(RECORDINGS[0])
        self.refuses("a recording before a build", self.scratch.run("check", recording), named)
        self.scratch.source.write_text("mended")
        self.scratch.run("--build")

    def wrong_words(self) -> None:
        is_tried = has_terminals()
        for words in WRONG_WORDS:
            said = said_of(words)
            # the stand-in's program looks at its first word alone
            status = 0 if words[:1] == ["check"] else 2
            got = self.scratch.run(*words)
            self.check(f"wrong words {words}", got == (f"seven: {said}: \n", HINT, status, 0), got)
            if not is_tried:
                continue
            output, told, ended, builds = on_terminal(self.scratch, *words)
            holds = output == f"seven: {said}: \n" and ended == status
            holds = holds and told == HINT.replace("\n", "\r\n")
            self.check(f"wrong words {words} on a terminal", holds, (output, told, ended, builds))
        right: tuple[list[Word], ...] = (["check"], ["show"], ["check", self.scratch.top / "crates.txt"], ["--build"])
        for its in right if is_tried else ():
            got = on_terminal(self.scratch, *its)
            self.check(f"{its} on a terminal", got[1] == "", got)

    def progress(self) -> None:
        """On a terminal a build is one line, written again and again; what rt says goes to a file that is named."""
        if not has_terminals():
            return
        rest = ""
        log = self.scratch.top / "out" / f"{self.scratch.launcher.name}.log"
        name = self.scratch.launcher.name
        crates = f"a: b\n{self.scratch.launcher.crate}: tftp_low memchr\ntftp_low: memchr\n"
        (self.scratch.top / "crates.txt").write_text(crates)
        for text, status in (("shown", 0), ("broken", 2)):
            self.scratch.source.write_text(text)
            output, told, ended, builds = on_terminal(self.scratch, *self.scratch.launcher.words, meanwhile="sleep 1.1")
            first, rest = told.split("\r\n", 1)
            holds = first.startswith(self.scratch.launcher.says_time()) and first.endswith(f"what rt says is in {log}")
            self.check(
                f"{text}, the first line on a terminal", holds and (ended, builds) == (status, 1), (output, told)
            )
            steps = [step for step in rest.split("\r") if step.startswith(f"{name}: crate ")]
            holds = len(steps) > 0 and all(" of at most 2, 0 min 0" in step for step in steps)
            self.check(f"{text}, progress on a terminal", holds, told)
            self.check(f"{text}, what rt said is told", ("rt: progress" in rest) == (text == "broken"), told)
            said = log.read_text()
            self.check(f"{text}, what rt said is kept", f"rt: progress on {text}\n" in said, said)
        self.check("a failed build on a terminal", "error: broken" in rest and "was not built" in rest, told)
        self.scratch.source.write_text("seven")
        self.scratch.run("--build")

    def flags(self) -> None:
        """Which processors have AVX2 and what came with it; none is looked up for a program for any."""
        self.scratch.cpu = ""
        self.scratch.source.write_text("twelve")
        names = " ".join(NEEDED)
        whole = f"flags\t\t: fpu {names} sse"
        cases = {whole: V3, f"flags\t\t: {names}": V3, f"Features\t: {names}": "any"}
        cases |= {whole.replace(f" {it} ", f" {other} "): "any" for it in NEEDED for other in ("a", f"{it}x", f"x{it}")}
        for line, wanted in cases.items():
            give_flags(self.scratch, line)
            got = self.scratch.run("--build")
            self.check(f"{line!r}", (got[2], self.scratch.built_for()) == (0, wanted), (got, self.scratch.built_for()))
        self.runs("for any", self.scratch.call(), "twelve", 0)
        self.check("no processor is looked up for it", "asked" not in self.scratch.calls.read_text())
        give_flags(self.scratch, whole)
        self.scratch.run("--build")
        self.runs(f"for {V3}", self.scratch.call(), text_for(V3, "twelve"), 0)
        self.check("the processor is looked up once for it", self.scratch.calls.read_text() == "asked\n")
        give_flags(self.scratch, whole.replace("avx2", ""))
        self.runs(f"for {V3}, found on a lesser processor", self.scratch.call(), "twelve", 1)
        (self.scratch.bin / "grep").unlink()
        self.scratch.cpu = "any"
