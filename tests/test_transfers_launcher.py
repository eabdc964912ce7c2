"""The launcher tftp-transfers: what it passes to the program, beside what is tried of each launcher."""
from __future__ import annotations

import pathlib

from launchers import MISSING, Launchers
from scratch import TRANSFERS, Word, said_of


class TransfersLauncher(Launchers):
    """The runs of tftp-transfers."""

    def test_launcher(self) -> None:
        self.try_launcher(TRANSFERS, self.recordings, self.extracting)

    def recordings(self) -> None:
        """The words go to the program as they are, and standard input with them."""
        folder = self.scratch.top.parent / "a folder of recordings"
        folder.mkdir()
        recording = folder / "the recording"
        recording.write_text("its bytes")
        passed: tuple[list[Word], ...] = (
            ["check", recording], ["check", "missing", recording], ["check", recording, "missing"],
            ["check", "--json", "-"], ["check"], ["check", "--help"], ["check", "missing", "--json"],
        )
        for words in passed:
            got = self.scratch.run(*words, given="other")
            self.runs(f"{words}", got, "mended", 0, words=said_of(words), given="other")
        more: tuple[list[Word], ...] = (
            ["list", recording], ["text", "2", "client", recording], [recording, "--service", "6969"], ["--version"],
            [], ["-", "--service", "69"], ["help"], [""], ["--build", "x", "-"], ["--ready", "-"],
        )
        for words in more:
            got = self.scratch.run(*words, given="other")
            self.runs(f"{words}", got, "mended", 0, words=said_of(words), given="other", status=2)
        self.recordings_before_a_build(recording)

    def recordings_before_a_build(self, recording: pathlib.Path) -> None:
        """What cannot be read is told before the program is built; scripts have it built."""
        self.scratch.source.write_text("seven")
        unread: tuple[list[Word], ...] = (
            ["missing"], ["check", "missing"], ["check", "gone", "missing"], ["text", "1", "client", "missing"],
            ["--service", "69", "missing"],
        )
        for words in unread:
            got = self.scratch.run(*words, given="other")
            message = f"tftp-transfers: cannot read the file 'missing': {MISSING}\n"
            self.refuses(f"{words} before a build", got, message)
        mistyped: tuple[list[Word], ...] = (["chec", recording], ["gone", "-"])
        for words in mistyped:
            got = self.scratch.run(*words, given="other")
            message = f"'{words[0]}' is no command (list, text, texts, check, extract), and no file that can be read"
            self.refuses(f"{words}", got, f"tftp-transfers: {message}; tftp-transfers --help says more\n")
        folder = recording.parent
        got = self.scratch.run("check", folder)
        self.refuses("a folder", got, f"tftp-transfers: cannot read the file '{folder}': Is a directory\n")
        got = self.scratch.run("check", recording, given="other")
        self.runs("a file after an edit", got, "seven", 1, words=said_of(["check", recording]), given="other")
        self.scratch.source.write_text("eight")
        _, errors, status, _ = self.scratch.run(recording, script=self.scratch.top / "tools" / "tftp-explain")
        lines = errors.splitlines()
        holds = status == 2 and "rt: progress on eight" in lines and "gave no rows" in lines[-1]
        self.check("a script builds the program before it asks it", holds and "progress" not in lines[-1], errors)
        self.scratch.source.write_text("3")
        self.refuses("a trial run that ends with status 3", self.scratch.call(), self.not_built(), 1)

    def extracting(self) -> None:
        """extract is a script's, which asks the program; so it is where they are installed, and other words are not."""
        self.scratch.source.write_text("not built")
        folder = self.scratch.top.parent / "files"
        recording = self.scratch.top.parent / "a folder of recordings" / "the recording"
        checkout, installed = (place / TRANSFERS.name for place in (self.scratch.top, self.scratch.prefix() / "bin"))
        for name, launcher in (("", checkout), ("installed, ", installed)):
            output, *others = self.scratch.run("extract", "--help", script=launcher)
            holds = output.startswith("usage: tftp-extract ") and others == ["", 0, 0]
            self.check(f"{name}extract --help", holds, (output, *others))
            output, errors, status, _ = self.scratch.run("extract", folder, recording, script=launcher)
            told = errors.splitlines()[-1:]
            holds = (output, status) == ("", 2) and told[0].startswith("tftp-extract: ") and "gave no rows" in told[0]
            self.check(f"{name}extract asks the program", holds, (output, errors, status))
        got = self.scratch.run("check", recording, script=installed, given="other")
        wanted = f"mended: {said_of(['check', recording])}: other\n"
        self.check("installed, check", got == (wanted, "", 0, 0), got)
        got = self.scratch.run("check", "-", script=TRANSFERS.name, folder=folder, on_path=installed.parent)
        self.check("installed, found on PATH", got == (f"mended: {said_of(['check', '-'])}: \n", "", 0, 0), got)
