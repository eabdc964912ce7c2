"""The launcher tftp-match: what it passes to the program, beside what is tried of each launcher."""
from __future__ import annotations

from launchers import MISSING, Launchers
from scratch import MATCH, Word, said_of


class MatchLauncher(Launchers):
    """The runs of tftp-match."""

    def test_launcher(self) -> None:
        self.try_launcher(MATCH, self.matches)

    def matches(self) -> None:
        """The words go to the program as they are, and standard input with them; where no file can be read that is
        told."""
        folder = self.scratch.top.parent / "a folder of captures"
        folder.mkdir()
        capture = folder / "client.capture"
        capture.write_text("its text")
        passed: tuple[list[Word], ...] = ([capture, capture], [capture, "missing"], [capture, "-", "--transfer", "2"])
        for words in passed:
            got = self.scratch.run(*words, given="other")
            self.runs(f"{words}", got, "mended", 0, words=said_of(words), given="other")
        more: tuple[list[Word], ...] = (
            ["-", capture], ["missing", "--json"], ["--version"], [], [""], ["--build", "-"], ["--ready", "-"],
        )
        for words in more:
            got = self.scratch.run(*words, given="other")
            self.runs(f"{words}", got, "mended", 0, words=said_of(words), given="other", status=2)
        self.scratch.source.write_text("seven")
        unread: tuple[list[Word], ...] = (["missing"], ["gone", "missing"], ["--transfer", "2", "missing"])
        for words in unread:
            got = self.scratch.run(*words, given="other")
            self.refuses(f"{words} before a build", got, f"tftp-match: cannot read the file 'missing': {MISSING}\n")
        got = self.scratch.run(capture, "-", given="other")
        self.runs("a file after an edit", got, "seven", 1, words=said_of([capture, "-"]), given="other")
        self.scratch.source.write_text("3")
        self.refuses("a trial run that ends with status 3", self.scratch.call(), self.not_built(), 1)
