"""Each wrong body of the repository can still be made: the old text of each of its edits stands once in its file, each
crate that has edits is named in crates.txt, and no edit leaves its file as it was. It runs no check.
"""
from checks import Checks
from repository import TOP
from tftp_plants import edits, rooms
from tftp_tools.crates import crates_of


def texts_of(crate: str) -> dict[str, str]:
    """The texts of a crate's files, by their paths."""
    folder = TOP / "crates" / crate
    files = [it for part in rooms.PARTS for it in (folder / part).glob("**/*") if it.is_file()]
    return {str(it.relative_to(folder)): it.read_text(encoding="utf-8") for it in files}


def fault_of(edit: edits.Edit, texts: dict[str, str]) -> str:
    """Why an edit makes no wrong body, or nothing."""
    try:
        after = edit.applied(texts)
    except edits.NotApplied as why:
        return str(why)
    return "" if after != texts else "it changes nothing"


class Edits(Checks):
    """The edits of all crates."""

    def test_edits(self) -> None:
        crates, count = crates_of(TOP), 0
        for folder in sorted((TOP / "crates").iterdir()):
            found = edits.edits_of(folder.name, TOP, None)
            texts = texts_of(folder.name) if found else {}
            for edit in found:
                fault = fault_of(edit, texts) if folder.name in crates else "crates.txt does not name its crate"
                self.check(str(edit), not fault, fault)
                count += 1
        self.assertTrue(count, "there are no edits")
