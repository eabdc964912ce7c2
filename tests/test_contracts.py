"""The pages of docs/contracts/: that they have each name that a library hands out, and each clause of its contract as
it stands; that what they name is there; what makes them stale; and how a source is read.
"""
from __future__ import annotations

import pathlib
import re
import shutil
import subprocess
import sys
from collections.abc import Iterator

from checks import Checks
from links import is_good, links
from repository import TOP
from tftp_contracts.items import File, read_source
from tftp_contracts.tokens import Unreadable
from tftp_tools.crates import libraries_of

PAGES = pathlib.Path("docs", "contracts")
# The crates of the copy that is changed: none of them stands on another crate.
FEW = ("tftp_packet", "tftp_netascii", "net_streams")
HEADING = re.compile(r"(?m)^#{3,5} `([\w:]+)`(?: as `[^`]+`)?$")
# A clause as a page has it, and as a source does: its kind, its name and its text.
ON_PAGE = re.compile(r"(?m)^- (requires)?(?: ?`(\w+)`)?(?:: )?(?:[^`\n].*?)?(?:`` (.*) ``|`([^`]*)`)$")
IN_SOURCE = re.compile(
    r"(?ms)^ *(requires|ensures)\*? (?:(\w+) )?\{ (.*?) \};?$(?=\s*(?:requires|ensures|\{|\}|//|fn|\Z))"
)
FUNCTION = re.compile(r"(?m)^(?= *(?:pub(?:\(crate\))? )?fn )")
WORD_ROW = re.compile(r"(?m)^\| (`.*) \| \[[^\]]*\]\(([^)]*)\) \|$")
# The types of another crate, with its page.
OTHERS = re.compile(r"(?m)^- ((?:`\w+`(?:, )?)+) of \[(\w+)\]\(\2\.md\)$")
WORD = re.compile(r"`(\w+)`(?: \(there `(\w+)`\))?")

# What a reader of sources has to tell apart: braces in comments, strings and characters, a lifetime and a character, a
# comma in a type, a clause over several lines, and what is for tests or for the crate alone.
TRAPS = '''//! One { brace.
#![tactic(auto)]

ghost use Rattle.std.specs.Prelude.{◌≡◌, []};
ghost use Rattle.one.specs.Words.{Word, Other as Another};

mod hidden;
pub mod shown;
#[cfg(test)]
mod tests;
pub use hidden::{Left, deeper::{Right as Wrong}};

/// A type } of two parts.
#[derive(Clone)]
pub struct Pair<'a, T: Trait> {
    /// The first.
    pub first: Map<u8, Vec<T>>,
    second: &'a [u8],
}

/// A law.
pub fn law()
    // Above it.
    ensures { (x : List Word) → x ≡ x }
{}

impl<'a, T: Trait> Model for Pair<'a, T> {
    ghost view = { λ p. record { first = p.first } };
}

impl<'a, T: Trait> Pair<'a, T> {
    /// What it
    /// answers.
    pub fn call(
        &self,
        sign: char, // '{'
    ) -> Option<u8>
        requires few { self.now.first < 2 ^ 3 }
        ensures ok { (w : Word)
            → Another w × (record { x = "a  }" } ≡ result) }
        ensures* lends { Lends self.entry result }
    {
        match sign { '{' => b"}{", 'x' => r#"}"# }
    }

    pub(crate) fn kept(&self) ensures { ⊥ } { '}' }
}
'''


def page_of(crate: str) -> str:
    path = TOP / PAGES / f"{crate}.md"
    return path.read_text() if path.exists() else ""


def declared_in(folder: pathlib.Path, file: pathlib.Path) -> set[str]:
    """What a module hands out by name, whose own modules stand in a folder, and what its public modules hand out."""
    text = file.read_text()
    listed = re.findall(r"pub use [\w:]+::(?:\{([^}]*)\}|(\w+));", text)
    parts = (name for many, one in listed for name in re.split(r",\s*", (many or one).strip()))
    names = {name.split(" as ")[-1] for name in parts if name}
    names |= set(re.findall(r"(?m)^pub (?:fn|struct|enum|trait|type|const) (\w+)", text))
    return names.union(*(declared_in(folder / it, folder / f"{it}.rt") for it in re.findall(r"pub mod (\w+);", text)))


def passed_on(crate: str) -> set[str]:
    """What a library hands out by name: functions, laws, types and constants, and the calls of these types."""
    top = TOP / "crates" / crate / "src"
    names = declared_in(top, top / "lib.rt")
    for source in sorted(top.rglob("*.rt")):
        for kind, body in re.findall(r"(?ms)^impl(?:<[^>]*>)? (?:\w+ for )?(\w+)[^{]*\{\n(.*?)^\}", source.read_text()):
            if kind in names:
                names |= set(re.findall(r"(?m)^    pub fn (\w+)", body))
    return names


Clauses = list[tuple[str, str, str]]


def contracts_of(crate: str) -> dict[str, list[Clauses]]:
    """The clauses of each function of a crate's sources, by its name, each as many times as there is one."""
    found: dict[str, list[Clauses]] = {}
    for source in (TOP / "crates" / crate / "src").rglob("*.rt"):
        for text in FUNCTION.split(source.read_text())[1:]:
            named = re.search(r"fn (\w+)", text)
            # a body's brace stands alone in its line, or behind a signature that has no clause
            contract = re.split(r"(?m)^ *\{(?:\})?$|\{$", text)[0]
            clauses = [(kind, name, " ".join(said.split())) for kind, name, said in IN_SOURCE.findall(contract)]
            found.setdefault(named[1] if named else "", []).append(clauses)
    return found


def sections(page: str) -> Iterator[tuple[str, str]]:
    """What stands below each heading of a call, a law or a type."""
    headings = list(HEADING.finditer(page))
    ends = [*(found.start() for found in headings[1:]), len(page)]
    for found, end in zip(headings, ends):
        yield found[1], page[found.end() : end].split("\n## ")[0]


class Copy:
    """A part of the repository that is changed."""

    def __init__(self, folder: pathlib.Path) -> None:
        self.top = folder
        shutil.copytree(TOP / "tools", folder / "tools", ignore=shutil.ignore_patterns("__pycache__"))
        for crate in FEW:
            for part in ("src", "specs"):
                shutil.copytree(TOP / "crates" / crate / part, folder / "crates" / crate / part)
        (folder / "crates.txt").write_text("".join(f"{crate}:\n" for crate in FEW))
        (folder / "docs").mkdir()
        shutil.copy(TOP / "docs" / "CONTRACTS.md", folder / "docs")

    def ran(self, *words: str) -> tuple[str, str, int]:
        return self.ran_at(self.top, *words)

    @staticmethod
    def ran_at(top: pathlib.Path, *words: str) -> tuple[str, str, int]:
        """What the script of a repository writes, what it writes as errors, and its status."""
        command = [sys.executable, str(top / "tools" / "contracts"), *words]
        done = subprocess.run(command, capture_output=True, text=True, timeout=60)
        return done.stdout, done.stderr, done.returncode

    def pages(self) -> dict[str, str]:
        return {path.name: path.read_text() for path in (self.top / PAGES).glob("*")}

    def told(self) -> list[str]:
        """The pages that --check names."""
        return re.findall(r"(?m)^docs/contracts/(\w+)\.md: ", self.ran("--check")[0])


class Contracts(Checks):
    """The pages beside the sources, which make them: they are not kept with these."""

    @classmethod
    def setUpClass(cls) -> None:
        Copy.ran_at(TOP)

    def test_reader(self) -> None:
        """A source full of traps: what it has, and what it brings in."""
        file = read_source("traps.rt", TRAPS)
        self.check("what a file says of itself", file.about == "One { brace.", file.about)
        self.check("modules", file.modules == [("hidden", False), ("shown", True)], file.modules)
        uses = [(use.path, use.name) for use in file.uses if use.is_public]
        wanted = [(("hidden", "Left"), "Left"), (("hidden", "deeper", "Right"), "Wrong")]
        self.check("what is handed on", uses == wanted, uses)
        words = {use.name: ".".join(use.path) for use in file.words}
        prelude, own = "Rattle.std.specs.Prelude.", "Rattle.one.specs.Words."
        self.check("words", words == {"◌≡◌": f"{prelude}◌≡◌", "[]": f"{prelude}[]", "Word": f"{own}Word",
                                       "Another": f"{own}Other"}, words)
        self.try_statements(file)

    def try_statements(self, file: File) -> None:
        """The types of that source, what is said of them, and its calls."""
        [pair] = file.declared
        self.check("a type", (pair.doc, pair.text) == ("A type } of two parts.", "struct Pair<'a, T: Trait>"), pair)
        parts = [(it.text, it.doc) for it in pair.parts]
        self.check("its public parts", parts == [("first: Map<u8, Vec<T>>", "The first.")], parts)
        [law] = file.functions
        [said] = law.clauses
        got = law.is_law, said.kind, said.name, said.text, said.remark
        self.check("a law", got == (True, "ensures", "", "(x : List Word) → x ≡ x", "Above it."), got)
        self.check("the words of a clause", said.cited == ("x", "List", "Word"), said.cited)
        model, own_calls = file.blocks
        self.check("an impl of a trait", (model.owner, model.trait) == ("Pair", "Model"), model)
        self.check(
            "what it says", [it.text for it in model.ghosts] == ["λ p. record { first = p.first }"], model.ghosts
        )
        call, kept = own_calls.functions
        self.check("a call", (call.doc, call.is_public, call.is_law) == ("What it answers.", True, False), call)
        self.check("its signature", call.signature == "call(&self, sign: char) -> Option<u8>", call.signature)
        texts = [(it.kind, it.name, it.text) for it in call.clauses]
        self.check("its clauses", texts == [
            ("requires", "few", "self.now.first < 2 ^ 3"),
            ("ensures", "ok", '(w : Word) → Another w × (record { x = "a  }" } ≡ result)'),
            ("ensures*", "lends", "Lends self.entry result"),
        ], texts)
        self.check("what is the crate's alone", not kept.is_public and len(kept.clauses) == 1, kept)

    def test_unreadable(self) -> None:
        """What is not understood is told with its line."""
        for wrong in (
            "pub fn f() {", "fn f()\n ensures { x -- y\n }\n{}", "union U {}", "impl T { let x; }", "pub fn 3() {}",
            "pub",
        ):
            try:
                self.check(f"{wrong!r} is not understood", False, read_source("wrong.rt", wrong))
            except Unreadable as why:
                self.check(f"{wrong!r} is told with its line", str(why).startswith("wrong.rt:"), why)

    def test_names(self) -> None:
        """Each library that hands out something has a page; it has each name that the library hands out, and no
        other."""
        index = (TOP / PAGES / "README.md").read_text()
        found = [crate for crate in libraries_of(TOP) if passed_on(crate)]
        self.check("the libraries have pages", len(found) > 20 and all(map(page_of, found)), found)
        there = {path.stem for path in (TOP / PAGES).glob("*")}
        self.check("no other pages", there == {"README", *found}, there ^ {"README", *found})
        for crate in found:
            page, names = page_of(crate), passed_on(crate)
            self.check(f"{crate} in the index", f"[{crate}]({crate}.md)" in index)
            headed = {part for name in HEADING.findall(page) for part in name.split("::")}
            handed_on = set(re.findall(r"`(\w+)`", "".join(re.findall(r"(?m)^Hands on .*$", page))))
            for name in sorted(names):
                self.check(f"{name} of {crate} on its page", name in headed | handed_on)
            text = "".join(path.read_text() for path in (TOP / "crates" / crate / "src").rglob("*.rt"))
            for name in sorted(headed - names):
                is_there = re.search(rf"(?m)^    fn {name}\b", text)
                self.check(f"{name} on the page of {crate} is a trait's call", bool(is_there))

    def test_clauses(self) -> None:
        """Below each call and law of a page stand the clauses of its contract, all of them, as the source has them."""
        total = 0
        for crate in libraries_of(TOP):
            contracts = contracts_of(crate)
            for name, below in sections(page_of(crate)):
                calls = contracts.get(name.split("::")[-1])
                if calls is None:
                    continue  # a type
                told = [
                    (kind or "ensures", clause, quoted or text)
                    for kind, clause, quoted, text in ON_PAGE.findall(below)
                ]
                total += len(told)
                self.check(f"the clauses of {name} on the page of {crate}", told in calls, (told, calls))
        self.check("clauses on pages", total > 1200, total)

    def test_links(self) -> None:
        """Each file that a page leads to is there, and has the words that are said to be defined in it."""
        for path in sorted((TOP / PAGES).glob("*.md")):
            for link in links(path):
                self.check(f"{link}, to which {path.name} leads", is_good(path, link))
            for names, crate in OTHERS.findall(path.read_text()):
                strange = set(re.findall(r"\w+", names)) - passed_on(crate)
                self.check(f"the types of {crate}, which {path.name} names", not strange, strange)
            for words, target in WORD_ROW.findall(path.read_text()):
                text = (path.parent / target).read_text()
                for word, there in WORD.findall(words):
                    name = there or word
                    is_there = re.search(rf"(?<!\w){name}(?!\w)", text) or target.endswith(f"/{name}.antt")
                    self.check(f"{word}, which {path.name} says stands in {target}", bool(is_there))

    def try_change(self, copy: Copy, what: str, file: str, old: str, new: str, wanted: list[str]) -> None:
        """With this change these pages are told, and none without it."""
        path = copy.top / file
        text = path.read_text()
        self.check(f"{what}: the text that is changed", old in text, old)
        path.write_text(text.replace(old, new, 1))
        got = copy.told()
        self.check(what, got == wanted, got)
        path.write_text(text)

    def test_pages(self) -> None:
        """The pages are those that the sources make."""
        got = Copy.ran_at(TOP, "--check")
        self.check("tools/contracts --check", got == ("", "", 0), got)

    def test_stale(self) -> None:
        """What is said of a call, its clauses and what is handed out make a page stale, and no body does."""
        copy = Copy(self.folder)
        output, errors, status = copy.ran()
        made = [
            f"docs/contracts/{name} is written" for name in sorted(("README.md", *(f"{crate}.md" for crate in FEW)))
        ]
        self.check("pages are made", (output.splitlines(), errors, status) == (made, "", 0), (output, errors, status))
        same = all(text == page_of(name[:-3]) for name, text in copy.pages().items() if name != "README.md")
        self.check("they are those of the whole repository", same)
        self.check("nothing is left to write", copy.ran("--check") == ("", "", 0) == copy.ran())
        packet, lib = "crates/tftp_packet/src/packet.rt", "crates/tftp_packet/src/lib.rt"
        one, two = ["tftp_packet"], ["README", "tftp_packet"]
        changes: list[tuple[str, str, str, str, list[str]]] = [
            ("another clause", packet, "{ result ≡ opcode_of payload.now }", "{ opcode_of payload.now ≡ result }", one),
            ("another name of a clause", packet, "ensures found {", "ensures finds {", one),
            ("one clause less", packet, "    ensures written { IfOk result (IsWritten payload.now) }\n", "", two),
            ("a clause that is required", packet, "ensures written {", "requires written {", one),
            ("another comment", packet, "It borrows the payload", "It keeps the payload", one),
            ("another parameter", packet, "pub fn opcode(payload: &[u8])", "pub fn opcode(bytes: &[u8])", one),
            ("another word for a definition", packet, "Reading.{Judges}", "Reading.{Judges as found}", []),
            ("a word that stands elsewhere", packet, "specs.AsWritten.{IsWritten}", "specs.{IsWritten}", []),
            ("another definition", packet, "Spelling.{side_opcode, Spells}", "Faults.{Holds as Spells}", one),
            ("a body", packet, "if payload.len() < 2 {", "if payload.len() < 3 {", []),
            (
                "a contract of the crate's own", packet, "{ opcode_of payload.now ≡ 4 }",
                "{ opcode_of payload.now ≡ 5 }", [],
            ),
            ("a name less", lib, "opcode, read_packet", "read_packet", two),
            ("another name for what is handed out", lib, "value::Value;", "value::Value as Said;", one),
            ("a module that is handed out", lib, "mod text;", "pub mod text;", two),
            ("what a library is for", lib, "//! TFTP packets", "//! Packets", two),
            ("a library less", "crates.txt", "tftp_packet:\n", "", two),
            ("a section that is written by hand", "docs/CONTRACTS.md", "### tftp_packet\n", "", one),
        ]
        for change in changes:
            self.try_change(copy, *change)

    def test_written(self) -> None:
        """A page less, one more and one that was written over are told, and made as they were; so is what is not
        read."""
        copy = Copy(self.folder)
        copy.ran()
        before = copy.pages()
        folder = copy.top / PAGES
        (folder / "net_streams.md").unlink()
        (folder / "tftp_none.md").write_text("none\n")
        (folder / "tftp_netascii.md").write_text(before["tftp_netascii.md"].replace("`decode`", "`decoded`"))
        changed = copy.pages()
        output, errors, status = copy.ran("--check")
        names = re.findall(r"(?m)^docs/contracts/(\w+)\.md: (it would be a page|it would be no page|line)", output)
        wanted = [("net_streams", "it would be a page"), ("tftp_netascii", "line"), ("tftp_none", "it would be no page")]
        self.check("pages that are not the sources'", names == wanted and (errors, status) == ("", 1), (output, errors))
        self.check("--check writes nothing", copy.pages() == changed)
        got = copy.ran()
        self.check("they are written", got[1:] == ("", 0) and copy.pages() == before, got)
        source = copy.top / "crates" / "tftp_packet" / "src" / "hosts" / "host.rt"
        for old, new, why in (
            ("Rattle.tftp_packet.specs.Hosts.Host.", "Rattle.tftp_packet.specs.Nowhere.Host.", "no file of tftp_packet has "),
            ("impl Host {", "impl Host {{", "crates/tftp_packet/src/hosts/host.rt:"),
        ):
            text = source.read_text()
            source.write_text(text.replace(old, new))
            got = copy.ran("--check")
            self.check(f"{new} is told", got[0] == "" and got[1].startswith(f"contracts: {why}") and got[2] == 2, got)
            source.write_text(text)
