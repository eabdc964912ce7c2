"""Tests of tools/tftp_plants on texts of its own: what an edit changes, which edits may be tried together, and what a
check says of them. It runs no check.
"""
from __future__ import annotations

import pathlib
import tempfile
import unittest

from tftp_plants import edits, said, source, tries
from tftp_plants.said import Outcome

FILES = {
    "src/lib.rt": '''mod shelf;

/// Not a fn in_a_comment() {}
pub fn top(n: u64) -> bool
    ensures low { IsTrue result → n < 7 }
    ensures { result ≡ true }
{
    "fn in_a_string() {" == "" || shelf::middle(n)
}
''',
    "src/shelf.rs.md": "fn in_no_source() {}",
    "src/shelf.rt": '''const LIMIT: [u64; 2] = [7, 8];

pub struct Shelf<'a> { books: &'a [u8] }

impl<'a> Model for Shelf<'a> { ghost view = { λ shelf. shelf.books }; }

impl<T: Read> Read for Shelf<T> {
    fn read(&mut self, buf: &mut [u8; 4]) -> usize
        ensures* { ⊤ₛ }
    { buf.len() }
}

impl Shelf<'_> {
    pub fn len(&self) -> usize { self.books.len() }
}

impl<'a> From<book::Book> for Shelf<'a> {
    fn from(book: book::Book) -> Self { book.alone() }
}

impl From<Error> for Shelf<'_> {
    fn from(_: Error) -> Self { Shelf { books: &[] } }
}

pub(crate) fn middle(n: u64) -> bool where u64: Copy requires { n < 9 } { low(n) }

fn low(n: u64) -> bool { n < LIMIT[0] && '{' != '}' }

fn beside() -> u64 { 3 }
''',
}
TOP, MIDDLE, LOW, BESIDE = "box::top", "box::shelf::middle", "box::shelf::low", "box::shelf::beside"
LEN, READ = "box::shelf::Shelf::len", "box::shelf::ShelfRead::read"
OF_BOOK, OF_ERROR = "box::shelf::ShelfFromBook::from", "box::shelf::ShelfFromError::from"

CHECKED = """checked box::shelf::low, 1 of 4
./proofs/shelf/Shelf/len/Answers.antt:8:5: error: `returns-clause-size`: as printed, the two types differ
  (expected)
./proofs/shelf/Shelf/len/Answers.antt:9:5: error: `returns-clause-least`: the goal does not follow
./proofs/shelf/beside/Answers.antt:9:5: error: `returns`: `c.was` has no field `is`
./proofs/Row.antt:4:9: error: `one`: expected type `⊥`, but this has type `IsRow [7]`
./proofs/Row.antt:6:9: error: `of`: `rows` is not in scope
fn box::shelf::Shelf::len: not proved
fn box::shelf::beside: not proved
fn box::laws::one: not proved; it stands on `Rattle.box.proofs.Row.of`, `Rattle.box.proofs.Row.one`, which antt refuses
fn box::laws::of: not proved; it stands on `Rattle.box.proofs.Row.of`, which antt refuses
note: src/shelf.rt:20:5: it is not proved that the index is in bounds (`index-1`); the facts known there allow values
note: a goal may be false even if its line does not say so
fn box::shelf::low: no proof: expected answers in ./proofs/shelf/low/Answers.antt; `search` did not prove `index-1`
fn box::shelf::middle: no proof: it calls `box::shelf::low`, which is not proved
fn box::shelf::fn::top::position: no proof
fn box::shelf::ShelfRead::read: proved
only=5 proved=1
"""


def edit(*lines: str, name: str = "one") -> edits.Edit:
    """An edit of these lines."""
    folder = pathlib.Path(tempfile.mkdtemp(dir=FOLDER.name))
    (folder / f"{name}.edit").write_text("\n".join(lines) + "\n", encoding="utf-8")
    return edits.edits_in("box", folder, "plants")[0]


def changed(it: edits.Edit) -> set[str]:
    """The functions that an edit of FILES changes."""
    return source.changed(SOURCES, source.sources_of("box", it.applied(FILES)))


class Functions(unittest.TestCase):
    def test_functions_are_found_and_named_as_the_checker_does(self) -> None:
        self.assertEqual(set(source.functions_of(SOURCES)), {TOP, MIDDLE, LOW, BESIDE, LEN, READ, OF_BOOK, OF_ERROR})

    def test_a_function_reaches_what_it_calls(self) -> None:
        reach = source.reachable(source.functions_of(SOURCES))
        self.assertEqual(reach[TOP], {MIDDLE, LOW})
        self.assertEqual(reach[BESIDE], set())


class Edits(unittest.TestCase):
    def test_an_edit_changes_the_function_that_it_stands_in(self) -> None:
        self.assertEqual(changed(edit("file: src/shelf.rt", "old: self.books.len()", "new: 0")), {LEN})

    def test_two_conversions_to_one_type_are_two_functions(self) -> None:
        self.assertEqual(changed(edit("file: src/shelf.rt", "old: book.alone()", "new: book.twice()")), {OF_BOOK})
        self.assertEqual(changed(edit("file: src/shelf.rt", "old: books: &[] }", "new: books: &[1] }")), {OF_ERROR})

    def test_a_constant_changes_the_functions_that_name_it(self) -> None:
        self.assertEqual(changed(edit("file: src/shelf.rt", "old: [7, 8]", "new: [7, 9]")), {LOW})

    def test_what_is_changed_back_is_not_changed(self) -> None:
        there, back = ("old: { 3 }", "new: { 4 }"), ("old: { 4 }", "new: { 3 }")
        self.assertEqual(changed(edit("file: src/shelf.rt", *there, "old: low(n)", "new: true", *back)), {MIDDLE})

    def test_a_function_that_is_added_is_none_that_is_changed(self) -> None:
        added = edit("file: src/shelf.rt", "old: { 3 }", "new: { four() } fn four() -> u64 { 4 }")
        self.assertEqual(changed(added), {BESIDE})

    def test_an_edit_that_does_not_apply_says_why(self) -> None:
        wrong: dict[str, tuple[str, ...]] = {
            "0 times": ("file: src/shelf.rt", "old: { 5 }", "new: { 4 }"),
            "2 times": ("file: src/shelf.rt", "old: bool", "new: u8"),
            "no file": ("file: src/none.rt", "old: a", "new: b"),
            "no pair": ("file: src/shelf.rt",),
            "before": ("new: a",),
        }
        for why, lines in wrong.items():
            with self.subTest(why), self.assertRaisesRegex(edits.NotApplied, why):
                edit(*lines).applied(FILES)


class Groups(unittest.TestCase):
    def test_only_edits_that_have_nothing_to_do_with_one_another_are_tried_together(self) -> None:
        caller, called = ("low(n)", "n < 9 && low(n)"), ("n < LIMIT[0]", "n < LIMIT[1]")
        bodies = {"caller": caller, "called": called, "beside": ("{ 3 }", "{ 4 }"), "len": ("self.books.len()", "0")}
        found = [edit("file: src/shelf.rt", f"old: {a}", f"new: {b}", name=name) for name, (a, b) in bodies.items()]
        all_of_them = [tries.Try(it, frozenset(changed(it))) for it in found]
        groups = tries.grouped(all_of_them, FILES, source.reachable(source.functions_of(SOURCES)))
        names = sorted(sorted(it.edit.name for it in group.tries) for group in groups)
        self.assertEqual(names, [["beside", "caller", "len"], ["called"]])
        self.assertEqual(groups[0].texts["src/shelf.rt"].count("{ 4 }"), 1)


class Told(unittest.TestCase):
    """What a check says of the functions that an edit changes."""

    def of(self, *symbols: str) -> tuple[Outcome, str]:
        return said.Said("box", CHECKED).of(set(symbols))

    def test_an_open_goal_of_the_function_itself_is_a_refusal(self) -> None:
        self.assertEqual(self.of(LOW), (Outcome.REFUSED, f"{LOW}, goal index-1, is not proved: the index is in bounds"))
        written = f"{LEN}, clause size, is not proved: its written answer does not prove it; also clause least"
        self.assertEqual(self.of(LEN), (Outcome.REFUSED, written))
        self.assertEqual(self.of(MIDDLE, LOW)[0], Outcome.REFUSED)

    def test_a_line_that_names_a_callee_is_none(self) -> None:
        self.assertEqual(self.of(MIDDLE)[0], Outcome.CALLEE)

    def test_a_proof_that_names_what_is_gone_is_none(self) -> None:
        self.assertEqual(self.of(BESIDE)[0], Outcome.NAMED)

    def test_each_wording_of_a_name_that_is_gone_is_none(self) -> None:
        for why in (
            "`c.was` has no field `is`",
            "`rows` is not in scope",
            "record `Lts.After-read` (nearest: .in_err-read, .in_ok-read)",
            "`goal.one`: module `Goals` has no `one` that can be named from here (names in it that begin alike: `ones`)",
        ):
            text = f"./proofs/shelf/beside/Answers.antt:9:5: error: `returns`: {why}\nfn {BESIDE}: not proved\n"
            self.assertEqual(said.Said("box", text).of({BESIDE})[0], Outcome.NAMED, why)

    def test_a_lemma_that_falls_refuses_what_stands_on_it(self) -> None:
        law = "box::laws::one"
        fell = f"{law}, goal one, is not proved: a lemma that it stands on"
        self.assertEqual(self.of(law), (Outcome.REFUSED, fell))
        self.assertEqual(self.of("box::laws::of")[0], Outcome.UNTOLD)

    def test_a_function_that_is_proved_or_not_there_is_none(self) -> None:
        self.assertEqual(self.of(READ)[0], Outcome.PROVED)
        self.assertEqual(self.of("box::shelf::Shelf")[0], Outcome.UNTOLD)

    def test_a_closure_counts_as_the_function_that_it_stands_in(self) -> None:
        self.assertEqual(self.of("box::shelf::top")[0], Outcome.UNTOLD)
        self.assertIn("position", self.of("box::shelf::top")[1])

    def test_a_check_that_did_not_reach_its_functions_has_not_ended(self) -> None:
        text = "src/shelf.rt:3:9: error[mismatched-types]: expected `bool`, found `usize`\n"
        self.assertEqual((said.Said("box", text).ended, said.Said("box", text).wrong), (False, [text.strip()]))
        for last, is_proved in (("logic=not-proved", False), ("logic=proved functions=19 sum=8f15bf", True)):
            told = said.Said("box", f"{CHECKED}{last}\n")
            self.assertEqual((told.ended, told.proved), (True, is_proved))


SOURCES = source.sources_of("box", FILES)
FOLDER = tempfile.TemporaryDirectory(prefix="plants-")


def tearDownModule() -> None:
    FOLDER.cleanup()
