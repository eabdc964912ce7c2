"""What the pages for readers say of the programs, the scripts, the rules and the proof, beside these and the sources;
the commands that they show, each with what stands below it; and the picture in examples/.
"""
from __future__ import annotations

import re
import shutil
import subprocess
from collections.abc import Iterator

from checks import Checks
from programs import AUDIT, MATCH, TRANSFERS
from repository import TOP
from tftp_tools.crates import below, libraries_of
from tftp_tools.rules import PACKET_FAULTS, Rule
from tftp_tools.textfaults import MEANINGS

SCRIPTS = ("tftp-explain", "tftp-extract", "tftp-ladder", "tftp-report", "tftp-trial")
EXAMPLES = TOP / "examples"
# The programs whose code docs/LIBRARIES.md shows; and a section of that page: its program or call, and what is below.
CALLERS = ("example_judge", "example_recording")
OF_CALL = re.compile(r"(?ms)^## [^\n]*`(\w+)`\n(.*?)(?=^## |\Z)")
FENCED = re.compile(r"(?ms)^```(\w*)\n(.*?)^```$")
# "(`clause`, `other`)"
IN_BRACKETS = re.compile(r"\((?:`\w+`(?:, )?)+\)")
# The crates of which docs/PROOF.md names each file.
MAPPED = ("law_model", "tftp_ends", "law_end", "tftp_judge", "tftp_normal", "tftp_commands")
QUOTED = re.compile(r"`([^`]+)`")
# "`crate` needs `other`, `another` and `third`"
NEEDS = re.compile(r"`(\w+)` needs ((?:`\w+`(?:, | and )?)+)")
# "law `name`", "laws `one` (`its_clause`), `two` and `three`"
LAWS = re.compile(r"\blaws? ((?:`\w+`(?: \((?:`\w+`(?:, )?)+\))?(?:, and |, | and )?)+)")
# The pages that show commands with what they print.
SHOWING = ("README.md", "docs/VERDICTS.md", "docs/RECORDING.md", "docs/PAIRS.md")
WITH_CLAUSES = re.compile(r"`(\w+)` \(((?:`\w+`(?:, )?)+)\)")
# "(`crate`: Module, Module; `crate`: Module)"
MODULES = re.compile(r"`([a-z]+_\w+)`: ((?:[A-Z]\w*(?:, )?)+)")
# one_name, OtherName
IN_PICTURE = re.compile(r"\b[a-z]+(?:_[a-z]+)+\b|\b[A-Z][a-z]+(?:[A-Z][a-z]+)+\b")


def helped(command: list[str]) -> str:
    return subprocess.run([*command, "--help"], capture_output=True, text=True, check=True).stdout


class Sources:
    """What the crates have by name: public functions with the clauses of their contracts, definitions, Rust's types.
    A law is a public function that takes nothing and answers nothing."""

    def __init__(self) -> None:
        self.crates = {folder.name for folder in (TOP / "crates").iterdir()}
        self.laws: set[str] = set()
        self.functions: dict[str, set[str]] = {}
        self.definitions: set[str] = set()
        self.types: set[str] = set()
        for source in sorted((TOP / "crates").glob("*/src/**/*.rt")):
            text = source.read_text()
            self.types |= set(re.findall(r"pub (?:struct|enum|trait) (\w+)", text))
            self.laws |= set(re.findall(r"(?m)^pub fn (\w+)\(\)\n *ensures ", text))
            for function in re.split(r"(?m)^(?=\s*(?:pub )?fn )", text)[1:]:
                name = re.match(r"\s*(?:pub )?fn (\w+)", function)
                clauses = re.findall(r"(?m)^\s*(?:ensures\*?|requires) (\w+) \{", function)
                if name and function.lstrip().startswith("pub "):
                    self.functions.setdefault(name[1], set()).update(clauses)
        for spec in sorted((TOP / "crates").glob("*/specs/**/*.antt")):
            told = re.findall(r"(?m)^(?:abbrev pub|pub record|pub data|pub) (\w+)", spec.read_text())
            self.definitions |= set(told) - {"use", "mod", "record", "data"}

    @staticmethod
    def modules(crate: str, part: str) -> set[str]:
        """The modules in a folder of a crate, and in its folders by theorem, but those that list them."""
        top = TOP / "crates" / crate / part
        files = (file for file in top.rglob("*.antt") if file.relative_to(top).parts[0][0].isupper())
        return {file.stem for file in files if not (file.parent / file.stem).is_dir()} - {"Lib"}

    def knows(self, name: str) -> bool:
        """Whether some crate has this name."""
        clauses = set().union(*self.functions.values())
        return name in self.crates | self.functions.keys() | self.definitions | self.types | clauses


def shown(page: str) -> Iterator[tuple[str, str]]:
    """The commands in the blocks of a page, each with what stands below it."""
    for block in re.findall(r"(?ms)^```\n(\$ .*?)^```$", page):
        for step in re.split(r"(?m)^\$ ", block)[1:]:
            first, *lines = step.splitlines(keepends=True)
            further = [line for line in lines if line.startswith("> ")]
            yield first + "".join(line[2:] for line in further), "".join(lines[len(further) :])


class Pages(Checks):
    """What the pages say beside the sources."""

    sources: Sources

    @classmethod
    def setUpClass(cls) -> None:
        cls.sources = Sources()

    def test_verdicts(self) -> None:
        """docs/VERDICTS.md has the rules and faults of the scripts, and SPECIFICATION the same rules by number and
        name."""
        page, rules = (TOP / "docs" / name for name in ("VERDICTS.md", "SPECIFICATION.md"))
        lines, specified = page.read_text().splitlines(), rules.read_text().splitlines()
        self.check("27 rules", [rule.number for rule in Rule] == list(range(1, 28)))
        for rule in Rule:
            row = f"| {rule.number} | {rule.printed} | {rule.says} | {rule.whose} | {rule.usually} |"
            self.check(f"rule {rule.number} in VERDICTS.md", row in lines, row)
            begins = f"| {rule.number} | {rule.printed} | "
            is_there = any(line.startswith(begins) for line in specified)
            self.check(f"rule {rule.number} in SPECIFICATION.md", is_there, begins)
        for name, fault in PACKET_FAULTS.items():
            self.check(f"{name} in VERDICTS.md", f"| {name} | {fault.says} | {fault.usually} |" in lines)
        for name in MEANINGS:
            row = f"| {name} | " if name != "Read" else "| `fault line 4 Read` | "
            self.check(f"{name} in VERDICTS.md", any(line.startswith(row) for line in lines))

    def test_laws(self) -> None:
        """Each law that a page names is one, and each module that it names in brackets is a file."""
        pages = (*sorted((TOP / "docs").glob("*.md")), TOP / "README.md", TOP / "CONTRIBUTING.md")
        for page in pages:
            text = page.read_text()
            for told in LAWS.findall(text):
                for law in QUOTED.findall(re.sub(r" \([^)]*\)", "", told)):
                    self.check(f"the law {law}, which {page.name} names", law in self.sources.laws)
            for crate, modules in MODULES.findall(text):
                for module in re.findall(r"\w+", modules):
                    there = self.sources.modules(crate, "specs") | self.sources.modules(crate, "proofs")
                    self.check(f"{module} of {crate}, which {page.name} names", module in there)

    def test_proof(self) -> None:
        """docs/PROOF.md names nothing that no crate has, and says of each file of some crates which step it has."""
        page = (TOP / "docs" / "PROOF.md").read_text()
        before, picture, after = re.split(r"(?m)^```\n", page)
        argument, table = after.split("\n## Which file has which step\n")
        table, beside = table.split("\n## ", 1)
        text = before + argument + beside
        for name in sorted(set(QUOTED.findall(text))):
            if re.fullmatch(r"\w+", name):
                self.check(f"{name}, which PROOF.md names", self.sources.knows(name))
        for name, told in WITH_CLAUSES.findall(text):
            for clause in QUOTED.findall(told):
                self.check(
                    f"the clause {clause} of {name} in PROOF.md", clause in self.sources.functions.get(name, set())
                )
        modules = set().union(*(self.sources.modules(crate, "specs") for crate in self.sources.crates))
        for name in sorted(set(IN_PICTURE.findall(picture))):
            self.check(f"{name} in the picture of PROOF.md", self.sources.knows(name) or name in modules)
        lines = [line for line in table.splitlines() if line.startswith("|")]
        rows = [[QUOTED.findall(cell) for cell in line.split("|")[1:-1]] for line in lines]
        for crate in MAPPED:
            for column, part in ((2, "specs"), (3, "proofs")):
                named = sorted(name for row in rows if row[1] == [crate] for name in row[column])
                there = sorted(self.sources.modules(crate, part))
                differ = sorted(set(named) ^ set(there)) or named
                self.check(f"{crate}/{part} in PROOF.md, each file once", named == there, differ)

    def test_libraries(self) -> None:
        """docs/LIBRARIES.md shows code that stands so in the programs, what they print, their lines of crates.txt, and
        clauses of the functions that it names; and README's code is that of the program, without its contract."""
        page = (TOP / "docs" / "LIBRARIES.md").read_text()
        listed = (TOP / "crates.txt").read_text().splitlines()
        for kind, text in FENCED.findall(page):
            for line in text.splitlines() if kind == "text" else ():
                self.check(f"the line {line} of crates.txt in LIBRARIES.md", line in listed)
        needed = NEEDS.findall(page)
        for crate, names in needed:
            is_all = set(QUOTED.findall(names)) == below(TOP, crate)
            self.check(f"what {crate} needs in LIBRARIES.md", is_all, sorted(below(TOP, crate)))
        self.check("LIBRARIES.md says what crates need", len(needed) > 1)
        parts = OF_CALL.findall(page)
        self.check("the calls of LIBRARIES.md", tuple(name for name, _ in parts) == (*CALLERS, "normalise"))
        for name, part in parts:
            if name in CALLERS:
                self.check_program(name, FENCED.findall(part))
            words = re.findall(r"\w+", " ".join(QUOTED.findall(FENCED.sub("", part))))
            clauses = set().union(*(self.sources.functions.get(word, set()) for word in words))
            for clause in QUOTED.findall(" ".join(IN_BRACKETS.findall(FENCED.sub("", part)))):
                self.check(f"the clause {clause} of {name} in LIBRARIES.md", clause in clauses)
        [code] = (text for kind, text in FENCED.findall((TOP / "README.md").read_text()) if kind == "rust")
        source = (TOP / "crates" / CALLERS[0] / "src" / "main.rt").read_text()
        plain = re.sub(r"(?m)\n(?:    (?:requires|ensures) .*\n)+\{$", " {", source)
        self.check("the code of README", code[code.index("\n/// ") :] in plain)

    def check_program(self, name: str, shown: list[tuple[str, str]]) -> None:
        source, printed = ((TOP / "crates" / name / file).read_text() for file in ("src/main.rt", "stdout"))
        (rust, code), prints = shown
        self.check(f"{name} in LIBRARIES.md", rust == "rust" and f"\n{code}" in source)
        self.check(f"what {name} prints in LIBRARIES.md", prints == ("", printed))

    def test_contracts(self) -> None:
        """docs/CONTRACTS.md names nothing that no crate has, and has sections of libraries that have a page of their
        own; what those pages have is tried by tests/test_contracts.py."""
        text = (TOP / "docs" / "CONTRACTS.md").read_text()
        told = text.replace(text[text.index("## How the pages are read") : text.index("## What no clause says")], "")
        modules = set().union(*(self.sources.modules(crate, "specs") for crate in self.sources.crates))
        modules |= {path.stem for path in (TOP / "crates").glob("*/src/*.rt")}
        for name in sorted({part for it in QUOTED.findall(told) for part in it.split("::")}):
            if re.fullmatch(r"[A-Za-z]\w*", name):
                self.check(f"{name}, which CONTRACTS.md names", self.sources.knows(name) or name in modules)
        for name, clauses in WITH_CLAUSES.findall(told):
            for clause in QUOTED.findall(clauses):
                self.check(
                    f"the clause {clause} of {name} in CONTRACTS.md", clause in self.sources.functions.get(name, set())
                )
        for crate in re.findall(r"(?m)^### (\w+)$", text):
            self.check(f"the section on {crate} in CONTRACTS.md", crate in libraries_of(TOP))


class Shown(Checks):
    """What the pages say beside the programs."""

    needs = (AUDIT, TRANSFERS, MATCH)

    def test_manual(self) -> None:
        """The manual pages of the programs and of the scripts name each option, and read well where mandoc can say
        so."""
        said = {name: helped([str(TOP / "tools" / name)]) for name in SCRIPTS}
        commands = ("list", "text", "texts", "check")
        of_commands = [helped([TRANSFERS.path]), *(helped([TRANSFERS.path, command]) for command in commands)]
        of_programs = {"tftp-transfers": "".join(of_commands), "tftp-match": helped([MATCH.path])}
        for name, words in {**said, **of_programs}.items():
            page = (TOP / "docs" / "man" / f"{name}.1").read_text().replace("\\-", "-")
            for option in sorted(set(re.findall(r"--[a-z]+(?:-[a-z]+)*", words))):
                self.check(f"{name}(1) has {option}", option in page)
        if not shutil.which("mandoc"):
            self.leave("the manual pages by mandoc", "mandoc is not installed")
            return
        for path in sorted((TOP / "docs" / "man").glob("*.1")):
            lint = ["mandoc", "-T", "lint", "-W", "warning", str(path)]
            found = subprocess.run(lint, capture_output=True, text=True).stdout
            self.check(f"{path.name}, mandoc", found == "", found)

    def test_picture(self) -> None:
        """The picture of examples/ is that of the recording beside it."""
        recording = EXAMPLES / "loopback-repeated-oack.pcap"
        words = [str(TOP / "tools" / "tftp-ladder"), "--program", AUDIT.path, "--transfers", TRANSFERS.path]
        drawn = subprocess.run([*words, str(recording), "1", "client"], capture_output=True, check=True).stdout
        self.check("the picture of examples/", drawn == recording.with_suffix(".svg").read_bytes())

    def test_shown(self) -> None:
        """Each command that a page shows writes what stands below it, in a folder with the programs in their places."""
        folder = self.folder
        programs = ("tftp-audit", AUDIT.path), ("tftp-transfers", TRANSFERS.path), ("tftp-match", MATCH.path)
        for place, stands in (*programs, ("examples", str(EXAMPLES))):
            (folder / place).symlink_to(stands)
        # the scripts look for the programs in the folder above their own
        shutil.copytree(TOP / "tools", folder / "tools")
        for page in SHOWING:
            for command, wanted in shown((TOP / page).read_text()):
                done = subprocess.run(
                    ["sh", "-c", command], cwd=folder, text=True, stdout=subprocess.PIPE, stderr=subprocess.STDOUT
                )
                # a file need not end in a line's end, and a page's line does
                got = done.stdout if done.stdout.endswith("\n") else f"{done.stdout}\n"
                self.check(f"{page}, {command.splitlines()[0]}", got == wanted, got)
