"""What shells complete; and make dist and make deb, each on a scratch copy that is a repository of git, with a stand-in
for rt whose programs are true(1): a tar and a package of Debian, the same bytes from the same commit, that hold what
they say.
"""
from __future__ import annotations

import gzip
import hashlib
import itertools
import os
import pathlib
import re
import shutil
import subprocess
import sys
import tarfile
import tempfile
from typing import Optional, Union

from checks import Checks
from repository import TOP
from scratch import AUDIT, LAUNCHERS, MATCH, SCRIPTS, TRANSFERS, V3, Scratch

# The programs are another's, of which is known what they need, with a byte more where they are not for any processor;
# what rt says of a build is short.
STAND_IN = r"""#!/bin/sh
[ "$1" = version ] && echo 'rattle-kit-0 logic 5a' && exit
crate=$(basename "$PWD")
mkdir -p out
echo "logic /somewhere/project.json: libraries=1 sum=5a" >&2
echo "crate $crate: modules loaded=0 checked=1" >&2
echo "logic=proved functions=7 sum=5a" >&2
cp TRUE "out/$crate"
case $2 in --cpu=*) echo >>"out/$crate" ;; esac
"""
# What rt ci writes, shortened: a crate, the tests of one below it, and the end.
GATE = """\
== tftp_low
fn tftp_low::one: proved
logic /somewhere/project.json: libraries=1 sum=5a
logic=proved functions=1 sum=5a
rt: tftp_low proved
== tftp_low_tests: its tests
logic=proved tests=2 functions=3 sum=5a
== tftp_open
logic=not-proved functions=1 sum=5a
rt: ok; must-fail edits: 10 refused
1 passed, 0 failed
"""
PROVED = """
gate:
    logic: libraries=1 sum=5a
    tftp_low: logic=proved functions=1 sum=5a
    tftp_low_tests: its tests: logic=proved tests=2 functions=3 sum=5a
    rt: ok; must-fail edits: 10 refused

tftp-audit:
    logic: libraries=1 sum=5a
    tftp_audit: logic=proved functions=7 sum=5a

tftp-match:
    logic: libraries=1 sum=5a
    tftp_match: logic=proved functions=7 sum=5a

tftp-transfers:
    logic: libraries=1 sum=5a
    tftp_transfers: logic=proved functions=7 sum=5a
"""
# Makes the sums that a launcher goes by those of a changed program.
COPIED = r"""{ sed '$d' "$1.sources"; cksum <"$1"; } >"$1.new"
mv "$1.new" "$1.sources"
rm -f "$1.states"
"""
APACHE = "/usr/share/common-licenses/Apache-2.0"
TIME = 1_700_000_000
GIT = {f"GIT_{who}_{what}": said for who in ("AUTHOR", "COMMITTER") for what, said in (
    ("NAME", "A Maintainer"), ("EMAIL", "one@example.org"), ("DATE", f"{TIME} +0200"),
)}
TOOLS = ("git", "readelf", "strip", "true")
# The places of the programs in what is installed.
LIB = "lib/tftp-audit"
PLACES = {AUDIT: f"{LIB}/tftp-audit", TRANSFERS: f"{LIB}/tftp-transfers", MATCH: "bin/tftp-match"}


class Checkout(Scratch):
    """A scratch copy that is committed."""

    def __init__(self, folder: pathlib.Path, program: str) -> None:
        super().__init__(folder, AUDIT)
        (self.bin / "rt").write_text(STAND_IN.replace("TRUE", program))
        (self.top / "out").mkdir()
        (self.top / "out" / "gate.log").write_text(GATE)
        for words in (["init", "-q"], ["add", "-A"], ["commit", "-q", "-m", "all"]):
            self.does("git", *words)

    def does(self, *words: str, mask: int = 0o022, path: Optional[str] = None) -> subprocess.CompletedProcess[str]:
        """What a command does at the top, under a mask of modes."""
        # what a make around this test says to those within it says nothing to ours
        outer = {name: value for name, value in os.environ.items() if not name.startswith(("MAKE", "MFLAGS"))}
        environment = {**outer, **GIT, "PATH": path or f"{self.bin}:{os.environ['PATH']}"}
        return subprocess.run(
            ["sh", "-c", f'umask {mask:o}; exec "$@"', "sh", *words],
            cwd=self.top, env=environment, capture_output=True, text=True,
        )

    def made(self, target: str, mask: int = 0o022) -> pathlib.Path:
        """What a target of the Makefile makes."""
        done = self.does("make", target, mask=mask)
        lines = done.stdout.splitlines()
        if done.returncode != 0 or not lines:
            raise RuntimeError(f"make {target}: {done.stdout}{done.stderr}")
        return pathlib.Path(lines[-1])

    def commit(self) -> str:
        return self.does("git", "rev-parse", "HEAD").stdout.strip()


def needs(program: str) -> str:
    """The highest version of glibc that the bytes of a program name."""
    told = re.findall(rb"\0GLIBC_([0-9]+)\.([0-9]+)", pathlib.Path(program).read_bytes())
    major, minor = max((int(major), int(minor)) for major, minor in told)
    return f"{major}.{minor}"


def has_symbols(program: Union[str, pathlib.Path]) -> bool:
    """Whether a program has a table of symbols, beside that of those which it shares."""
    told = subprocess.run(["readelf", "--section-headers", "--wide", program], capture_output=True, text=True, check=True)
    return " SYMTAB " in told.stdout


def sums_hold(folder: pathlib.Path, listed: pathlib.Path, unlisted: set[str]) -> bool:
    """Whether the list has the sum of each file below the folder but for some."""
    lines: dict[str, str] = {}
    for line in listed.read_text().splitlines():
        digest, name = line.split("  ", 1)
        lines[name] = digest
    files = {it.relative_to(folder).as_posix() for it in folder.rglob("*") if it.is_file() and not it.is_symlink()}
    right = all(hashlib.sha256((folder / name).read_bytes()).hexdigest() == digest for name, digest in lines.items())
    return right and set(lines) == files - unlisted


class Packages(Checks):
    """What is packed of a copy that is committed."""

    def setUp(self) -> None:
        super().setUp()
        if missing := [name for name in TOOLS if not shutil.which(name)]:
            self.skipTest(f"{', '.join(missing)} is not installed, so no packages are tried")
        self.program = self.stand_in()
        self.checkout = Checkout(self.folder, self.program)

    def stand_in(self) -> str:
        """A program that does nothing, with symbols where there is a compiler."""
        if not shutil.which("cc"):
            return str(shutil.which("true"))
        made = self.folder / "stand-in"
        subprocess.run(["cc", "-x", "c", "-o", made, "-"], input=b"int main(void) { return 0; }", check=True)
        return str(made)

    def try_programs(self, prefix: pathlib.Path) -> None:
        """The programs below a folder have no symbols, though those that were built have."""
        if not has_symbols(self.program):
            self.leave("no symbols", "no C compiler is installed, so no program that is packed has had symbols")
        for launcher, place in PLACES.items():
            self.check(f"{launcher.name} has no symbols", not has_symbols(prefix / place))

    def test_tar(self) -> None:
        made = self.checkout.made("dist")
        self.try_tar(made)
        self.try_again("dist", made)
        self.try_processors("dist", made)

    def test_deb(self) -> None:
        if not shutil.which("dpkg-deb"):
            self.skipTest("dpkg-deb is not installed, so the package of Debian is not tried")
        made = self.checkout.made("deb")
        self.try_deb(made)
        self.try_again("deb", made)
        self.try_processors("deb", made)

    def try_tar(self, made: pathlib.Path) -> None:
        """What the tar holds, and that it runs from where it is unpacked."""
        with tarfile.open(made) as tar:
            entries = tar.getmembers()
            tar.extractall(self.checkout.top.parent / "unpacked")
        names = [entry.name for entry in entries]
        self.check("the tar's names are in order", names == sorted(names) and len(set(names)) == len(names), names)
        owners = {(it.uid, it.gid, it.uname, it.gname) for it in entries}
        self.check("the tar's owners", owners == {(0, 0, "root", "root")}, owners)
        self.check("the tar's times", {it.mtime for it in entries} == {TIME})
        self.check("the tar's modes", {it.mode for it in entries if not it.issym()} == {0o755, 0o644})
        folder = self.checkout.top.parent / "unpacked" / names[0]
        self.check(
            "the tar's name", made.name == f"{folder.name}.tar.gz" and self.checkout.commit()[:8] in made.name, made
        )
        self.check("the tar's sums", sums_hold(folder, folder / "SHA256SUMS", {"SHA256SUMS"}))
        wanted = (
            "PROVED", "bin/tftp-audit", "bin/tftp-transfers", "bin/tftp-match", "share/man/man1/tftp-audit.1",
            "share/doc/tftp-audit/README.md", "share/doc/tftp-audit/docs/VERDICTS.md",
            "share/doc/tftp-audit/docs/contracts/README.md",
            "share/tftp-audit/wireshark/tftp-audit.lua",
            "share/bash-completion/completions/tftp-transfers", "share/bash-completion/completions/tftp-match",
            "share/zsh/site-functions/_tftp-audit",
            "share/fish/vendor_completions.d/tftp-audit.fish", *(f"bin/{name}" for name in SCRIPTS),
        )
        self.check("the tar's files", all((folder / name).is_file() for name in wanted), names)
        self.try_proved((folder / "PROVED").read_text(), folder)
        self.try_programs(folder)
        for words in (
            ["bin/tftp-audit", "--help"], ["bin/tftp-audit", "check", "PROVED"], ["bin/tftp-explain", "--help"]
        ):
            done = subprocess.run(words, cwd=folder, capture_output=True, text=True)
            self.check(f"{words} of the tar", done.returncode == 0, done)

    def try_proved(self, proved: str, folder: pathlib.Path) -> None:
        """What the tar says of its commit, its programs and the gate."""
        digest = hashlib.sha256(pathlib.Path(self.program).read_bytes()).hexdigest()
        stripped = {it.name: hashlib.sha256((folder / place).read_bytes()).hexdigest() for it, place in PLACES.items()}
        for said in (
            *(f"{name}, stripped: sha256 {its}\n" for name, its in stripped.items()),
            f"commit {self.checkout.commit()} of 2023-11-14 22:13:20 UTC\n",
            "proved and built by rattle-kit-0 logic 5a\n",
            f"needs glibc {needs(self.program)} or later", f"tftp-audit: sha256 {digest}\n",
            f"tftp-transfers: sha256 {digest}\n", f"tftp-match: sha256 {digest}\n", PROVED,
        ):
            self.check(f"PROVED says {said!r}", said in proved, proved)

    def try_deb(self, made: pathlib.Path) -> None:
        """What the package of Debian says and holds."""
        root = self.checkout.top.parent / "of the package"
        self.checkout.does("dpkg-deb", "--raw-extract", str(made), str(root))
        control = (root / "DEBIAN" / "control").read_text()
        for field in (
            "Package: tftp-audit\n", f"Depends: libc6 (>= {needs(self.program)}), python3 (>= 3.9)\n",
            "Maintainer: A Maintainer <one@example.org>\n",
        ):
            self.check(f"the package says {field!r}", field in control, control)
        sums = [line.split("  ", 1) for line in (root / "DEBIAN" / "md5sums").read_text().splitlines()]
        right = all(hashlib.md5((root / name).read_bytes()).hexdigest() == digest for digest, name in sums)
        self.check("the package's sums", right and len(sums) > 50, sums)
        script = root / "DEBIAN" / "prerm"
        self.check("what the package does before it is removed", script.stat().st_mode & 0o777 == 0o755, script)
        usr = root / "usr"
        pages = usr / "share" / "doc" / "tftp-audit"
        own = pages / "SHA256SUMS"
        self.check("the package's own sums", sums_hold(usr, own, {own.relative_to(usr).as_posix()}))
        for name in (AUDIT.name, TRANSFERS.name, MATCH.name, *SCRIPTS):
            page = gzip.decompress((usr / "share" / "man" / "man1" / f"{name}.1.gz").read_bytes())
            self.check(f"{name}.1.gz", page == (self.checkout.top / "docs" / "man" / f"{name}.1").read_bytes())
        changes = gzip.decompress((pages / "changelog.gz").read_bytes()).decode()
        signed = " -- A Maintainer <one@example.org>  Tue, 14 Nov 2023 22:13:20 +0000\n"
        self.check("the package's changes", changes.endswith(signed), changes)
        self.try_copyright((pages / "copyright").read_text())
        self.try_plugin(usr, control)
        self.try_programs(usr)
        self.try_lintian(made)
        done = subprocess.run([usr / "bin" / "tftp-audit", "--version"], capture_output=True, text=True)
        self.check("the launcher of the package", done.returncode == 0 and done.stdout.startswith("tftp-audit "), done)
        told = self.checkout.does("dpkg-deb", "--contents", str(made)).stdout
        self.check("the package's owners", {line.split()[1] for line in told.splitlines()} == {"root/root"}, told)

    def try_copyright(self, told: str) -> None:
        """The package's copyright file has the text of the MIT licence, and names Debian's file of the Apache licence."""
        holder, _, text = (self.checkout.top / "LICENSE-MIT").read_text().partition("Copyright (c) ")[2].partition("\n\n")
        plain = "".join(f" {line or '.'}\n" for line in text.rstrip("\n").split("\n"))
        self.check("the MIT licence", f"\nLicense: MIT\n{plain}\n" in told and "WARRANTY" in plain, told)
        self.check("the holder", f"\nFiles: *\nCopyright: {holder}\nLicense: MIT or Apache-2.0\n" in told, told)
        self.check("the Apache licence", "\nLicense: Apache-2.0\n" in told and f" {APACHE}.\n" in told, told)
        if pathlib.Path("/usr/share/common-licenses").is_dir():
            self.check("Debian's file of it", pathlib.Path(APACHE).is_file())

    def try_plugin(self, usr: pathlib.Path, control: str) -> None:
        """The plugin is where tshark looks for those that all users have."""
        plugin = (self.checkout.top / "share" / "wireshark" / "tftp-audit.lua").read_bytes()
        places = [path for path in (usr / "lib").glob("*/wireshark/plugins/*") if path.read_bytes() == plugin]
        self.check("the plugin's place", [path.name for path in places] == ["tftp-audit.lua"], places)
        within = all(usr in path.resolve().parents for path in places)
        self.check("the plugin is of the package", within, places)
        if not shutil.which("tshark") or "Architecture: amd64\n" not in control:
            self.leave("where tshark looks", "there is no tshark for the package's processor")
            return
        told = subprocess.run(["tshark", "-G", "folders"], capture_output=True, text=True).stdout
        looked = re.findall(r"(?m)^Global Lua Plugins:\s+(.*)$", told)
        if not looked:
            self.leave("where tshark looks", "tshark is built without Lua")
            return
        found = any(f"/usr/{path.parent.relative_to(usr)}" in looked for path in places)
        self.check("where tshark looks", found, (looked, places))
        if os.geteuid() == 0:
            self.leave("tshark with the plugin", "tshark takes no other folder of plugins from root")
            return
        setting = {**os.environ, "WIRESHARK_PLUGIN_DIR": str(places[0].parent)}
        told = subprocess.run(["tshark", "-G", "protocols"], capture_output=True, text=True, env=setting).stdout
        self.check("tshark with the plugin", "\ttftp_audit\n" in told, told[-200:])

    def try_lintian(self, made: pathlib.Path) -> None:
        """Debian's own check of packages finds no error and no warning."""
        if not shutil.which("lintian"):
            self.leave("lintian", "lintian is not installed, so the package is not checked with it")
            return
        words = ["lintian", "--no-cfg", "--allow-root", "--fail-on", "error,warning", str(made)]
        done = subprocess.run(words, capture_output=True, text=True)
        self.check("lintian", (done.returncode, done.stdout) == (0, ""), done)

    def test_sums(self) -> None:
        """A program is packed only where its SHA-256 is the one that was recorded when it was built."""
        made = self.checkout.made("dist")
        first = made.read_bytes()
        made.unlink()
        for launcher in LAUNCHERS:
            program = self.checkout.program_of(launcher)
            right, record = program.read_bytes(), program.with_name(f"{program.name}.sha256")
            recorded = hashlib.sha256(right).hexdigest()
            program.write_bytes(right + b"\n")
            changed = hashlib.sha256(right + b"\n").hexdigest()
            self.refuses_sum(f"a changed {launcher.name}", program, changed, recorded)
            # the launcher's own sum is that of the changed one, so that it builds no other
            self.checkout.does("sh", "-c", COPIED, "sh", str(program))
            self.refuses_sum(f"a changed {launcher.name} that its launcher takes", program, changed, recorded)
            program.write_bytes(right)
            record.unlink()
            done = self.checkout.does("tools/package", "tar")
            holds = done.returncode == 2 and f"its SHA-256 is {recorded}, and none was recorded" in done.stderr
            self.check(f"{launcher.name} of which no sum is known", holds and not made.exists(), done)
            record.write_text(f"{recorded}  -\n")
            program.unlink()
            done = self.checkout.does("tools/package", "tar")
            holds = done.returncode == 2 and done.stderr == f"package: the program '{program}' is not built\n"
            self.check(f"{launcher.name} that is not there", holds, done)
            program.write_bytes(right)
            program.chmod(0o755)
            self.checkout.does("sh", "-c", COPIED, "sh", str(program))
        self.check("all once more", self.checkout.made("dist").read_bytes() == first)

    def refuses_sum(self, name: str, program: pathlib.Path, now: str, recorded: str) -> None:
        """No package is made, and what the program is is told."""
        told = f"package: '{program}' is not the program that was built with its proofs: its SHA-256 is {now}, and"
        for words in (["make", "dist"], ["make", "deb"], ["tools/package", "tar"], ["tools/package", "deb"]):
            done = self.checkout.does(*words)
            holds = done.returncode == 2 and f"{told} {recorded} was recorded" in done.stderr
            self.check(f"{' '.join(words)} of {name}", holds, done)
        self.check(f"no package of {name}", not list((self.checkout.top / "dist").iterdir()))

    def try_again(self, target: str, made: pathlib.Path) -> None:
        """The same bytes once more, and from another folder under another mask; none of what is not committed."""
        first = made.read_bytes()
        made.unlink()
        self.check(f"make {target} again", self.checkout.made(target).read_bytes() == first)
        with tempfile.TemporaryDirectory() as name:
            other = Checkout(pathlib.Path(name) / "deeper", self.program).made(target, mask=0o077)
            self.check(f"make {target} elsewhere", (other.name, other.read_bytes()) == (made.name, first), other)
        page = self.checkout.top / "README.md"
        text = page.read_text()
        page.write_text("changed")
        done = self.checkout.does("make", target)
        holds = done.returncode == 2 and "the checkout has what is not committed" in done.stderr
        self.check(f"make {target} of a changed checkout", holds, done)
        page.write_text(text)

    def try_processors(self, target: str, made: pathlib.Path) -> None:
        """A package is for any processor: one of another program is refused, and make builds the programs for any."""
        kind, first = {"dist": "tar", "deb": "deb"}[target], made.read_bytes()
        made.unlink()
        for launcher in LAUNCHERS:
            program = self.checkout.program_of(launcher)
            for record, message in (
                (V3, f"'{program}' was built for {V3}, and a package is for any processor\n"),
                ("", f"it is not known for which processors '{program}' was built\n"),
            ):
                self.checkout.does("env", f"TFTP_AUDIT_CPU={V3}", f"./{launcher.name}", "--build")
                if not record:
                    program.with_name(f"{program.name}.processor").unlink()
                known, done = self.checkout.built_for(launcher), self.checkout.does("tools/package", kind)
                holds = (known, done.returncode, done.stderr) == (record, 2, f"package: {message}")
                holds = holds and not made.exists()
                self.check(f"a {kind} with {launcher.name} for {record or 'what is not recorded'}", holds, done)
            self.checkout.does("env", "TFTP_AUDIT_CPU=any", f"./{launcher.name}", "--build")
        self.checkout.does("env", f"TFTP_AUDIT_CPU={V3}", "make", "build")
        self.check(f"make build for {V3}", [*map(self.checkout.built_for, LAUNCHERS)] == [V3] * 3)
        done = self.checkout.does("env", f"TFTP_AUDIT_CPU={V3}", "make", target)
        is_for_any = [*map(self.checkout.built_for, LAUNCHERS)] == ["any"] * 3
        holds = done.returncode == 0 and made.read_bytes() == first and is_for_any
        self.check(f"make {target} after it", holds, done)

    def test_missing(self) -> None:
        """Without dpkg-deb no package is made, and that is told."""
        self.checkout.does("make", "build-for-any")
        folder = self.checkout.top.parent / "few tools"
        folder.mkdir()
        for name in ("python3", "git", "readelf", "strip", "sh", "install", "ln", "rm", "cat", "sed", "sort", "rmdir", "env"):
            (folder / name).symlink_to(str(shutil.which(name)))
        (folder / "rt").symlink_to(self.checkout.bin / "rt")
        done = self.checkout.does(sys.executable, "tools/package", "deb", path=str(folder))
        holds = done.returncode == 2 and done.stderr.startswith("package: 'dpkg-deb' is not installed")
        self.check("without dpkg-deb", holds, done)


class Completions(Checks):
    """What shells complete."""

    def test_completions(self) -> None:
        """What each shell completes has each option of the manual page, and reads well where the shell is installed."""
        shells = {
            "bash": ("bash/{}", "--{}", ("bash", "-n")),
            "zsh": ("zsh/_{}", "--{}", ("zsh", "-n")),
            "fish": ("fish/{}.fish", "-l {}", ("fish", "--no-execute")),
        }
        for name, shell in itertools.product((AUDIT.name, TRANSFERS.name, MATCH.name, *SCRIPTS), shells):
            place, spelt, parser = shells[shell]
            path = TOP / "share" / "completions" / place.format(name)
            page = (TOP / "docs" / "man" / f"{name}.1").read_text().replace("\\-", "-")
            # those that stand at the head of a paragraph
            options = set(re.findall(r"--([a-z]+(?:-[a-z]+)*)", "".join(re.findall(r"(?m)^\.TP\n\.B\w* .*-.*$", page))))
            lacking = {option for option in options if spelt.format(option) not in path.read_text()}
            self.check(f"{path.name} of {shell} has each option", bool(options) and not lacking, lacking)
            if shutil.which(shell):
                done = subprocess.run([*parser, path], capture_output=True, text=True)
                self.check(f"{path.name}, read by {shell}", (done.returncode, done.stderr) == (0, ""), done)
