"""The built program with little stack and with little memory: each command answers right or says that memory is
wanting, and is never ended by a signal.
"""
import resource
import subprocess
from collections.abc import Iterator

from captures import Capture, ack, blocks, data, oack, read_request
from checks import Checks
from commands import COMMANDS, SILENT
from normal import Output, meaning_of, outputs_of_refused
from programs import AUDIT
from refusals import Rule, refusal

# The stack that the program is run in, and the steps in which its memory is raised, in bytes.
STACK, STEP = 100 * 1024, 16 * 1024
# A file for which room is asked for ahead, sixteen times of it, and beside what the empty program has so much memory
# that it is granted for what is needed alone.
LONG, SCARCE = 2_000_000, 6 * 1024 * 1024
# In so much memory the empty program starts, and in so much each command has what it needs.
MUCH = 8 * 1024 * 1024
ENOUGH = 64 * 1024 * 1024
MEMORY = b"fault memory\n"


def named(count: int) -> dict[str, str]:
    """So many options that are no known ones, with short names and empty values."""
    letters = "abcdefghijklmnopqrstuvwxyz"
    names = (a + b + c for a in letters for b in letters for c in letters)
    return dict.fromkeys((next(names) for _ in range(count)), "")


def read_of_two_bytes(count: int) -> Capture:
    """A read of one block that asks for so many options and gets none."""
    capture = Capture("client")
    names = "abcdefghijklmnopqrstuvwxyz0123456789"
    options = dict.fromkeys(list(names) + [a + b for a in names for b in names][: max(0, count - len(names))], "")
    capture.put("client", read_request("a", "octet", **dict(list(options.items())[:count])))
    capture.put("server", data(1, b"hi"))
    capture.put("client", ack(1))
    return capture


def windowed() -> Capture:
    """A read in blocks of 8 bytes and windows of 4."""
    sizes, capture = {"blksize": 8, "windowsize": 4}, Capture("client")
    wire = blocks(b"0123456789" * 4, 8)
    capture.put("client", read_request("boot.img", "octet", **sizes))
    capture.put("server", oack(**sizes))
    capture.put("client", ack(0))
    for at in range(0, len(wire), 4):
        capture.put("server", *wire[at : at + 4])
        capture.put("client", ack(min(at + 4, len(wire))))
    return capture


def long_read(size: int) -> Capture:
    """A read of so many bytes in blocks of 8,192."""
    sizes, capture = {"blksize": 8192}, Capture("client")
    capture.put("client", read_request("boot.img", "octet", **sizes))
    capture.put("server", oack(**sizes))
    capture.put("client", ack(0))
    for number, block in enumerate(blocks(bytes(size), 8192), 1):
        capture.put("server", block)
        capture.put("client", ack(number))
    return capture


def unasked(count: int) -> Capture:
    """A read whose OACK has so many options, of which none was asked for."""
    capture = Capture("client")
    capture.put("client", read_request("a", "octet"))
    capture.put("server", oack(**named(count)))
    return capture


def outputs(capture: Capture, line: str, file: bytes) -> dict[str, Output]:
    """What each command prints, and its status."""
    verdict = f"{line}\n".encode(), 0 if line.startswith("accepted") else 1
    by_command = outputs_of_refused(verdict) if verdict[1] else meaning_of(capture.text(), file).outputs(verdict)
    return {**by_command, "show": (b"".join(capture.rows), 0)}


def cases() -> Iterator[tuple[str, bytes, dict[str, Output]]]:
    """A name, a text and what each command prints of it."""
    told = [
        ("windows", windowed(), "accepted get octet blocks 6 bytes 40", b"0123456789" * 4),
        ("65 options", read_of_two_bytes(65), "accepted get octet blocks 1 bytes 2", b"hi"),
        ("120 options", read_of_two_bytes(120), "accepted get octet blocks 1 bytes 2", b"hi"),
        ("1,000 options", unasked(1_000), refusal(2, Rule.OPTION_NOT_REQUESTED), b""),
        ("10,000 options", unasked(10_000), refusal(2, Rule.OPTION_NOT_REQUESTED), b""),
    ]
    for name, capture, line, file in told:
        yield name, capture.text(), outputs(capture, line, file)


class Limits(Checks):
    """The runs of the program under limits of the system."""

    needs = (AUDIT,)

    def setUp(self) -> None:
        super().setUp()
        self.begin = self.least()

    def test_commands(self) -> None:
        for name, text, by_command in cases():
            self.try_case(name, text, by_command)

    def call(self, words: list[str], given: bytes, limit: int, size: int) -> tuple[bytes, int, bytes]:
        """What the program writes, its status (negative where a signal ended it), and what it writes of errors."""

        def begin() -> None:
            resource.setrlimit(limit, (size, size))

        done = subprocess.run([AUDIT.path, *words], input=given, capture_output=True, preexec_fn=begin, timeout=60)
        return done.stdout, done.returncode, done.stderr

    def starts(self, size: int) -> bool:
        """Whether the empty program ends as it should in so much memory: it is run without a word."""
        try:
            return self.call([], b"", resource.RLIMIT_AS, size)[1] == 2
        except OSError:
            return False

    def least(self) -> int:
        """The least memory, by steps, from which on the empty program starts."""
        return STEP + max(size for size in range(0, MUCH, STEP) if not self.starts(size))

    def may_want(self, command: str, rows: bytes, got: tuple[bytes, int, bytes]) -> bool:
        """Whether want of memory was said, behind lines of `show` or a part of a text, or nothing with its status."""
        written, status, errors = got
        said = written.removesuffix(MEMORY) if command not in SILENT else written
        return status == 2 and not errors and rows.startswith(said)

    def little_memory(self, name: str, command: str, text: bytes, output: Output) -> None:
        """Memory is raised until the answer is right, and it is then right twice in a row."""
        size, right = self.begin, 0
        while right < 2 and size < ENOUGH:
            got = self.call([command], text, resource.RLIMIT_AS, size)
            is_right = got == (*output, b"")
            rows = output[0] if command in ("show", "normal", "extract") else b""
            holds = is_right or self.may_want(command, rows, got)
            self.check(f"{command}, {name}, {size // 1024} KB of memory", holds, got[1:] + (got[0][-80:],))
            right, size = right + 1 if is_right else 0, size + STEP
        self.check(f"{command}, {name}, memory", right == 2, "is never enough")

    def test_long_file(self) -> None:
        """Where the room that is asked for ahead is refused, what is needed is enough."""
        text = long_read(LONG).text()
        got = self.call(["check"], text, resource.RLIMIT_AS, self.begin + SCARCE)
        line = b"accepted get octet blocks 245 bytes 2000000\n"
        self.check("check, a long file where memory is scarce", got == (line, 0, b""), got[1:] + (got[0][-80:],))

    def try_case(self, name: str, text: bytes, by_command: dict[str, Output]) -> None:
        for command in COMMANDS:
            got = self.call([command], text, resource.RLIMIT_STACK, STACK)
            self.check(f"{command}, {name}, little stack", got == (*by_command[command], b""), got[1:])
            self.little_memory(name, command, text, by_command[command])
