"""What tools/tftp-trial says of clients and servers, small ones of tests/small_ends.py and real ones: a lawful one is
never accused, whatever is disturbed, and one with a fault is. And its relay: the same seed disturbs alike, what is sent
on is what came, the legs are what the ends see, and what is written of them is read so.
"""
from __future__ import annotations

import contextlib
import re
import socket
import subprocess
import sys
import time
from collections import Counter
from collections.abc import Callable, Iterator, Sequence

from captures import EndName
from checks import Checks
from fuzzing import slow_reader
from loopback import named
from programs import AUDIT, TRANSFERS
from recorded import FIRST_TIME, Datagram
from refusals import Rule
from repository import TOP
from tftp_tools.recording import Accused, Recording, Row
from tftp_tools.relay import FATES, Endpoint, Fate, Fates, Odds, Relay, fates_by
from tftp_tools.trial import Run
from tftp_tools.tried import Leg, State, Tried, status_of, summed
from tftp_tools.written import Timed, pcapng

SCRIPT, ENDS = TOP / "tools" / "tftp-trial", TOP / "tests" / "small_ends.py"
PROGRAMS = "--program", AUDIT.path, "--transfers", TRANSFERS.path
LOOPBACK = "127.0.0.1"
TWO: tuple[EndName, ...] = ("client", "server")
CLIENT, SERVER = f"{sys.executable} {ENDS} client {{host}} {{port}} {{file}}", f"{sys.executable} {ENDS} server"
SERVER += " {host} {port} {folder}"
EVEN = Odds(0.1, 0.1, 0.1, 0.1)
NONE, ALL = ("0", "0", "0", "0"), ("0.08", "0.1", "0.05", "0.1")
BY = "--loss", "--repeat", "--delay", "--reorder"
HOLD = 0.4
LONGEST = 300
LINE = re.compile(r"seed (\d+) (refused|doubtful|not whole|accepted|nothing judged): (.*)")
HPA = "in.tftpd -L -c -u root -a {host}:{port} -s {folder}"
CURL = "curl", "-s", "-S", "--max-time", "10"


class Told:
    """What the script writes, what it writes as errors, and its status."""

    def __init__(self, *words: object, programs: Sequence[str] = PROGRAMS) -> None:
        done = subprocess.run(
            [sys.executable, SCRIPT, *programs, *map(str, words)], capture_output=True, text=True, timeout=LONGEST,
        )
        self.output, self.errors, self.status = done.stdout, done.stderr, done.returncode

    def lines(self) -> dict[int, tuple[str, str]]:
        """Of each seed in what it ended, and what is said of it."""
        found = (LINE.fullmatch(line) for line in self.output.splitlines())
        return {int(it[1]): (it[2], it[3]) for it in found if it}

    def states(self) -> list[str]:
        return [state for state, _ in self.lines().values()]

    def __repr__(self) -> str:
        return f"{self.status}\n{self.output}{self.errors}"


def disturbance(odds: Sequence[str]) -> list[str]:
    """The words for how likely each fate is."""
    return [word for pair in zip(BY, odds) for word in pair]


def trial(client: str, server: str, *words: object, odds: Sequence[str] = ALL) -> Told:
    """A trial of small ends; a client may be told by words with spaces."""
    return Told("--serve", server, *disturbance(odds), "--hold", HOLD, *words, "--", *client.split())


def seed_of(odds: Odds, wanted: Callable[[Fates], bool]) -> int:
    """The first seed of which something holds."""
    return next(seed for seed in range(1, 100_000) if wanted(fates_by(seed, odds)))


class Ends(Checks):
    """Trials of small ends."""

    needs = (AUDIT, TRANSFERS)

    def test_lawful(self) -> None:
        """Nobody is accused over many seeds, and each seed has its line."""
        told = trial(CLIENT, SERVER, "--seeds", 24, "--jobs", 8)
        self.check("lawful ends, status", (told.status, told.errors) == (0, ""), told)
        self.check("lawful ends, each seed", list(told.lines()) == list(range(1, 25)), told)
        self.check("lawful ends, nobody is accused", not {"refused", "nothing judged"} & {*told.states()}, told)
        self.check("lawful ends, most are accepted", told.states().count("accepted") > 12, told)
        disturbed = Counter[str]()
        for _, line in told.lines().values():
            disturbed.update({fate: int(count) for fate, count in re.findall(r"(\w+) (\d+)[,;]", line)})
        self.check("lawful ends, all is disturbed", all(disturbed[fate] > 5 for fate in FATES), disturbed)
        self.check("lawful ends, the sum", told.output.splitlines()[-1].startswith("24 seeds: "), told)

    def test_undisturbed(self) -> None:
        """Without trouble the file comes over, and the recordings are kept."""
        folder = self.folder / "kept"
        told = trial(CLIENT, SERVER, "--seed", 7, "--size", 1_300, "--folder", folder, odds=NONE)
        wanted = "get octet blocks 3 bytes 1300 at the client and the server; "
        wanted += "lost 0, repeated 0, delayed 0, reordered 0; the client ended with status 0"
        self.check("undisturbed, its line", told.lines() == {7: ("accepted", wanted)}, told)
        self.check("undisturbed, the sum", told.output.splitlines()[1:] == ["1 seed: 1 accepted"], told)
        both = [(folder / "seed-7" / place / "trial.bin").read_bytes() for place in ("client", "served")]
        self.check("undisturbed, the file", both[0] == both[1] and len(both[0]) == 1_300, both)
        kept = sorted(it.name for it in (folder / "seed-7").iterdir() if it.is_file())
        self.check("undisturbed, what is kept", kept == ["client.log", "client.pcapng", "server.log", "server.pcapng"])
        told = trial(CLIENT, SERVER, "--seed", 7, "--folder", folder, odds=NONE)
        self.check("undisturbed, the folder is there", told.status == 2 and "seed-7" in told.errors, told)

    def test_accused(self) -> None:
        """An end with a fault is accused, by its own leg, and it is told why; its other end is not."""
        for name, client, server, rule, role in (
            ("a client that is ahead", f"{CLIENT} ahead", SERVER, Rule.ACK_AHEAD, "client"),
            ("a server that is ahead", CLIENT, f"{SERVER} window", Rule.WINDOW_OVERRUN, "server"),
        ):
            told = trial(client, server, "--seeds", 2, odds=NONE)
            self.check(f"{name}, status", (told.status, told.errors, told.states()) == (1, "", ["refused"] * 2), told)
            for _, line in told.lines().values():
                begins = rf"rule {rule}, accused the {role} at 127\.0\.0\.1:\d+; lost 0, .*"
                self.check(f"{name}, its line", bool(re.fullmatch(begins, line)), told)
            headed = f"seed 1, at the {role}, transfer 1: refused datagram "
            self.check(f"{name}, why", headed in told.output and f"\nRule:     {rule}: " in told.output, told)
            self.check(f"{name}, once", told.output.count("\nAccused:  ") == 2, told)
            self.check(f"{name}, the sum", told.output.splitlines()[-1] == "2 seeds: 2 refused", told)

    def test_paths(self) -> None:
        """A client that is named by its path from where the call is made."""
        (self.folder / "client").write_text(f"#!/bin/sh\nexec {sys.executable} {ENDS} client \"$@\"\n")
        (self.folder / "client").chmod(0o755)
        words = [sys.executable, str(SCRIPT), *PROGRAMS, "--serve", SERVER, "--seed", "1", *disturbance(NONE), "--"]
        client = ["./client", "{host}", "{port}", "{file}"]
        done = subprocess.run([*words, *client], cwd=self.folder, capture_output=True, text=True, timeout=LONGEST)
        self.check("a client by its path", done.returncode == 0 and "seed 1 accepted: " in done.stdout, done)

    def test_disturbed(self) -> None:
        """A fault that shows only where a block comes twice: undisturbed nothing is refused."""
        client = f"{CLIENT} repeats"
        told = trial(client, SERVER, "--seeds", 2, odds=NONE)
        self.check("repeats, undisturbed", (told.status, told.states()) == (0, ["accepted"] * 2), told)
        odds = Odds(0, 0.2, 0, 0)
        seed = seed_of(odds, lambda fate: fate("client", 1) == "passed" and fate("server", 2) == "repeated")
        told = trial(client, SERVER, "--seed", seed, odds=("0", "0.2", "0", "0"))
        holds = told.status == 1 and f"rule {Rule.ACK_AHEAD}, accused the client" in told.output
        self.check("repeats, disturbed", holds, told)

    def test_others(self) -> None:
        """A client that hangs, that says nothing, or that cannot be started; a server that cannot, or that ends."""
        hangs = [sys.executable, "-c", "import time; time.sleep(60)", "{port}"]
        begun = time.monotonic()
        told = Told("--serve", SERVER, "--seeds", 2, "--timeout", 1, "--", *hangs)
        holds = told.status == 3 and told.states() == ["nothing judged"] * 2 and time.monotonic() - begun < 20
        self.check("a client that hangs", holds and "the client was ended after 1 s" in told.output, told)
        told = Told("--serve", SERVER, "--seed", 1, "--", "true", "{port}")
        line = "there is no transfer in 0 datagrams; lost 0, repeated 0, delayed 0, reordered 0; "
        line += "the client ended with status 0"
        holds = (told.status, told.lines()) == (3, {1: ("nothing judged", line)})
        self.check("a client that says nothing", holds, told)
        for name, server, client, says in (
            ("a client that is not there", SERVER, ["/nowhere/client", "{port}"], "cannot run '/nowhere/client'"),
            ("a server that is not there", "/nowhere/server", ["true", "{port}"], "cannot run '/nowhere/server'"),
            ("a server that ends", "sh -c 'echo no; exit 3'", ["true", "{port}"], "ended with status 3 before it"),
        ):
            told = Told("--serve", server, "--seed", 1, "--", *client)
            self.check(name, told.status == 2 and says in told.errors and told.output == "", told)

    def test_real(self) -> None:
        """Real ends, as far as they are installed."""
        for name, wanted, seeds, client in (
            ("curl", "curl", 4, [*CURL, "-o", "got", "tftp://{host}:{port}/{file}"]),
            ("tftp", "tftp", 4, ["tftp", "-4", "-m", "octet", "{host}", "{port}", "-c", "get", "{file}"]),
        ):
            if lacking := [it for it in (wanted, "in.tftpd") if not named(it)]:
                self.leave(f"{name} and tftpd-hpa", f"not installed: {', '.join(lacking)}")
                continue
            words = "--seeds", seeds, "--jobs", seeds, "--hold", HOLD, "--timeout", 40
            told = Told("--serve", HPA, *words, "--", *client)
            said = set(told.states())
            self.check(f"{name} and tftpd-hpa", told.errors == "" and "nothing judged" not in said, told)
            self.check(f"{name} and tftpd-hpa, some are accepted", "accepted" in said, told)
            self.check(f"{name} and tftpd-hpa, nobody is accused", "refused" not in said and told.status == 0, told)

    def test_fault_of_curl(self) -> None:
        """curl's write takes a repeated OACK for one of a new transfer, and sends other bytes as block 1."""
        if lacking := [it for it in ("curl", "in.tftpd") if not named(it)]:
            self.skipTest(f"not installed: {', '.join(lacking)}")
        odds = Odds(0, 0.2, 0, 0)
        seed = seed_of(odds, lambda fate: fate("client", 1) == "passed" and fate("server", 1) == "repeated")
        client = *CURL, "-T", "{upload}", "tftp://{host}:{port}/sent.bin"
        words = "--seed", seed, *disturbance(("0", "0.2", "0", "0")), "--timeout", 30
        told = Told("--serve", HPA, *words, "--", *client)
        holds = told.status == 1 and f"rule {Rule.BLOCK_CHANGED}, accused the client at 127.0.0.1:" in told.output
        self.check("curl's write, a repeated OACK", holds, told)

    def test_named_ports(self) -> None:
        """A server at the service port, that is started or runs already."""
        if not named("dnsmasq"):
            self.skipTest("not installed: dnsmasq")
        with contextlib.closing(socket.socket(socket.AF_INET, socket.SOCK_DGRAM)) as tried:
            try:
                tried.bind(("127.0.0.69", 69))
            except OSError as why:
                self.skipTest(f"nothing can listen at port 69 here: {why}")
        server = "dnsmasq --no-daemon --conf-file=/dev/null --port=0 --enable-tftp --tftp-root={folder}"
        server += " --listen-address={host} --bind-interfaces --user=root --group=root"
        words = "--seeds", 2, "--hold", HOLD, "--server", "127.0.0.69:69", *disturbance(ALL)
        told = Told("--serve", server, *words, "--", *CLIENT.split())
        self.check("dnsmasq", told.status == 0 and not {"nothing judged"} & {*told.states()}, told)


class Words(Checks):
    """Words that are refused before anything is started, whether or not there is a program."""

    def testdisturbance(self) -> None:
        told = Told("--help", programs=())
        self.check("tftp-trial --help", told.status == 0 and told.output.startswith("usage: tftp-trial"), told)
        client, serve = ("--", "true", "{port}"), ("--serve", "true")
        for words, says in (
            (("--serve", "true"), "required: CLIENT"),
            (client, "name a server, with --serve or --server"),
            ((*serve, "--seeds", "0", *client), "0 are none"),
            ((*serve, "--seed", "1", "--seeds", "2", *client), "not allowed with"),
            ((*serve, "--loss", "1.5", *client), "'1.5' is no number from 0 to 1"),
            ((*serve, "--loss", "0.6", "--repeat", "0.6", *client), "1 at most together"),
            ((*serve, "--hold", "nan", *client), "'nan' is no number of seconds"),
            ((*serve, "--", "true"), "have no {port}"),
            (("--server", "127.0.0.1", *client), "--server needs a port"),
            (("--server", "127.0.0.1:70000", *client), "is no address and port"),
            (("--server", "somewhere:69", *client), "is no address and port"),
            (("--server", "127.0.0.1:69", "--", "true", "{port}", "{file}"), "--file names a file"),
            (("--server", "[::1]:69", *client), "of one version of IP"),
            (("--server", "192.0.2.1:69", *client), "needs --beyond-loopback"),
            (("--listen", "192.0.2.1:69", *serve, *client), "needs --beyond-loopback"),
            (("--listen", "0.0.0.0:69", "--beyond-loopback", *serve, *client), "one address of this host"),
            ((*serve, "--file", "a/b", *client), "a name without a folder"),
            ((*serve, "--jobs", "2", "--listen", "127.0.0.1:6969", *client), "--jobs needs free ports"),
            (("--serve", "'", *client), "cannot be split into words"),
            (("--serve", " ", *client), "--serve has no words"),
        ):
            told = Told(*words, programs=("--program", "/nowhere", "--transfers", "/nowhere"))
            self.check(f"{words}", told.status == 2 and says in told.errors and told.output == "", told)


def tried(client: Sequence[Row], server: Sequence[Row]) -> Tried:
    """A seed whose legs have these rows; the relay's ports are 1 towards the client and 2 towards the server."""
    behind = {Endpoint(LOOPBACK, 1): Endpoint(LOOPBACK, 69), Endpoint(LOOPBACK, 2): Endpoint(LOOPBACK, 40_000)}
    recording = Recording("-", b"", (), "", "")
    legs = Leg("client", recording, tuple(client)), Leg("server", recording, tuple(server))
    return Tried(Run(1, {}, {}, "the client ended with status 0", Counter(), behind), legs)


class States(Checks):
    """What is said of rows, whatever program they are of."""

    def test_states(self) -> None:
        """The worst of all transfers on both legs; a doubt accuses nobody."""
        refused = f"refused datagram 3 rule {Rule.ACK_AHEAD}"
        accepted = Row(1, "client", "accepted get octet blocks 1 bytes 2", ())
        late = Row(2, "client", "incomplete after 1", ())
        doubtful = Row(3, "client", refused, ("a reason",), 7)
        accusing = Row(4, "client", refused, (), 7, Accused("client", LOOPBACK, 40_000))
        cases: tuple[tuple[State, list[Row], list[Row]], ...] = (
            (State.NOTHING, [], []), (State.ACCEPTED, [accepted], [accepted]), (State.ACCEPTED, [], [accepted]),
            (State.UNFINISHED, [accepted, late], [accepted]), (State.UNFINISHED, [accepted], [late]),
            (State.DOUBTFUL, [accepted], [late, doubtful]), (State.REFUSED, [doubtful, accusing], [accepted]),
        )
        for state, client, server in cases:
            got = tried(client, server)
            self.check(f"{state.value}, {len(client)} and {len(server)}", got.state() is state, got.line())
            self.check(f"{state.value}, its line", got.line().startswith(f"seed 1 {state.value}: "), got.line())
        self.check("a doubt accuses nobody", tried([doubtful], []).accused() == [])
        self.check("a doubt is told", [row for _, row in tried([doubtful], [accepted]).explained()] == [doubtful])

    def test_accused(self) -> None:
        """An end is accused once, by its own leg where that does it, and is named as it is behind the relay."""
        refused = f"refused datagram 3 rule {Rule.ACK_AHEAD}"
        own = Row(1, "client", refused, (), 7, Accused("client", LOOPBACK, 40_000))
        other = Row(1, "server", refused, (), 5, Accused("client", LOOPBACK, 2))
        words = f"rule {Rule.ACK_AHEAD}, accused the client at {LOOPBACK}:40000"
        self.check("by both legs", tried([own], [other]).says() == words, tried([own], [other]).says())
        got = tried([], [other]).says()
        self.check("by the other leg", got == f"{words}, by the server's leg", got)
        server = Row(2, "client", refused, (), 7, Accused("server", LOOPBACK, 1))
        its_own = Row(2, "server", refused, (), 5, Accused("server", LOOPBACK, 69))
        got = tried([server], [its_own]).says()
        told = f"rule {Rule.ACK_AHEAD}, accused the server at {LOOPBACK}:69"
        self.check("the server, by both legs", got == told, got)
        got = tried([own, server], [other]).says()
        told = f"{words}; rule {Rule.ACK_AHEAD}, accused the server at {LOOPBACK}:69, by the client's leg"
        self.check("both ends", got == told, got)

    def test_status(self) -> None:
        for status, states in (
            (0, [State.ACCEPTED]), (0, [State.ACCEPTED, State.UNFINISHED, State.DOUBTFUL]),
            (1, [State.ACCEPTED, State.REFUSED]), (1, [State.NOTHING, State.REFUSED]),
            (3, [State.ACCEPTED, State.NOTHING]), (3, [State.NOTHING]),
        ):
            self.check(f"status of {states}", status_of(states) == status)
        got = summed([State.ACCEPTED, State.REFUSED, State.ACCEPTED])
        self.check("the sum", got == "3 seeds: 2 accepted, 1 refused", got)


class Decisions(Checks):
    """What becomes of datagrams, by the seed."""

    def test_fates(self) -> None:
        """The same seed and place, the same fate, in whatever order they are asked; another seed, others."""
        places = [(end, at) for end in TWO for at in range(1, 2_001)]
        first = {place: fates_by(5, EVEN)(*place) for place in places}
        again = {place: fates_by(5, EVEN)(*place) for place in reversed(places)}
        self.check("the same seed", first == again)
        other = {place: fates_by(6, EVEN)(*place) for place in places}
        self.check("another seed", sum(first[it] != other[it] for it in places) > 1_000)
        ways = [[first[end, at] for at in range(1, 2_001)] for end in TWO]
        self.check("both ends differ", ways[0] != ways[1])
        shares = Counter(first.values())
        for fate in FATES:
            self.check(f"how many are {fate}", 300 < shares[fate] < 500, shares)

    def test_odds(self) -> None:
        """What is sure, and what is never."""
        for place, fate in enumerate(FATES):
            one = fates_by(3, Odds(*(float(at == place) for at in range(4))))
            self.check(f"all are {fate}", {one("client", at) for at in range(1, 200)} == {fate})
        never = fates_by(3, Odds(0, 0, 0, 0))
        self.check("all pass", {never("server", at) for at in range(1, 200)} == {"passed"})


def fates(**wanted: Fate) -> Fates:
    """Fates by names as client_2."""
    return lambda sender, place: wanted.get(f"{sender}_{place}", "passed")


def socket_at(port: int = 0) -> socket.socket:
    made = socket.socket(socket.AF_INET, socket.SOCK_DGRAM)
    made.bind((LOOPBACK, port))
    made.settimeout(2)
    return made


class Wires(Checks):
    """The relay between sockets of this test."""

    @contextlib.contextmanager
    def between(self, fates: Fates, hold: float = 0.3) -> Iterator[tuple[Relay, socket.socket, socket.socket]]:
        """A relay, a client's socket, and that of a server's service port."""
        with socket_at() as client, socket_at() as server:
            with Relay(Endpoint(LOOPBACK, 0), Endpoint(*server.getsockname()), fates, hold) as relay:
                yield relay, client, server

    def came(self, end: socket.socket, most: int = 1) -> list[bytes]:
        """What comes to a socket, in its order, until nothing does for a while."""
        found = list[bytes]()
        end.settimeout(0.6)
        with contextlib.suppress(socket.timeout):
            while len(found) < most:
                found.append(end.recv(2_000))
        return found

    def test_ports(self) -> None:
        """Each client has a port of its own towards the server, and each port of the server one towards the clients;
        what passes is unchanged, and the legs have what each end sent and got."""
        with self.between(fates()) as (relay, client, server), socket_at() as other, socket_at() as second:
            client.sendto(b"one", relay.listens)
            payload, from_client = server.recvfrom(2_000)
            other.sendto(b"", relay.listens)
            nothing, from_other = server.recvfrom(2_000)
            self.check("a port for each client", (payload, nothing) == (b"one", b"") and from_client != from_other)
            server.sendto(b"from the service port", from_client)
            got, at_service = client.recvfrom(2_000)
            self.check("the service port", (got, at_service) == (b"from the service port", relay.listens), at_service)
            second.sendto(bytes(range(256)), from_client)
            got, at_second = client.recvfrom(2_000)
            self.check("another port", got == bytes(range(256)) and at_second not in (relay.listens, from_client))
            client.sendto(b"back", at_second)
            got, again = second.recvfrom(2_000)
            self.check("the way back", (got, again) == (b"back", from_client), again)

    def test_legs(self) -> None:
        """The legs have each datagram that passed at its end, and no other."""
        with self.between(fates(client_1="lost", client_2="repeated", server_1="repeated")) as (relay, client, server):
            c, s, at = (Endpoint(*it) for it in (client.getsockname(), server.getsockname(), relay.listens))
            for payload in (b"lost", b"twice"):
                client.sendto(payload, relay.listens)
            self.check("repeated once, lost once", self.came(server, 3) == [b"twice"] * 2)
            r = next(side.at for side in relay.sides.values() if side.faces == "server")
            server.sendto(b"back", r)
            self.check("repeated back", self.came(client, 3) == [b"back"] * 2)
        wanted: dict[EndName, list[Datagram]] = {
            "client": [Datagram(*c, *at, b"lost"), Datagram(*c, *at, b"twice"), *[Datagram(*at, *c, b"back")] * 2],
            "server": [*[Datagram(*r, *s, b"twice")] * 2, Datagram(*s, *r, b"back")],
        }
        for end, passed in wanted.items():
            got = [it.datagram for it in relay.legs[end]]
            self.check(f"the leg at the {end}", got == passed, got)
            times = [it.time for it in relay.legs[end]]
            self.check(f"the times at the {end}", times == sorted(times) and abs(times[0] / 1e9 - time.time()) < 60)
        counted = {fate: relay.tally[fate] for fate in FATES}
        self.check("what was disturbed", counted == {"lost": 1, "repeated": 2, "delayed": 0, "reordered": 0}, counted)

    def test_order_at_ports(self) -> None:
        """What an end sends to several ports of the relay is written down in the order in which it sent it."""
        with self.between(fates()) as (relay, client, server), socket_at() as second:
            client.sendto(b"a request", relay.listens)
            _, from_client = server.recvfrom(2_000)
            second.sendto(b"from elsewhere", from_client)
            _, at_second = client.recvfrom(2_000)
            payloads = [b"%d" % number for number in range(2_000)]
            for number, payload in enumerate(payloads):
                client.sendto(payload, at_second if number % 3 else relay.listens)
                while number > relay.count["client"] + 50:
                    time.sleep(0.001)
            relay.wait_until_quiet(0.3, 10)
        passed = [it.datagram.payload for it in relay.legs["client"]][2:]
        wrong = next((pair for pair in zip(passed, payloads) if pair[0] != pair[1]), len(passed))
        self.check("in the order of its sender", passed == payloads, wrong)

    def test_missed(self) -> None:
        """What the relay had no room for is counted, and stands in the recording as lost by the recorder."""
        def slow_at_first(_: EndName, place: int) -> Fate:
            time.sleep(0.5 if place == 1 else 0)
            return "lost"

        with self.between(slow_at_first) as (relay, client, _):
            for _ in range(20_000):
                client.sendto(bytes(1_000), relay.listens)
            relay.wait_until_quiet(1, 10)
            count = relay.count["client"]
        self.check("what is missing is counted", relay.missed["client"] == 20_000 - count > 0, (relay.missed, count))
        self.check("nothing is missing of the server", relay.missed["server"] == 0, relay.missed)
        listed = slow_reader.listing(pcapng(relay.legs["client"], b"a test", relay.missed["client"]))
        self.check("the recording tells it", listed.lost == relay.missed["client"], listed.lost)

    def test_order(self) -> None:
        """What is reordered comes behind the next of its sender, or a little later where none comes; what is delayed
        comes when its time is over."""
        later = fates(client_1="reordered", client_4="delayed", client_6="reordered")
        with self.between(later) as (relay, client, server):
            for payload in (b"1", b"2", b"3", b"4", b"5", b"6"):
                client.sendto(payload, relay.listens)
            got = self.came(server, 6)
            self.check("the order", got == [b"2", b"1", b"3", b"5", b"6", b"4"], got)
            relay.wait_until_quiet(0.2, 5)
            self.check("nothing is held", relay.held == [])


class Written(Checks):
    """What is written of a leg."""

    def test_written(self) -> None:
        """A slow reader reads each datagram, with its time, and with checksums that are right."""
        for version, hosts in ((4, ("192.0.2.7", "127.0.0.1")), (6, ("2001:db8::7", "::1"))):
            contents = (b"", b"\0", bytes(range(256)) * 5, b"\xff" * 65_400)
            ends = hosts[0], 1, hosts[1], 65_535
            passed = [Timed(FIRST_TIME + 7 * at, Datagram(*ends, it)) for at, it in enumerate(contents)]
            listed = slow_reader.listing(pcapng(passed, b"a test"))
            wanted = [
                f"datagram {at + 1} {it.time} unknown {' '.join(map(str, ends))} {it.datagram.payload.hex() or '-'}"
                for at, it in enumerate(passed)
            ]
            self.check(f"IPv{version}, each datagram", listed.rows == wanted, [row[:120] for row in listed.rows])
            rest = listed.left, listed.fault, listed.damaged, listed.lost, listed.sums
            self.check(f"IPv{version}, nothing else", rest == ([], "", [], 0, []), rest)
