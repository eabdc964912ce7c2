"""Which datagrams of a recording are one transfer: the definition of audit_flows, in one
pass, a second, slow reading with which the proved one is compared. A transfer is known by how many datagrams came
before the request that opened it."""
from __future__ import annotations

from collections.abc import Iterable, Iterator
from dataclasses import dataclass, field
from typing import Literal, NamedTuple, Optional

EndName = Literal["client", "server"]
# Where a recording was made.
Place = Literal["client", "server", "between"]
# In nanoseconds; above 255 s, the longest timeout that two ends can agree on (RFC 2349).
SILENCE = 300 * 10**9
TFTP = 69
ACK_0, DATA_1, ERROR_5 = b"\0\4\0\0", b"\0\3\0\1", b"\0\5\0\5"
MODES = (b"octet", b"netascii", b"mail")
# What may have been, where a request did not pass.
UNSEEN = "its client may have asked again, by a request that did not pass here"


class Endpoint(NamedTuple):
    """A host and a port of UDP."""

    host: str
    port: int

    def told(self) -> str:
        return f"[{self.host}]:{self.port}" if ":" in self.host else f"{self.host}:{self.port}"


class Datagram(NamedTuple):
    number: int
    time: float
    source: Endpoint
    target: Endpoint
    payload: bytes

    def nanoseconds(self) -> int:
        return round(self.time * 1e9)

    def way(self) -> tuple[Endpoint, Endpoint, bytes]:
        return self.source, self.target, self.payload


def begins(payload: bytes, *opcodes: int) -> bool:
    return payload[:1] == b"\0" and payload[1:2] != b"" and payload[1] in opcodes


def spells_request(payload: bytes) -> bool:
    """Whether it is a request from its first byte to its last."""
    words = payload[2:].split(b"\0")
    has_form = len(words) % 2 == 1 and len(words) > 2 and words[-1] == b""
    names = [name.lower() for name in words[2:-1:2]]
    has_names = b"" not in names and len(set(names)) == len(names)
    return begins(payload, 1, 2) and has_form and has_names and words[1].lower() in MODES


def is_answer(payload: bytes) -> bool:
    return begins(payload, 5, 6) or payload == ACK_0 or payload[:4] == DATA_1


def asked_part(payload: bytes) -> bytes:
    """Of a request the side and the file's name."""
    return payload[:2] + payload[2:].split(b"\0")[0]


def asks_alike(before: Datagram, now: Datagram) -> bool:
    """Whether a request asks for the same file as the one before, of the same server."""
    return before.target == now.target and asked_part(before.payload) == asked_part(now.payload)


def begins_packet(payload: bytes) -> bool:
    return begins(payload, 1, 2, 3, 4, 5, 6)


def is_block(payload: bytes) -> bool:
    return begins(payload, 3) and int.from_bytes(payload[2:4], "big") > 0 and len(payload) >= 4


def is_ack(payload: bytes) -> bool:
    return begins(payload, 4) and len(payload) == 4


def number_of(payload: bytes) -> int:
    """The number of a block or an ACK, and 0 of anything else."""
    return int.from_bytes(payload[2:4], "big") if is_block(payload) or is_ack(payload) else 0


def passes_in(writes: bool, is_client: bool, payload: bytes) -> bool:
    """Whether this end of such a transfer sends it."""
    sends_blocks = is_client == writes
    if is_block(payload):
        return sends_blocks
    if is_ack(payload):
        return not sends_blocks
    return begins(payload, 5) or begins(payload, 6) and not is_client


def refuses(payload: bytes) -> bool:
    """Whether it is an ERROR that may answer a request: ERROR 0 may answer anything, and ERROR 5 what comes late."""
    return begins(payload, 5) and int.from_bytes(payload[2:4], "big") not in (0, 5) and len(payload) >= 4


class Doubt(NamedTuple):
    """Of refusals of a transfer from this datagram on, and why."""

    since: int
    word: Literal["late", "disordered", "again", "apart", "strays", "unanswered"]
    why: str


@dataclass
class Transfer:
    number: int
    client: Endpoint
    asked: Endpoint
    seen: list[Datagram] = field(default_factory=list)
    requests: set[int] = field(default_factory=set)
    beside: list[tuple[Datagram, Endpoint]] = field(default_factory=list)
    answered: Optional[Endpoint] = None
    went_on: Optional[Endpoint] = None
    # the greatest time of what passed at the client, whether something came to it, and whether something is out of
    # order
    newest: int = 0
    is_answered: bool = False
    is_left_out: bool = False
    # whether its client asked more than once, for it or before it, since it was last silent
    has_asked_more: bool = False
    # whether the client went on with who first sent it something, and by more than an ERROR; and those that it sent to
    # where nothing had passed
    is_followed: bool = False
    is_followed_by_more: bool = False
    spoken_first: set[int] = field(default_factory=set)
    # what may be its client's first word to an answer that came before the recording began
    first_words: set[int] = field(default_factory=set)
    # what its client and others said to each other in the line, and how much of that stood before each of its datagrams
    said: list[tuple[Datagram, Transfer]] = field(default_factory=list)
    stood: dict[int, int] = field(default_factory=dict)
    doubts: list[Doubt] = field(default_factory=list)

    def server(self) -> Optional[Endpoint]:
        return self.went_on or self.answered

    def is_with_server(self, it: Datagram) -> bool:
        """Whether it passed with the server's port, at a host that was asked, that answered, or that the client went on
        with."""
        server, other = self.server(), it.target if it.source == self.client else it.source
        hosts = {end.host for end in (self.asked, self.answered, self.went_on) if end}
        return server is not None and other.port == server.port and other.host in hosts

    def view(self, end: EndName) -> list[Datagram]:
        if end == "client":
            return self.seen
        own = [
            it for it in self.seen
            if it.number in self.requests or it.target == self.asked or self.is_with_server(it)
        ]
        return sorted(own + [it for it, at in self.beside if at == self.server()])

    def talked(self) -> Iterator[Datagram]:
        """What passed at the client but its requests."""
        return (it for it in self.seen if it.number not in self.requests)

    def all_seen(self) -> list[Datagram]:
        return [*self.seen, *(it for it, _ in self.beside)]

    def writes(self) -> bool:
        return begins(self.seen[0].payload, 2)

    def writes_by(self, it: Datagram) -> bool:
        """Whether a file is written by it; what is no block and no ACK is of its transfer's side."""
        if is_block(it.payload):
            return it.source == self.client
        return it.source != self.client if is_ack(it.payload) else self.writes()

    def has_window(self) -> bool:
        return b"windowsize" in self.seen[0].payload.lower().split(b"\0")

    def is_refusal(self, it: Datagram) -> bool:
        """Whether the host that was asked refuses the request by it."""
        return it.target == self.client and it.source.host == self.asked.host and refuses(it.payload)

    # ---- what may be late from an earlier transfer between the same two

    def before_talk(self, it: Datagram) -> list[tuple[Datagram, Transfer]]:
        """What its two ends said to each other up to the newest datagram of another transfer."""
        two = {it.source, it.target}
        talk = [(one, of) for one, of in self.said[: self.stood[it.number]] if {one.source, one.target} == two]
        while talk and talk[-1][1] is self:
            talk.pop()
        return talk

    def may_be_earlier(self, it: Datagram) -> bool:
        if it.number not in self.stood:
            return False
        is_client, number = it.source == self.client, number_of(it.payload)
        return any(
            passes_in(of.writes_by(one), is_client, it.payload)
            and (of.has_window() or number <= number_of(one.payload) + 1)
            for one, of in self.before_talk(it)
        )

    def rests_on_terms(self, it: Datagram) -> bool:
        is_its_own = passes_in(self.writes(), it.source == self.client, it.payload)
        return is_its_own and (is_block(it.payload) or it.payload == ACK_0)

    def comes_of_earlier(self, it: Datagram) -> bool:
        agrees_late = any(
            begins(one.payload, 6) and self.may_be_earlier(one) for one in self.talked() if one.number <= it.number
        )
        return self.may_be_earlier(it) or agrees_late and self.rests_on_terms(it)

    def follows_unknown_id(self, it: Datagram) -> bool:
        """Whether an ERROR 5 had passed between its two ends."""
        two, before = {it.source, it.target}, self.said[: self.stood.get(it.number, 0)]
        return any(one.payload[:4] == ERROR_5 and {one.source, one.target} == two for one, _ in before)

    def says_first(self, it: Datagram) -> bool:
        """Whether a client may say this first to who has answered it."""
        return passes_in(self.writes(), True, it.payload) and number_of(it.payload) <= 1

    def tells_strays(self, it: Datagram) -> bool:
        """Whether it is an ERROR 5, or an ERROR after one."""
        before = any(one.payload[:4] == ERROR_5 for one in self.talked() if one.number < it.number)
        return it.payload[:4] == ERROR_5 or begins(it.payload, 5) and before

    def is_turned_away(self, number: int) -> bool:
        """Whether by then something had come to its client, which had asked before, and went on by an ERROR alone."""
        is_by_error = self.has_asked_more and self.is_followed and not self.is_followed_by_more
        return is_by_error and any(it.target == self.client and it.number <= number for it in self.talked())

    def doubts_at(self, place: Place, number: int) -> list[str]:
        """Why a refusal at this datagram is no accusation there."""
        it = next(it for it in self.all_seen() if it.number == number)
        told = [doubt.why for doubt in self.doubts if doubt.since <= number]
        is_own = place == "client" and it.source == self.client
        if it in self.seen and not is_own and self.comes_of_earlier(it):
            told.append("it may come of an earlier transfer between the same two ports")
        if not self.is_followed and any(it.target == self.client and it.number <= number for it in self.talked()):
            told.append("its client did not go on with who first sent it something")
        if self.is_turned_away(number):
            told.append("its client had asked before, and sent an ERROR alone to who first sent it something")
        if self.tells_strays(it):
            told.append("ERROR 5 may answer what came late")
        if place == "between" and self.follows_unknown_id(it):
            told.append(UNSEEN)
        if any(at <= number for at in self.first_words):
            told.append("its client spoke before anything came to it: the recording began later, it may be")
        if place == "server" and number in self.spoken_first:
            told.append("nothing had passed there between the two")
        if not self.is_answered and number != self.seen[0].number:
            told.append("nothing that came to its client is there: one direction only")
        if self.is_left_out:
            told.append("a frame is out of order, and by its time may be of this transfer")
        if any(it.number == number and it.source != self.client and not self.is_with_server(it) for it in self.seen):
            told.append("neither its client nor its server sent the datagram")
        if place == "server" and any(it.number == number for it, _ in self.beside):
            told.append("it passed with another than the client, whose request may not have been recorded")
        ways = [it.way() for it in self.seen]
        pairs = zip(ways, [None, *ways], [*ways[1:], None])
        if len(ways) > 1 and all(way in (before, after) for way, before, after in pairs):
            told.append("each of its datagrams stands beside its equal: recorded twice")
        return told


@dataclass
class Talk:
    """Of a client's endpoint with another: the transfer, if it is of one, and whether the client last said ACK 0."""

    transfer: Optional[Transfer]
    acked_0: bool = False


@dataclass
class Line:
    """What passed at a client's endpoint since it was last silent."""

    latest: Transfer
    moment: int
    request: Datagram
    ends_in_request: bool = True
    only_asked: bool = True
    # with whom something else passed than requests, ERROR 0 and ERROR 5
    spoken: set[Endpoint] = field(default_factory=set)
    # whether the latest request was answered for sure, and whether one was left before it was
    is_answered: bool = False
    left_unanswered: bool = False
    talks: dict[Endpoint, Talk] = field(default_factory=dict)
    said: list[tuple[Datagram, Transfer]] = field(default_factory=list)

    def note_word(self, other: Endpoint, it: Datagram) -> None:
        if not begins(it.payload, 5) or refuses(it.payload):
            self.spoken.add(other)


class Found(NamedTuple):
    """Where a datagram belongs, and the number of its transfer, if it is of one."""

    kind: Literal["request", "client", "apart", "server", "nowhere"]
    transfer: Optional[int] = None


class Attribution:
    def __init__(self, named: Iterable[int] = ()) -> None:
        self.named = {TFTP, *named}
        # and the ports to which a request went
        self.services = set(self.named)
        self.clock, self.count = 0, 0
        # the last datagram's time, and the greatest that two in a row have reached
        self.last, self.reached = 0, 0
        # of what is of no transfer the greatest time at each endpoint, and the newest transfer of each client
        self.left_out: dict[Endpoint, int] = {}
        self.newest: dict[Endpoint, Transfer] = {}
        self.lines: dict[Endpoint, Line] = {}
        self.loose: dict[Endpoint, int] = {}
        self.served: dict[Endpoint, tuple[Transfer, int]] = {}
        self.transfers: list[Transfer] = []
        self.places: list[Found] = []

    def take(self, it: Datagram) -> None:
        self.clock = max(self.clock, it.nanoseconds())
        self.reached = max(self.reached, min(self.last, it.nanoseconds()))
        self.last = it.nanoseconds()
        self.places.append(self.place_of(it))
        self.count += 1
        if self.places[-1].kind == "nowhere":
            self.leave_out(it)

    def leave_out(self, it: Datagram) -> None:
        """By its time it may be of its client's newest transfer, or of one that is asked for behind it."""
        for end in (it.source, it.target):
            one = self.newest.get(end)
            if one and max(it.nanoseconds(), self.reached) <= one.newest + SILENCE:
                one.is_left_out = True
            if begins_packet(it.payload):
                self.left_out[end] = max(self.left_out.get(end, 0), it.nanoseconds())

    def line(self, client: Endpoint) -> Optional[Line]:
        line = self.lines.get(client)
        return line if line and self.clock <= line.moment + SILENCE else None

    def place_of(self, it: Datagram) -> Found:
        if self.asks(it):
            one = self.asked(it)
            self.keep(one, it)
            one.requests.add(it.number)
            return Found("request", one.number)
        place = self.at_client(it)
        if place:
            return place
        if begins_packet(it.payload) or it.target.port == TFTP:
            self.loose[it.source] = self.loose[it.target] = self.clock
        return self.beside(it) or Found("nowhere")

    def keep(self, one: Transfer, it: Datagram) -> None:
        if it.nanoseconds() < (one.newest if one.seen else self.clock):
            one.doubts.append(Doubt(0, "disordered", "its datagrams are not in the order of their times"))
        one.newest = max(one.newest, it.nanoseconds())
        one.is_answered |= it.target == one.client
        one.seen.append(it)

    def asks(self, it: Datagram) -> bool:
        if not begins(it.payload, 1, 2):
            return False
        if it.target.port in self.named:
            return True
        line = self.line(it.source)
        is_found = spells_request(it.payload) and not (line and it.target in line.talks)
        return not self.line(it.target) and (it.target.port in self.services or is_found)

    def asked(self, it: Datagram) -> Transfer:
        self.services.add(it.target.port)
        line = self.line(it.source)
        if line and line.ends_in_request and line.request.way() == it.way():
            line.moment, line.latest.has_asked_more = self.clock, True
            return line.latest
        one = Transfer(self.count, it.source, it.target, has_asked_more=line is not None)
        one.is_left_out = self.left_out.get(it.source, 0) > it.nanoseconds()
        self.newest[it.source] = one
        self.transfers.append(one)
        if self.clock <= self.loose.get(it.source, -2 * SILENCE) + SILENCE:
            one.doubts.append(Doubt(0, "strays", "something of no transfer had passed at its client's endpoint"))
        if line is None:
            self.lines[it.source] = Line(one, self.clock, it)
            return one
        line.left_unanswered |= line.latest.answered is None or not line.is_answered
        if line.left_unanswered:
            why = "what its client had asked was not answered for sure: who it asked may still answer"
            one.doubts.append(Doubt(0, "unanswered", why))
        if line.only_asked and asks_alike(line.request, it):
            why = "its client had asked the same and sent nothing else since: the transfer before goes on"
            one.doubts.append(Doubt(0, "again", why))
        line.latest, line.moment, line.request = one, self.clock, it
        line.ends_in_request = line.only_asked = True
        line.is_answered = False
        return one

    def at_client(self, it: Datagram) -> Optional[Found]:
        """At the client that sent it or else at the one that it was sent to; a transfer comes before what is apart."""
        apart: list[tuple[Line, Endpoint]] = []
        for client, other in ((it.source, it.target), (it.target, it.source)):
            line = self.line(client)
            if line:
                talk = self.talk_with(line, client, other, it)
                if talk.transfer:
                    return self.go_on(line, client, other, talk, it)
                apart.append((line, other))
        if not apart:
            return None
        line, other = apart[0]
        line.talks.setdefault(other, Talk(None))
        line.note_word(other, it)
        line.moment = self.clock
        if other == it.target:
            line.talks[other].acked_0 = it.payload == ACK_0
        return Found("apart")

    def talk_with(self, line: Line, client: Endpoint, other: Endpoint, it: Datagram) -> Talk:
        latest, talk = line.latest, line.talks.get(other)
        if talk is None:
            hosts = {latest.asked.host, latest.answered.host if latest.answered else ""}
            return Talk(None if it.source == client and other.host not in hosts else latest)
        may_answer = latest.answered is None and it.source == other and it.target == client and is_answer(it.payload)
        if talk.transfer is None or talk.transfer is latest or not may_answer:
            return talk
        if talk.acked_0 and it.payload[:4] == DATA_1:
            why = "a DATA 1 from where an earlier transfer was served may be its answer"
            latest.doubts.append(Doubt(0, "apart", why))
            return talk
        return Talk(latest, talk.acked_0)

    def go_on(self, line: Line, client: Endpoint, other: Endpoint, talk: Talk, it: Datagram) -> Optional[Found]:
        one = talk.transfer
        if one is None:
            return None
        if it.source == client and other not in line.talks:
            one.spoken_first.add(it.number)
        if it.source == client and line.only_asked and other not in line.spoken and one.says_first(it):
            one.first_words.add(it.number)
        line.note_word(other, it)
        one.said, one.stood[it.number] = line.said, len(line.said)
        line.said.append((it, one))
        line.talks[other], line.moment, line.ends_in_request = talk, self.clock, False
        if one is not line.latest:
            one.doubts.append(Doubt(it.number, "late", "its client's endpoint had asked again"))
        if it.source == other:
            one.answered = one.answered or other
            self.served[other] = one, self.clock
        says_more = it.source == client and not begins(it.payload, 5)
        line.is_answered |= one is line.latest and (says_more or one.is_refusal(it))
        if it.source == client:
            talk.acked_0 = it.payload == ACK_0
            is_followed = it.payload[:4] != ERROR_5 and one is line.latest and one.answered == other
            one.is_followed |= is_followed
            one.is_followed_by_more |= is_followed and not begins(it.payload, 5)
            if says_more:
                line.only_asked = False
                one.went_on = one.went_on or other
        self.keep(one, it)
        return Found("client", one.number)

    def beside(self, it: Datagram) -> Optional[Found]:
        for at in (it.source, it.target):
            one, moment = self.served.get(at, (None, 0))
            if one and at.port not in self.services and self.clock <= moment + SILENCE:
                one.beside.append((it, at))
                return Found("server", one.number)
        return None


def attributed(recording: Iterable[Datagram], named: Iterable[int] = ()) -> Attribution:
    rule = Attribution(named)
    for it in recording:
        rule.take(it)
    return rule
