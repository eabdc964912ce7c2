"""The 27 rules: what each is called, what it says, whose it is, and what usually breaks it. `tools/tables` writes from
here the tables of docs/VERDICTS.md and of the plugin of Wireshark, and on the pages the name of a rule by its number.
"""
from __future__ import annotations

import enum
from dataclasses import dataclass

PROFILE = "this project's profile"


class Rule(enum.Enum):
    """A rule: its number, the name that the programs print, and its words. Scripts and tests name it as it is named
    here, which need not be what is printed."""

    FOREIGN_PORT = (
        1, "ForeignPort", "each datagram of a capture is at the transfer's port of the named end, and at the service"
        " port it is the client's", "RFC 1350, section 4, and this project's premise that a capture has one transfer",
        "another transfer stands in the capture: another client's request, or at the server a second answer from"
        " another port, where it took a repeated request for a new one",
    )
    WRONG_PORT = (
        2, "WrongPort", "requests go to the service port of one host, and everything else to where something came"
        " from", "RFC 1350, section 4",
        "a client that goes on with the service port, though the server answered from another one; a client that goes"
        " on with the host that it asked, though another address of the server answered (tftp-hpa 5.2, GNU inetutils);"
        " or a datagram of something else in the capture",
    )
    STRAY_ANSWER = (
        3, "StrayAnswer", "what goes to an endpoint other than the two of the transfer is ERROR 5", "RFC 1350,"
        " section 4",
        "a client that answers both ports of a server that has answered twice, or an ERROR with another code, or"
        " without its last zero byte (Apache Commons Net)",
    )
    NO_REQUEST = (
        4, "NoRequest", "a capture begins with the client's request", "this project's premise that a capture has the"
        " whole transfer",
        "the recording was begun after the request, or a filter has left the request out",
    )
    MALFORMED = (
        5, "Malformed", "each payload of the transfer spells a packet", "RFC 1350, section 5, and RFC 2347; that option"
        " names are not empty and differ, and that mode mail is refused, is this project's profile",
        "by the fault, below: the most frequent is an ERROR without its last zero byte (curl, Apache Commons Net)",
    )
    WRONG_KIND = (
        6, "WrongKind", "the client of a read sends ACKs, of a write DATA, and the server the other, and never a"
        " request", "RFC 1350, sections 2 and 4, and RFC 2347",
        "datagrams of two transfers in one capture, or a wrong end in its header",
    )
    AFTER_ERROR = (
        7, "AfterError", "an ERROR is the last that an end says, though it may say it again", "RFC 1350, section 7",
        "a client that uses one port for several transfers, of which the first ended by an ERROR; or an end that goes"
        " on after it gave up",
    )
    REQUEST_CHANGED = (
        8, "RequestChanged", "a request that is repeated says the same", "this project's premise that a capture has"
        " one transfer",
        "a client that asks for several files from one port (tftp in one session, boot loaders), or asks again without"
        " options",
    )
    REQUEST_AFTER_START = (
        9, "RequestAfterStart", "a client that has gone on does not ask again", "this project's premise that a capture"
        " has one transfer",
        "a client that asks for the same file again from the same port; or a recording that was made elsewhere than at"
        " the client, where a repeated request came by late",
    )
    REPLY_CHANGED = (
        10, "ReplyChanged", "the first answer tells whether options were agreed, for good", "RFC 2347, Negotiation"
        " Protocol",
        "two servers, or two processes of one, that answer the same request from one port",
    )
    OACK_EMPTY = (
        11, "OackEmpty", "an OACK agrees to an option at least", "RFC 2347, Negotiation Protocol",
        "a fault of the server",
    )
    MULTICAST_AGREED = (
        12, "MulticastAgreed", "multicast is not agreed", f"{PROFILE}: RFC 2090 is outside of it",
        "a multicast transfer of atftp and atftpd, which is not judged",
    )
    OPTION_NOT_REQUESTED = (
        13, "OptionNotRequested", "an OACK has only what was asked for", "RFC 2347, Negotiation Protocol",
        "a fault of the server, or the request of another transfer in the capture",
    )
    OPTION_OUTSIDE_PROFILE = (
        14, "OptionOutsideProfile", "what is agreed is blksize, timeout, tsize or windowsize",
        f"{PROFILE}: it knows the options of RFC 2348, 2349 and 7440",
        "an option of a vendor's own, or rollover",
    )
    OPTION_VALUE = (
        15, "OptionValue", "what is agreed may answer what was asked: a block size or window no larger, the same"
        " timeout, of a write the same size, and numbers in range",
        "RFC 2348, RFC 2349 and RFC 7440, section 3",
        "a client that asks for a value out of range (a blksize above 65464 or below 8), and a server that goes along",
    )
    OACK_CHANGED = (
        16, "OackChanged", "an OACK that is repeated says the same", "RFC 2347: options are negotiated once",
        "two servers, or two processes of one, that answer the same request from one port",
    )
    OACK_AFTER_START = (
        17, "OackAfterStart", "a server that has sent a block of a read does not agree to options any more",
        "RFC 2347, Negotiation Protocol",
        "a repeated request that starts a second server on the service port (busybox tftpd under udpsvd)",
    )
    NOT_STARTED = (
        18, "NotStarted", "a sender begins once it has its go: ACK 0 or an OACK on a write, ACK 0 for the OACK on a"
        " read", "RFC 1350, section 4, and RFC 2347, Negotiation Protocol",
        "a server that sends DATA beside its OACK; or the ACK 0 is missing in the capture",
    )
    BLOCK_ZERO = (
        19, "BlockZero", "blocks are numbered from 1", "RFC 1350, section 5",
        "a sender that numbers its blocks from 0",
    )
    BEYOND_BLOCK_65535 = (
        20, "BeyondBlock65535", "a transfer has at most 65,535 blocks", f"{PROFILE}: the block number of RFC 1350,"
        " section 5, has two bytes, and no RFC says what comes after the last",
        "a large file in small blocks: nearly all software goes on with block 0 or 1, which tftp-audit check --rollover"
        " judges; ask for a larger blksize",
    )
    BLOCK_LENGTH = (
        21, "BlockLength", "each block but the last is whole, and the last is shorter, as long as an agreed size"
        " leaves it", "RFC 1350, section 6, RFC 2348, and RFC 2349 for the size",
        "an end that does not use the block size that was agreed (Erlang tftp, Net::TFTPd); a file that changed while"
        " it was sent; curl's write after a repeated OACK; atftp's write and atftpd's read, which send an empty block"
        " after the last",
    )
    WINDOW_OVERRUN = (
        22, "WindowOverrun", "no block is more than a window above the last one acknowledged",
        "RFC 1350, section 2 (lock step), and RFC 7440, section 4",
        "a sender that sends ahead without an agreed window (Go pin with SetAnticipate), or that takes a repeated ACK"
        " for the next one (atftp's write); or ACKs are missing in the capture",
    )
    BLOCK_SKIPPED = (
        23, "BlockSkipped", "a sender sends its blocks one after another",
        "RFC 1350, section 5, and RFC 7440, section 4",
        "datagrams are missing in the capture: it was filtered, or recorded elsewhere than at the sender, where what"
        " had been lost on the way did not come by",
    )
    GONE_BACK = (
        24, "GoneBack", "in lock step a sender does not send an earlier block again", "RFC 1350, section 2, as RFC"
        " 1123, section 4.2.3.1, has it",
        "a sender that answers an old ACK (atftp's write): one late datagram doubles the rest of the transfer; or a"
        " recording that was made elsewhere than at the sender, where a repeated block came by late",
    )
    BLOCK_CHANGED = (
        25, "BlockChanged", "a block that is repeated has the same bytes", "RFC 1350, section 2",
        "a file that changed while it was sent; curl's write after a repeated OACK, which sends the wrong bytes; or two"
        " processes of a server",
    )
    ACK_AHEAD = (
        26, "AckAhead", "an ACK says that its block and all before it came", "RFC 1350, section 2, and RFC 7440,"
        " section 4",
        "an old client that acknowledges the server's ERROR (tftp-hpa 5.2, GNU inetutils), which does no harm; or"
        " blocks are missing in the capture",
    )
    ACK_ZERO = (
        27, "AckZero", "ACK 0 answers an OACK, or the request of a write", "RFC 1350, section 4, and RFC 2347,"
        " Negotiation Protocol",
        "a client that begins a read without options by ACK 0",
    )

    def __init__(self, number: int, printed: str, says: str, whose: str, usually: str) -> None:
        self.number = number
        self.printed = printed
        self.says = says
        self.whose = whose
        self.usually = usually

    def __str__(self) -> str:
        """As the programs print it behind the word `rule`."""
        return f"{self.number} {self.printed}"


RULES = {rule.number: rule for rule in Rule}


@dataclass(frozen=True)
class PacketFault:
    """A fault of a packet, which rule 5 names: what it says, and what usually sends such a payload."""

    says: str
    usually: str


# Rule 5's faults (docs/SPECIFICATION.md, "Packets").
PACKET_FAULTS = {
    "Short": PacketFault(
        "it has fewer bytes than any packet of its kind",
        "DATA that is cut short (atftpd repeats DATA 1 as three bytes)",
    ),
    "Opcode": PacketFault(
        "its opcode, the first two bytes, is not 1 to 6",
        "not seen of real software: something else than TFTP at the transfer's port would be so, as a scanner's probe",
    ),
    "AckLength": PacketFault(
        "an ACK has 4 bytes, and this one has not",
        "not seen of real software: an end that sends more of its buffer than the ACK would do so",
    ),
    "NoTerminator": PacketFault(
        "the zero byte that ends its last text is missing, or is not its last byte",
        "an ERROR without its last zero byte (curl, Apache Commons Net) or with two (Go pin)",
    ),
    "OddOptions": PacketFault(
        "an option's name has no value behind it",
        "not seen of real software: an end that sends an option's name alone would do so",
    ),
    "EmptyOptionName": PacketFault(
        "an option has no name",
        "not seen of real software: an end that fills its packet up with zero bytes would do so",
    ),
    "DuplicateOption": PacketFault(
        "an option stands twice in it",
        "not seen of real software: a client would do so whose user names an option that it sends of itself",
    ),
    "UnknownMode": PacketFault(
        "its mode is not octet or netascii",
        "not seen of real software: a client with a mode of its own would do so",
    ),
    "MailMode": PacketFault(
        "its mode is mail, which is obsolete",
        "not seen of real software: a very old client would do so",
    ),
    "RequestTooLong": PacketFault(
        "a request with options has at most 512 bytes",
        "not seen of real software: a long path with many options would do so",
    ),
}
