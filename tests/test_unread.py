"""Frames that are not read because of a header, in the lines that tell of a recording: each header by its name, beside
the line that counts all frames that are not there whole. Where tshark is installed it finds the same headers.
"""
from __future__ import annotations

import shutil
import struct

import recorded
from checks import Checks
from datagrams import fields_of
from judged import said
from made import C, C_6, S, S_6, packets_of, read
from programs import TRANSFERS
from recorded import Datagram, Fragment, Frame

ENCIPHERED = struct.pack("!II", 256, 1) + bytes(range(16))
SECURED = bytes((0x20, 0, 0, 0, 0, 9)) + bytes(44)
ONE, SIX = Datagram(S, 41_000, C, 40_000, b""), Datagram(S_6, 41_000, C_6, 40_000, b"")
CARRIED = packets_of([ONE])[0]
WHOLE = ", so that datagrams may be missing"


def behind(kind: int, content: bytes) -> Frame:
    """A frame of Ethernet of a type."""
    return Frame(recorded.ETHERNET, bytes(12) + struct.pack("!H", kind) + content, recorded.FIRST_TIME)


def on_ethernet(packet: bytes) -> Frame:
    return behind(0x86DD if packet[0] >> 4 == 6 else 0x0800, packet)


# A header's name, what tshark calls it, and a frame that it begins.
HEADERS = (
    ("MACsec (IEEE 802.1AE)", "macsec", behind(0x88E5, SECURED)),
    ("MACsec (IEEE 802.1AE)", "vlan:ethertype:macsec", behind(0x8100, b"\0\5\x88\xe5" + SECURED)),
    ("IEEE 802.1ah", "ieee8021ah", behind(0x88E7, struct.pack("!I", 5) + bytes(12) + b"\x08\0" + CARRIED)),
    ("IEEE 802.1BR", "etag", behind(0x893F, bytes(6) + b"\x08\0" + CARRIED)),
    ("TRILL (RFC 6325)", "trill", behind(0x22F3, struct.pack("!HHH", 63, 1, 2) + bytes(12) + b"\x08\6" + bytes(28))),
    ("NSH (RFC 8300)", "nsh", behind(0x894F, bytes((0x0F, 0xC2, 1, 1, 0, 0, 1, 255)) + CARRIED)),
    ("a tag of Marvell's switches", "data", behind(0xDADA, bytes((0, 0, 0xC0, 0, 0, 1, 8, 0)) + bytes(40))),
    ("ESP (RFC 4303)", "esp", on_ethernet(recorded.ipv4(ONE, ENCIPHERED, 50))),
    ("ESP (RFC 4303)", "ip:data", on_ethernet(recorded.ipv4(ONE, ENCIPHERED, 50, Fragment(9, 1480, False)))),
    ("ESP (RFC 4303)", "ipv6:esp", on_ethernet(recorded.ipv6(SIX, ENCIPHERED, 50))),
    ("Ethernet in IP (RFC 3378, RFC 8986)", "etherip", on_ethernet(recorded.ipv4(ONE, b"\x30\0" + bytes(60), 97))),
    ("IPComp (RFC 3173)", "ipcomp", on_ethernet(recorded.ipv4(ONE, bytes((17, 0, 0, 2)) + bytes(12), 108))),
    ("L2TP (RFC 3931)", "l2tp", on_ethernet(recorded.ipv4(ONE, struct.pack("!I", 9) + bytes(8), 115))),
    ("MPLS in IP (RFC 4023)", "mpls", on_ethernet(recorded.ipv4(ONE, bytes((0, 1, 1, 64)) + CARRIED, 137))),
    ("a mobility header (RFC 6275)", "mipv6", on_ethernet(recorded.ipv6(SIX, bytes((59, 0, 0, 0, 0, 0, 0, 0)), 135))),
    ("HIP (RFC 7401)", "hip", on_ethernet(recorded.ipv6(SIX, bytes((59, 4, 1, 33)) + bytes(36), 139))),
    ("Shim6 (RFC 5533)", "shim6", on_ethernet(recorded.ipv6(SIX, bytes((59, 0, 0, 0, 0, 0, 0, 0)), 140))),
    (
        "a routing header with segments left (RFC 8200)", "ipv6.routing",
        on_ethernet(recorded.ipv6(SIX, bytes((17, 2, 2, 1)) + bytes(20) + recorded.udp(SIX), recorded.ROUTING)),
    ),
)


def counted(count: int, numbers: str, what: str) -> str:
    """A line that tells so many frames."""
    noun, frames = ("datagram", "frame") if count == 1 else ("datagrams", "frames")
    return f"{count} {noun} {what} ({frames} {numbers})"


class Unread(Checks):
    """Frames that are not read, by the names of their headers."""

    needs = (TRANSFERS,)
    program = TRANSFERS.path

    def told(self, frames: list[Frame]) -> list[str]:
        """The lines that are told of a read in three frames and these, without the name of the program or the file."""
        transfer = [on_ethernet(packet) for packet in packets_of(read("a", 40_000, 41_000))]
        lines = said(self.program, ["check", "-"], recorded.pcap([*transfer, *frames]))[1].splitlines()
        return [line.split(": ", 2)[-1] for line in lines]

    def test_each(self) -> None:
        """Each header, alone beside a transfer."""
        for name, protocol, frame in HEADERS:
            told = self.told([frame])
            wanted = [
                counted(1, "4", f"not there whole{WHOLE}"), counted(1, "4", f"behind {name}, which is not read"),
            ]
            self.check(f"{name}, {protocol}", told == wanted, told)
            if shutil.which("tshark"):
                found = fields_of(recorded.pcap([frame]), "frame.protocols")
                self.check(f"{name}, as tshark has it", f":{protocol}" in found[0], found)

    def test_counts(self) -> None:
        """Several, in the order of the first of each; the first five frames of each are named."""
        secured, mobile = HEADERS[0][2], on_ethernet(recorded.ipv6(SIX, bytes((59, 0, 0, 0, 0, 0, 0, 0)), 135))
        told = self.told([secured, mobile, *[secured] * 5, mobile])
        wanted = [
            counted(8, "4, 5, 6, 7, 8 ..", f"not there whole{WHOLE}"),
            counted(6, "4, 6, 7, 8, 9 ..", "behind MACsec (IEEE 802.1AE), which is not read"),
            counted(2, "5, 11", "behind a mobility header (RFC 6275), which is not read"),
        ]
        self.check("two headers", told == wanted, told)

    def test_others(self) -> None:
        """What is read, or is not there whole for another reason, has no name."""
        it = Datagram(S, 41_000, C, 40_000, bytes(range(64)))
        told = self.told([on_ethernet(packets_of([it])[0][:40])])
        self.check("a frame that is cut", told == [counted(1, "4", f"not there whole{WHOLE}")], told)
        told = self.told([on_ethernet(recorded.ipv4(ONE, bytes((59, 0, 0, 0, 0, 0, 0, 0)), 135))])
        self.check("protocol 135 in IPv4, which has no mobility header", told == [], told)
