"""A small client and a small server of TFTP, in octet mode and without options: lawful, or with one fault.

    small_ends.py client HOST PORT FILE [FAULT]     reads FILE into a file of that name
    small_ends.py server HOST PORT FOLDER [FAULT]   serves reads, each request from a port of its own

Faults of the client are `ahead`, an ACK of the block behind the second one, and `repeats`, an ACK of the next block
where a block comes again; of the server `window`, which sends two blocks at a time though no window was agreed.
"""
from __future__ import annotations

import pathlib
import socket
import sys
import threading
import time

from captures import ack, data, error, read_request

WAIT, TRIES, DALLY, LONGEST, WHOLE = 0.25, 12, 0.6, 1_024, 512
At = tuple[str, int]


def opcode(payload: bytes) -> int:
    return int.from_bytes(payload[:2], "big")


def block_of(payload: bytes) -> int:
    return int.from_bytes(payload[2:4], "big")


def opened(host: str, port: int) -> socket.socket:
    made = socket.socket(socket.AF_INET, socket.SOCK_DGRAM)
    made.bind((host, port))
    return made


class Client:
    """Reads a file: acknowledges each block that it has all before of, and refuses what comes from elsewhere."""

    def __init__(self, server: At, fault: str) -> None:
        self.socket, self.target, self.fault = opened(server[0], 0), server, fault
        self.answers = False
        self.blocks: list[bytes] = []

    def take(self, until: float) -> bytes:
        """The next datagram of the server, nothing where none comes in time."""
        while (left := until - time.monotonic()) > 0:
            self.socket.settimeout(left)
            try:
                payload, sender = self.socket.recvfrom(LONGEST)
            except socket.timeout:
                break
            if self.answers and sender != self.target:
                self.socket.sendto(error(5, "unknown transfer")[0], sender)
                continue
            self.answers, self.target = True, sender
            return payload
        return b""

    def answer(self, payload: bytes) -> bytes:
        """What a block is answered by."""
        number, is_next = block_of(payload), block_of(payload) == len(self.blocks) + 1
        if is_next:
            self.blocks.append(payload[4:])
        if self.fault == "ahead" and number == 2 or self.fault == "repeats" and not is_next:
            number += 1
        return ack(number)[0]

    def read(self, file: str) -> bool:
        """Whether the file came over; the last ACK is repeated where the last block is."""
        sent, tries = read_request(file, "octet")[0], 0
        while tries < TRIES:
            self.socket.sendto(sent, self.target)
            payload = self.take(time.monotonic() + WAIT)
            tries = 0 if payload else tries + 1
            if opcode(payload) == 5:
                return False
            if opcode(payload) == 3 and block_of(payload) <= len(self.blocks) + 1:
                sent = self.answer(payload)
            if self.blocks and len(self.blocks[-1]) < WHOLE:
                break
        self.dally(sent)
        return bool(self.blocks) and len(self.blocks[-1]) < WHOLE

    def dally(self, sent: bytes) -> None:
        """Answers what comes again, until nothing comes for a while."""
        self.socket.sendto(sent, self.target)
        while self.take(time.monotonic() + DALLY):
            self.socket.sendto(sent, self.target)


def send_file(content: bytes, client: At, host: str, ahead: int) -> None:
    """Sends a file from a new port, so many blocks at a time."""
    made = opened(host, 0)
    made.settimeout(WAIT)
    blocks = [data(at // WHOLE + 1, content[at : at + WHOLE])[0] for at in range(0, len(content) + 1, WHOLE)]
    done = tries = 0
    while done < len(blocks) and tries < TRIES:
        for payload in blocks[done : done + ahead]:
            made.sendto(payload, client)
        tries += 1
        if (came := wait_for_ack(made, client, done)) > done:
            done, tries = came, 0
        elif came < 0:
            return


def wait_for_ack(made: socket.socket, client: At, done: int) -> int:
    """The block that is acknowledged, 0 where nothing comes in time, -1 for an ERROR; older ACKs are passed over."""
    until = time.monotonic() + WAIT
    while (left := until - time.monotonic()) > 0:
        made.settimeout(left)
        try:
            payload, sender = made.recvfrom(LONGEST)
        except socket.timeout:
            break
        if sender == client and opcode(payload) == 5:
            return -1
        if sender == client and opcode(payload) == 4 and block_of(payload) > done:
            return block_of(payload)
    return 0


def serve(at: At, folder: pathlib.Path, fault: str) -> None:
    made = opened(*at)
    while True:
        payload, client = made.recvfrom(LONGEST)
        file = folder / payload[2:].split(b"\0")[0].decode()
        ahead = 2 if fault == "window" else 1
        words = file.read_bytes(), client, at[0], ahead
        threading.Thread(target=send_file, args=words, daemon=True).start()


def main(role: str, host: str, port: str, name: str, fault: str = "") -> int:
    at = host, int(port)
    if role == "server":
        serve(at, pathlib.Path(name), fault)
    client = Client(at, fault)
    is_whole = client.read(name)
    pathlib.Path(name).write_bytes(b"".join(client.blocks))
    return int(not is_whole)


if __name__ == "__main__":
    sys.exit(main(*sys.argv[1:]))
