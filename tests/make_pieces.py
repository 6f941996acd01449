#!/usr/bin/env python3
"""Writes crates/pieces/stdin and stdout: one stream, and what it comes to whichever way it is cut.

The answers follow from how the stream is made, not from any program of this repository.
"""
import os
import random

from layout import COMMAND_MOST, EMPTY, USED_MOST, command, entry, number, record, store

MODULUS = 4294967291
SLOTS = 4


def checksum(data):
    s = 0
    for b in data:
        s = (s * 31 + b) % MODULUS
    return s


class Stream:
    def __init__(self):
        self.data, self.replies, self.skipped = b"", b"", 0

    def skip(self, data):
        self.data += data
        self.skipped += len(data)

    def send(self, clock, body, reply):
        self.data += record(clock, body)
        self.replies += reply + b"\r\n"


def stream():
    noise = random.Random(6)
    # no 57, so no mark; a 45 here and there
    rough = lambda n: bytes(b if b != 0x57 else 0x45 for b in (noise.randrange(256) for _ in range(n)))
    s = Stream()
    s.skip(rough(300) + b"\0")
    s.send(1000, command(b"EXHGET", b"m", b"t1"), b"$-1")
    # a stray 45 just before a mark
    s.skip(b"\x45")
    s.send(1001, command(b"EXHSET", b"m", b"t1", b"5"), b":1")
    s.skip(b"\x45\x45\x45")
    s.send(1002, command(b"exhget", b"m", b"t1"), b"$1\r\n5")
    # marks whose L is 0 and one too large: the 45 is skipped and the rest is read again
    s.skip(b"\x45\x57" + number(0) + number(0, 2))
    s.skip(b"\x45\x57" + number(0) + number(COMMAND_MOST + 1, 2))
    # a command of 1 byte, which is refused, and one as long as can be, which is done
    s.send(1003, b"*", b"-ERR protocol")
    fields = [b"f%08d" % i for i in range(59)] + [b"a" * 32, b"b" * 32, b"c" * 29]
    longest = command(b"EXHMGET", b"m", *fields)
    assert len(longest) == COMMAND_MOST
    s.send(1004, longest, b"*62\r\n" + b"\r\n".join([b"$-1"] * 62))
    # a refused command as long
    body = command(b"EXHSET", b"m", b"t9", b"v" * 985)
    assert len(body) == COMMAND_MOST, len(body)
    s.send(1005, body, b"-ERR too long")
    s.send(1006, command(b"EXHINCRBY", b"m", b"t1", b"37"), b":42")
    s.send(1007, command(b"EXHGET", b"m", b"t1"), b"$2\r\n42")
    s.send(1008, command(b"GET", b"m"), b"-ERR unknown command")
    s.send(1009, command(b"EXHSET", b"m", b"t2", b"x"), b":1")
    s.send(1010, command(b"EXHINCRBY", b"m", b"t2", b"1"), b"-ERR hash value is not an integer")
    s.send(1011, command(b"EXHSET", b"m", b"t1", b"1", b"NX"), b":-1")
    # more noise than one call uses
    s.skip(rough(USED_MOST + 464) + b"\0")
    s.send(1012, command(b"EXHLEN", b"m"), b":2")
    s.send(900, command(b"EXHGET", b"m", b"t2"), b"$1\r\nx")
    # a record that is cut short waits
    rest = record(1013, longest)[:700]
    s.data += rest
    held = [entry(b"m", b"t1", b"42", 2), entry(b"m", b"t2", b"x", 1)]
    return s, len(rest), store(*held, *[EMPTY] * (SLOTS - 2), clock=1012)


def main():
    s, waiting, left = stream()
    way = "replies %d, checksum %d\nskipped %d\nwaiting %d\nstore's checksum %d\n" % (
        len(s.replies), checksum(s.replies), s.skipped, waiting, checksum(left))
    out = "uncut\n" + way
    for cut in (1, 2, 7, 1000):
        out += "in pieces of %d\n" % cut + way + "as uncut\n"
    here = os.path.join(os.path.dirname(os.path.abspath(__file__)), "..", "crates", "pieces")
    open(os.path.join(here, "stdin"), "wb").write(s.data)
    open(os.path.join(here, "stdout"), "w").write(out)


main()
