#!/usr/bin/env python3
"""Writes crates/stores/stdin and stdout: a damaged store for every single rule of 01's "The store's bytes", and
well-formed neighbours of each.

The answers follow from how each store is made, not from any program of this repository.
"""
import os

from layout import (EMPTY, EXPIRY, FIELD, FIELD_LENGTH, FIELD_MOST, HEADER, KEY, KEY_LENGTH, KEY_MOST, MOST_SLOTS, SLOT,
                    TIME_LIMIT, VALUE, VALUE_LENGTH, VALUE_MOST, VERSION, VERSION_LARGEST, entry, number, store)


def patched(bytes_, at, value):
    return bytes_[:at] + bytes([value]) + bytes_[at + 1:]


def cases():
    one = entry()
    # length and number of slots
    yield 0, b""
    yield 0, store()
    yield 1, store(EMPTY)
    yield 0, store(EMPTY)[:-1]
    yield 0, store(EMPTY) + b"\0"
    yield 0, store(EMPTY)[:HEADER + SLOT // 2]
    yield 1, store(*[EMPTY] * MOST_SLOTS)
    yield 0, store(*[EMPTY] * (MOST_SLOTS + 1))
    # clock
    yield 1, store(one, clock=TIME_LIMIT - 1)
    yield 0, store(one, clock=TIME_LIMIT)
    yield 0, store(one, clock=2 ** 64 - 1)
    # the eight reserved bytes
    for i in range(8):
        yield 0, store(one, reserved=bytes(i) + b"\1" + bytes(7 - i))
    # state
    yield 1, store(one)
    yield 1, store(entry(expiry=7))
    yield 0, store(entry(state=3))
    yield 0, store(entry(state=255))
    # lengths at and past their limits
    yield 1, store(entry(key=b"k" * KEY_MOST))
    yield 0, store(patched(entry(key=b"k" * KEY_MOST), KEY_LENGTH, KEY_MOST + 1))
    yield 1, store(entry(field=b"f" * FIELD_MOST))
    yield 0, store(patched(entry(field=b"f" * FIELD_MOST), FIELD_LENGTH, FIELD_MOST + 1))
    yield 1, store(entry(value=b"v" * VALUE_MOST))
    yield 0, store(patched(entry(value=b"v" * VALUE_MOST), VALUE_LENGTH, VALUE_MOST + 1))
    yield 0, store(patched(one, VALUE_LENGTH, 255))
    yield 1, store(entry(key=b"", field=b"", value=b""))
    # a byte beyond a length, first and last place of each
    for at in (KEY + 1, FIELD - 1, FIELD + 1, VALUE - 1, VALUE + 1, SLOT - 1):
        yield 0, store(patched(one, at, 1))
    # expiry
    yield 1, store(entry(expiry=0))
    yield 1, store(entry(expiry=TIME_LIMIT))
    yield 0, store(entry(expiry=TIME_LIMIT + 1))
    yield 0, store(entry(expiry=5, state=1))
    yield 0, store(entry(expiry=2 ** 64 - 1))
    # an empty slot with one byte
    numbers = (KEY_LENGTH, FIELD_LENGTH, VALUE_LENGTH, VERSION, EXPIRY - 1, EXPIRY)
    for at in (*numbers, KEY - 1, KEY, FIELD, VALUE, SLOT - 1):
        yield 0, store(one, patched(EMPTY, at, 1))
    # versions take any value
    yield 1, store(entry(version=0), entry(field=b"b", version=VERSION_LARGEST))
    # two held slots alike, one of them dead
    yield 0, store(one, one)
    yield 0, store(one, entry(value=b"2", version=9))
    yield 0, store(one, entry(expiry=1), clock=1000)
    yield 0, store(entry(expiry=1), EMPTY, one, clock=1000)
    yield 1, store(one, entry(field=b"b"))
    yield 1, store(one, entry(key=b"n"))
    yield 1, store(entry(key=b"ab", field=b"c"), entry(key=b"a", field=b"bc"))
    yield 1, store(entry(key=b"", field=b"a"), entry(key=b"a", field=b""))
    yield 1, store(entry(field=b"a"), entry(field=b"a\0"))
    # many held slots, and one alike among them
    many = [entry(field=b"t%d" % i) for i in range(MOST_SLOTS)]
    yield 1, store(*many)
    yield 0, store(*many[:-1], entry(field=b"t0", expiry=3))
    yield 0, store(*many[:250], many[0])


def main():
    here = os.path.join(os.path.dirname(os.path.abspath(__file__)), "..", "crates", "stores")
    with open(os.path.join(here, "stdin"), "wb") as f, open(os.path.join(here, "stdout"), "w") as g:
        for answer, b in cases():
            f.write(number(len(b), 4) + b)
            g.write("%d\n" % answer)


if __name__ == "__main__":
    main()
