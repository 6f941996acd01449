"""The paper's numbers and the bytes of a store, for the scripts here. They follow from the paper, not from any program
of this repository."""

HEADER = 16
MOST_SLOTS = 500
# the parts of a slot, one after another
STATE, KEY_LENGTH, FIELD_LENGTH, VALUE_LENGTH = range(4)
VERSION, VERSION_SIZE = 4, 4
EXPIRY, EXPIRY_SIZE = VERSION + VERSION_SIZE, 8
KEY, KEY_MOST = EXPIRY + EXPIRY_SIZE, 16
FIELD, FIELD_MOST = KEY + KEY_MOST, 32
VALUE, VALUE_MOST = FIELD + FIELD_MOST, 64
SLOT = VALUE + VALUE_MOST

TIME_LIMIT = 4_102_444_800_000
VERSION_LARGEST = 4_294_967_295
COMMAND_MOST = 1024
USED_MOST = 65_536

EMPTY = bytes(SLOT)


def number(value, size=8):
    """Low byte first."""
    return value.to_bytes(size, "little")


def entry(key=b"m", field=b"a", value=b"1", version=1, expiry=None, state=None):
    """One slot's bytes; expiry None is none."""
    if state is None:
        state = 1 if expiry is None else 2
    slot = (bytes([state, len(key), len(field), len(value)]) + number(version, VERSION_SIZE)
            + number(expiry or 0, EXPIRY_SIZE) + key.ljust(KEY_MOST, b"\0") + field.ljust(FIELD_MOST, b"\0")
            + value.ljust(VALUE_MOST, b"\0"))
    assert len(slot) == SLOT
    return slot


def store(*slots, clock=0, reserved=bytes(8)):
    return number(clock) + reserved + b"".join(slots)


def record(clock, body):
    return b"\x45\x57" + number(clock) + number(len(body), 2) + body


def command(*words):
    return b"*%d\r\n" % len(words) + b"".join(b"$%d\r\n%s\r\n" % (len(w), w) for w in words)
