#!/usr/bin/env python3
"""Messages, bytes that are none, and archives in their parts, for the generated cases."""
from dataclasses import dataclass

from archive import LENGTH_BYTES, record_bytes, session_of

# ---- Messages


def message_of(rng, size, client, session):
    """A message of this size. What an archive doesn't judge is at random."""
    head = rng.randbytes(4) + (size - 8).to_bytes(4, "big") + client.to_bytes(2, "big") + session.to_bytes(2, "big")
    return head + rng.choice((b"\x01\x01\x02\x00", rng.randbytes(4))) + rng.randbytes(size - 16)


def random_size(rng):
    return rng.choice((16, 16, 17, rng.randint(16, 24), rng.randint(16, 40), rng.randint(16, 80), 0x110))


def random_session(rng):
    """Few of them, so that they meet by chance."""
    return rng.choice((0, 1, 1, 2, 0x0100, 0x0201, 0xFFFF, rng.randrange(65536)))


def random_message(rng, size=None):
    if size is None and rng.random() < 0.1:
        return message_with_records(rng)
    size = random_size(rng) if size is None else size
    return message_of(rng, size, random_session(rng), random_session(rng))


def message_with_records(rng):
    """A message whose payload is itself records, or a whole archive."""
    inner = [message_of(rng, rng.randint(16, 20), 0, random_session(rng)) for _ in range(rng.randint(1, 2))]
    payload = rng.choice((b"", b"\x00")) + (records_of(inner) if rng.random() < 0.5 else parts_of(inner).file())
    return message_of(rng, 16 + len(payload), 3, random_session(rng))[:16] + payload


def random_messages(rng, least=0):
    return [random_message(rng) for _ in range(rng.choice((least, max(least, 1), rng.randint(least, 3), rng.randint(least, 6))))]


def with_length(message, length):
    """The message with another Length."""
    return message[:4] + (length % 2**32).to_bytes(4, "big") + message[8:]


NO_MESSAGES = (  # ways to make bytes that are no message out of a message
    lambda rng, m: b"",
    lambda rng, m: rng.randbytes(rng.randint(1, 15)),
    lambda rng, m: with_length(m[:15], 7),
    lambda rng, m: with_length(m[:15], 8),
    lambda rng, m: with_length(m[: rng.randint(8, 14)], 0),
    lambda rng, m: with_length(m, len(m) - 7),
    lambda rng, m: with_length(m, len(m) - 9),
    lambda rng, m: with_length(m, len(m)),
    lambda rng, m: with_length(m, len(m) - 16),
    lambda rng, m: with_length(m, len(m) - 8 + 2**16),
    lambda rng, m: with_length(m, len(m) - 8 + 2**24),
    lambda rng, m: with_length(m, int.from_bytes(m[4:8], "little")),
    lambda rng, m: with_length(m, rng.choice((0, 7, 2**31, 2**32 - 1))),
    lambda rng, m: m + b"\x00",
    lambda rng, m: m[:-1],
    lambda rng, m: record_bytes(m),
    lambda rng, m: m + m,
    lambda rng, m: rng.randbytes(rng.randint(16, 40)),
)


def no_message(rng, turn):
    return NO_MESSAGES[turn % len(NO_MESSAGES)](rng, random_message(rng))


# ---- Archives


def records_of(messages):
    return b"".join(record_bytes(message) for message in messages)


def boundaries(messages):
    """Where records may end: 0 and behind each record."""
    ends = [0]
    for message in messages:
        ends.append(ends[-1] + LENGTH_BYTES + len(message))
    return ends


@dataclass
class Parts:
    """A closed archive in its parts, so that they can be made wrong one by one."""

    records: list  # each as its length field and the bytes behind it
    entries: list  # each as offset and Session ID
    index_offset: int
    count: int
    form: int = 1
    gap: bytes = b""  # between records and index
    second_gap: bytes = b""  # between index and trailer

    def file(self):
        trailer = (self.index_offset % 2**32).to_bytes(4, "big") + pair(self.count) + pair(self.form)
        index = b"".join(pair(offset) + pair(session) for offset, session in self.entries)
        return self.records_bytes() + self.gap + index + self.second_gap + trailer

    def records_bytes(self):
        return b"".join(pair(length) + message for length, message in self.records)


def pair(number):
    return (number % 65536).to_bytes(2, "big")


def parts_of(messages):
    """The right parts of the archive with these messages, also if one of them is none."""
    ends = boundaries(messages)
    entries = [(offset, session_of(message)) for offset, message in zip(ends, messages)]
    return Parts([(len(message), message) for message in messages], entries, ends[-1], len(messages))


def random_tail(rng, size):
    """What a lent file holds behind its records: anything, zeros, A5, or an older archive's end."""
    older = parts_of(random_messages(rng)).file()
    return rng.choice((rng.randbytes(size), bytes(size), b"\xa5" * size, (older * (size // len(older) + 1))[:size]))


def lent_file(rng, records, size):
    """A file of this size that begins with these records; with less if the size is less."""
    return (records + random_tail(rng, max(0, size - len(records))))[:size]
