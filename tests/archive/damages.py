#!/usr/bin/env python3
"""Ways to damage an archive: its trailer, its entries and its records, each in its parts, and its bytes."""
from archive import ENTRY_BYTES, LENGTH_BYTES, TRAILER_BYTES, session_of
from shapes import boundaries, message_of, no_message, pair, parts_of, random_message, random_session, records_of, with_length

# ---- Damages: the trailer


def other_form(rng, parts):
    parts.form = rng.choice((0, 0, 2, 2, 2, 3, 0x0100, 0x0101, 0x8001, 0xFFFF))


def count_off(rng, parts):
    parts.count += rng.choice((1, -1, 2, -2))


def count_far_off(rng, parts):
    """Also a count whose bytes of entries are the same in 16 bits."""
    parts.count = rng.choice((0, 65535, parts.count + 2**14, parts.count + 2**15, parts.count ^ 0x0100, rng.randrange(65536)))


def offset_off(rng, parts):
    parts.index_offset += rng.choice((1, 1, -1, 2, -2, 4, -4))


def offset_far_off(rng, parts):
    """Also an offset that is the same in 16 bits, and those at the file's ends."""
    trailer_at = len(parts.file()) - TRAILER_BYTES
    offsets = (0, trailer_at, trailer_at + 1, trailer_at + 8, parts.index_offset + 2**16, parts.index_offset + 2**31, 2**32 - 1)
    parts.index_offset = rng.choice(offsets)


def offset_that_wraps(rng, parts):
    """Offset and entries add up to the trailer's start, or to less, in 32 bits alone."""
    trailer_at = len(parts.file()) - TRAILER_BYTES
    if rng.random() < 0.3:
        parts.index_offset, parts.count = 2**32 - 4, 1
        return
    parts.count = rng.choice((65535, trailer_at // ENTRY_BYTES + 1, trailer_at // ENTRY_BYTES + 5))
    parts.index_offset = 2**32 + rng.choice((trailer_at, trailer_at, 0)) - ENTRY_BYTES * parts.count


def offset_and_count_off(rng, parts):
    """The index still ends at the trailer's start, but begins earlier or later."""
    by = rng.choice((1, -1, 2, -2, parts.count, rng.randint(1, 6)))
    parts.index_offset -= ENTRY_BYTES * by
    parts.count += by


def all_is_records(rng, parts):
    """No entries: the records are said to reach to the trailer."""
    parts.index_offset, parts.count = len(parts.file()) - TRAILER_BYTES, 0


def gap_before_trailer(rng, parts):
    parts.second_gap = rng.choice((b"\x00", bytes(4), rng.randbytes(rng.randint(1, 8)), pair(0) + pair(1)))


TRAILER_DAMAGES = [
    other_form, count_off, count_far_off, offset_off, offset_far_off, offset_that_wraps, offset_and_count_off, all_is_records,
    gap_before_trailer,
]

# ---- Damages: the entries. Without the entries they need they change nothing.


def entries_exchanged(rng, parts):
    if len(parts.entries) >= 2:
        i, k = rng.sample(range(len(parts.entries)), 2)
        parts.entries[i], parts.entries[k] = parts.entries[k], parts.entries[i]


def entries_in_other_order(rng, parts):
    parts.entries = rng.choice((parts.entries[::-1], sorted(parts.entries, key=lambda entry: entry[1])))


def entry_missing(rng, parts):
    """The count told of the records, or of the entries."""
    if parts.entries:
        del parts.entries[rng.choice((0, -1, rng.randrange(len(parts.entries))))]
        parts.count = rng.choice((parts.count, len(parts.entries), len(parts.entries)))


def entry_twice(rng, parts):
    if parts.entries:
        at = rng.randrange(len(parts.entries))
        parts.entries.insert(rng.choice((at, len(parts.entries))), parts.entries[at])
        parts.count = rng.choice((parts.count, len(parts.entries), len(parts.entries)))


def record_missing(rng, parts):
    """A record is gone, its entry isn't."""
    if parts.records:
        del parts.records[rng.choice((0, -1))]
        parts.index_offset = len(parts.records_bytes())


def record_without_entry(rng, parts):
    message = random_message(rng)
    parts.records.insert(rng.choice((0, len(parts.records), len(parts.records))), (len(message), message))
    parts.index_offset = len(parts.records_bytes())


def change_entry(rng, parts, change):
    if parts.entries:
        at = rng.choice((0, len(parts.entries) - 1, rng.randrange(len(parts.entries))))
        parts.entries[at] = change(*parts.entries[at])


def entry_offset_off(rng, parts):
    change_entry(rng, parts, lambda offset, session: (offset + rng.choice((1, -1, 2, 2, -2, 16, 256)), session))


def entry_session_off(rng, parts):
    change_entry(rng, parts, lambda offset, session: (offset, session ^ rng.choice((1, 0x80, 0x100, 0x8000, 0xFFFF))))


def entry_bytes_exchanged(rng, parts):
    """The two halves exchanged, or one in the other byte order."""
    swapped = lambda number: number >> 8 | (number & 255) << 8
    ways = (lambda o, s: (s, o), lambda o, s: (swapped(o), s), lambda o, s: (o, swapped(s)), lambda o, s: (swapped(o), swapped(s)))
    change_entry(rng, parts, rng.choice(ways))


def entries_with_client(rng, parts):
    """Client IDs instead of Session IDs."""
    parts.entries = [
        (offset, int.from_bytes(message[8:10], "big")) for (offset, _), (_, message) in zip(parts.entries, parts.records)
    ]


def entries_of_messages(rng, parts):
    """The message's place instead of the record's, or offsets counted from 1."""
    by = rng.choice((LENGTH_BYTES, 1))
    parts.entries = [(offset + by, session) for offset, session in parts.entries]


def entries_of_inner_records(rng, parts):
    """A message holds records, and the index names those: instead of it, or beside it."""
    inner = [message_of(rng, rng.randint(16, 20), 0, random_session(rng)) for _ in range(rng.randint(1, 2))]
    outer = message_of(rng, 16 + len(records_of(inner)), 3, random_session(rng))[:16] + records_of(inner)
    at = len(parts.records_bytes())
    own = [(at, session_of(outer))]
    parts.records.append((len(outer), outer))
    within = [(at + LENGTH_BYTES + 16 + end, session_of(message)) for end, message in zip(boundaries(inner), inner)]
    parts.entries += rng.choice((within, own + within, within[:1]))
    parts.index_offset, parts.count = len(parts.records_bytes()), len(parts.entries)


ENTRY_DAMAGES = [
    entries_exchanged, entries_in_other_order, entry_missing, entry_twice, record_missing, record_without_entry, entry_offset_off,
    entry_session_off, entry_bytes_exchanged, entries_with_client, entries_of_messages, entries_of_inner_records,
]

# ---- Damages: the records


def put_records(parts, messages):
    """Other messages, or what is to pass for them; index and trailer go with them."""
    new = parts_of(messages)
    parts.records, parts.entries, parts.index_offset, parts.count = new.records, new.entries, new.index_offset, new.count


def messages_of(parts):
    return [message for _, message in parts.records]


def record_of_no_message(rng, parts):
    """Bytes that are no message in a record of their own; everything else agrees."""
    messages = messages_of(parts)
    messages.insert(rng.choice((0, len(messages))), no_message(rng, rng.randrange(100)))
    put_records(parts, messages)


def short_record(rng, parts):
    """A record of 8 to 15 bytes with the right Length."""
    messages = messages_of(parts)
    size = rng.choice((15, 15, 14, 12, 8))
    messages.insert(rng.choice((0, len(messages))), with_length(random_message(rng)[:size], size - 8))
    put_records(parts, messages)


def empty_record(rng, parts):
    messages = messages_of(parts)
    messages.insert(rng.choice((0, len(messages))), b"")
    put_records(parts, messages)


def length_off(rng, parts):
    """One message's Length."""
    if parts.records:
        at = rng.randrange(len(parts.records))
        size, message = parts.records[at]
        by = rng.choice((1, -1, 8, -8, 2**16, 2**24, 2**31, -(size - 8)))
        parts.records[at] = size, with_length(message, size - 8 + by)


def record_length_off(rng, parts):
    """One record's two bytes of length; sometimes the Length goes with it."""
    if parts.records:
        at = rng.choice((len(parts.records) - 1, rng.randrange(len(parts.records))))
        size, message = parts.records[at]
        by = rng.choice((1, -1, 2, 4, -4, 256, 2**15, -size, len(parts.file())))
        parts.records[at] = size + by, with_length(message, size + by - 8) if rng.random() < 0.6 and size + by >= 8 else message


def record_over_index(rng, parts):
    """The last record reaches over the index: by an entry, to the trailer's start, or to the file's end."""
    if parts.records:
        size, message = parts.records[-1]
        size += rng.choice((ENTRY_BYTES, ENTRY_BYTES * len(parts.entries), ENTRY_BYTES * len(parts.entries) + TRAILER_BYTES))
        parts.records[-1] = size, with_length(message, size - 8)


def record_over_next(rng, parts):
    """The first record takes the one behind it in."""
    if len(parts.records) >= 2:
        size, message = parts.records[0]
        size += LENGTH_BYTES + parts.records[1][0]
        parts.records[0] = size, with_length(message, size - 8)


def lengths_exchanged(rng, parts):
    if len(parts.records) >= 2:
        (first, one), (second, two) = parts.records[:2]
        parts.records[:2] = (second, one), (first, two)


def gap_before_index(rng, parts):
    """Bytes that belong to nothing; the index offset is before them or behind."""
    parts.gap = rng.choice((bytes(1), bytes(2), bytes(rng.randint(1, 4)), rng.randbytes(rng.randint(1, 20))))
    parts.index_offset += rng.choice((0, len(parts.gap), len(parts.gap)))


def records_moved(rng, parts):
    """Bytes before the first record; the offsets go with them."""
    by = rng.choice((1, 2, 4))
    parts.records.insert(0, (rng.choice((0, 1)), bytes(by)))
    by += LENGTH_BYTES
    parts.entries = [(offset + by, session) for offset, session in parts.entries]
    parts.index_offset += by


def little_endian_lengths(rng, parts):
    parts.records = [(size >> 8 | (size & 255) << 8, message) for size, message in parts.records]


RECORD_DAMAGES = [
    record_of_no_message, short_record, empty_record, length_off, record_length_off, record_over_index, record_over_next,
    lengths_exchanged, gap_before_index, records_moved, little_endian_lengths,
]

# ---- Damages: bytes


def with_flipped_bit(rng, data):
    at = rng.randrange(len(data))
    return data[:at] + bytes([data[at] ^ 1 << rng.randrange(8)]) + data[at + 1 :]


def flipped_in_index_or_trailer(rng, data):
    return data[:-20] + with_flipped_bit(rng, data[-20:])


def flipped_twice(rng, data):
    return with_flipped_bit(rng, with_flipped_bit(rng, data))


def other_byte(rng, data):
    at = rng.randrange(len(data))
    return data[:at] + rng.choice((b"\x00", b"\xff", b"\x01", rng.randbytes(1))) + data[at + 1 :]


def cut_behind(rng, data):
    return data[: -rng.choice((1, 2, 4, 8, 12, rng.randint(1, len(data))))]


def cut_before(rng, data):
    return data[rng.choice((1, 2, 4, 18, rng.randint(1, len(data)))) :]


def cut_within(rng, data):
    at = rng.randrange(len(data))
    return data[:at] + data[at + rng.choice((1, 2, 4, 18)) :]


def cut_short(rng, data):
    """Fewer than eight bytes."""
    return data[len(data) - rng.randint(0, 7) :]


def longer_behind(rng, data):
    return data + rng.choice((b"\x00", bytes(4), bytes(8), data[-8:], rng.randbytes(rng.randint(1, 9))))


def longer_before(rng, data):
    return rng.choice((b"\x00", bytes(2), bytes(4), rng.randbytes(rng.randint(1, 9)))) + data


def longer_within(rng, data):
    at = rng.choice((rng.randrange(len(data)), len(data) - 8))
    return data[:at] + rng.choice((b"\x00", bytes(2), bytes(4), rng.randbytes(rng.randint(1, 9)))) + data[at:]


BYTE_DAMAGES = (
    with_flipped_bit, flipped_in_index_or_trailer, flipped_twice, other_byte, cut_behind, cut_before, cut_within, cut_short,
    longer_behind, longer_before, longer_within, flipped_in_index_or_trailer, with_flipped_bit,
)
