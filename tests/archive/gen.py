#!/usr/bin/env python3
"""Makes archive cases in the form of docs/CASES.md.

    python3 tests/archive/gen.py SEED COUNT > CASES
    python3 tests/archive/gen.py --counts SEED COUNT

The second form prints how often each verdict of the second program comes up, by operation, and the cases' bytes.
The same SEED and COUNT give the same cases. Most files are small; a few in a hundred are near 65,535 bytes.
"""
import collections
import random
import sys

import answer
import damages
import form
import shapes
from archive import ENTRY_BYTES, LENGTH_BYTES, MOST_FILE_BYTES, TRAILER_BYTES, session_of, whole_size
from damages import ENTRY_DAMAGES, RECORD_DAMAGES, TRAILER_DAMAGES
from shapes import boundaries, lent_file, message_of, no_message, parts_of, random_message, random_messages, records_of, with_length

MOST_CASE_FILE, MOST_CASE_MESSAGE = 70000, 65600  # so that fixed arrays do

# ---- The cases so far


class Cases:
    def __init__(self):
        self.all = []

    def put(self, operation, file, number=0, message=b""):
        if len(file) > MOST_CASE_FILE or len(message) > MOST_CASE_MESSAGE:
            sys.exit("a case is too large")
        self.all.append(form.Case(operation, file, number % 2**64, message))

    def add(self, file, told, message):
        self.put(form.ADD, file, told, message)

    def close(self, file, told):
        self.put(form.CLOSE, file, told)

    def look(self, rng, file, messages):
        """One of opening, reading and finding, by chance."""
        operation = rng.choice((form.OPEN, form.READ, form.FIND))
        if operation == form.OPEN:
            self.put(form.OPEN, file)
        elif operation == form.READ:
            self.put(form.READ, file, random_number(rng, len(messages)))
        else:
            self.put(form.FIND, file, random_wanted(rng, messages))


def random_number(rng, count):
    """n for reading: mostly one that is there."""
    if count and rng.random() < 0.6:
        return rng.choice((1, count, rng.randint(1, count)))
    return absent_number(rng, count)


def absent_number(rng, count):
    """Also numbers that are there once cut to 16 or 32 bits."""
    there = rng.randint(1, max(1, count))
    wide = rng.choice((2**16, 2**32, 2**63, 2**64 - 1, 2**64 - there))
    return rng.choice((0, 0, count + 1, count + 1, count + 2, 2**16 + there, 2**32 + there, 2**63 + there, wide))


def random_wanted(rng, messages):
    """Session ID for finding: mostly one that is there."""
    if messages and rng.random() < 0.6:
        return session_of(rng.choice(messages))
    return absent_wanted(rng, messages)


def absent_wanted(rng, messages):
    """A Session ID that no message has: any, one more than another, another ID's of a message, or bytes exchanged."""
    there = {session_of(message) for message in messages}
    wanted = [rng.randrange(65536), 0, 1, 0xFFFF]
    for message in messages:
        wanted += [session_of(message) ^ 1, session_of(message) >> 8 | (session_of(message) & 255) << 8]
        wanted += [int.from_bytes(message[at : at + 2], "big") for at in (0, 2, 8, 8, 8, 9, 11, 12)]
    return rng.choice([session for session in wanted if session not in there] or [min(set(range(65536)) - there)])


# ---- Families: adding


def needed_with(messages, message):
    return whole_size(len(records_of(messages)) + LENGTH_BYTES + len(message), len(messages) + 1)


def adding_accepted(cases, rng, turn):
    """With just the room needed or more."""
    messages, message = random_messages(rng), random_message(rng)
    size = needed_with(messages, message) + rng.choice((0, 0, 1, 4, rng.randint(1, 60)))
    cases.add(lent_file(rng, records_of(messages), size), len(records_of(messages)), message)


def adding_over(cases, rng, turn):
    """Told an earlier record's end: the records behind it are written over."""
    messages, message = random_messages(rng, 1), random_message(rng)
    kept = rng.randrange(len(messages))
    size = max(len(records_of(messages)), needed_with(messages[:kept], message)) + rng.choice((0, 0, 7))
    cases.add(lent_file(rng, records_of(messages), size), boundaries(messages)[kept], message)


def adding_room(cases, rng, turn):
    """One byte short, exact, one more; room but for the new entry, an entry and the trailer, the trailer, the record."""
    messages, message = random_messages(rng), random_message(rng)
    needed = needed_with(messages, message)
    size = needed + (-1, 0, 1, -4, -3, -8, -7, -9, -12, -13, -ENTRY_BYTES * len(messages) - 8, -len(message) - 14)[turn % 12]
    cases.add(lent_file(rng, records_of(messages), max(size, len(records_of(messages)))), len(records_of(messages)), message)


def wrong_told(rng, turn, messages, file):
    """A told size that is mostly not whole records in the file."""
    ends = boundaries(messages)
    right, some = ends[-1], rng.choice(ends)
    wrong = (
        some - 1, some + 1, some + 2, right - 1, right + 1, right + 2, rng.randint(0, right), len(file), len(file) + 1, right + len(file),
        2**64 - 1, 2**63 + right, 2**32 + right, 2**16 + right, 2**31 + right, 2**32 + some, 2**64 - some, len(file) - TRAILER_BYTES,
        17, 19,
    )
    return wrong[turn % len(wrong)]


def adding_told(cases, rng, turn):
    messages, message = random_messages(rng, rng.choice((0, 1, 1))), random_message(rng)
    size = needed_with(messages, message) + rng.choice((0, 0, 1, 4, 40, -1, -20))
    file = lent_file(rng, records_of(messages), max(size, len(records_of(messages))))
    cases.add(file, wrong_told(rng, turn, messages, file), message)


def adding_past_the_end(cases, rng, turn):
    """The last record is cut by the file's end; told is where it would end, or the file's end."""
    messages = random_messages(rng, 1)
    records = records_of(messages)
    file = records[: rng.choice((len(records) - 1, boundaries(messages)[-2] + rng.randint(1, LENGTH_BYTES + len(messages[-1]) - 1)))]
    told = (len(records), len(file), boundaries(messages)[-2])[turn % 3]
    put_change(cases, rng, file, told, random_message(rng))


def put_change(cases, rng, file, told, message):
    """Adding or closing, by chance."""
    if rng.random() < 0.5:
        cases.add(file, told, message)
    else:
        cases.close(file, told)


def adding_no_message(cases, rng, turn):
    messages, message = random_messages(rng), no_message(rng, turn)
    size = needed_with(messages, message) + rng.choice((0, 1, 30))
    cases.add(lent_file(rng, records_of(messages), size), len(records_of(messages)), message)


ADD_WRONGS = (("told",), ("message",), ("room",), ("told", "message"), ("told", "room"), ("message", "room"), ("told", "message", "room"))


def adding_with_wrongs(cases, rng, turn):
    """Wrong in one thing, in two or in all three."""
    wrongs = ADD_WRONGS[turn % len(ADD_WRONGS)]
    messages = random_messages(rng, 1)
    message = no_message(rng, rng.randrange(100)) if "message" in wrongs else random_message(rng)
    size = needed_with(messages, message) + (rng.choice((-1, -4, -20, -10000)) if "room" in wrongs else 0)
    file = lent_file(rng, records_of(messages), max(size, len(records_of(messages))))
    cases.add(file, wrong_told(rng, rng.randrange(100), messages, file) if "told" in wrongs else len(records_of(messages)), message)


def changing_damaged(cases, rng, turn):
    """Adding and closing where a record within the told size is damaged, and where one behind it is."""
    messages = random_messages(rng, 1)
    parts = parts_of(messages)
    RECORD_DAMAGES[turn % len(RECORD_DAMAGES)](rng, parts)
    told = rng.choice((len(parts.records_bytes()), parts.index_offset, parts.index_offset, rng.choice(boundaries(messages))))
    message = random_message(rng) if rng.random() < 0.8 else no_message(rng, turn)
    put_change(cases, rng, parts.file() + shapes.random_tail(rng, rng.choice((0, 60, 120))), told, message)


def changing_flipped(cases, rng, turn):
    """Adding and closing where one bit of the records is another."""
    messages = random_messages(rng, 1)
    records = records_of(messages)
    file = lent_file(rng, damages.with_flipped_bit(rng, records), len(records) + rng.choice((8, 12, 60, 120)))
    put_change(cases, rng, file, len(records), random_message(rng))


def one_message(cases, rng, turn):
    """One message of 16 bytes in files of 28 to 31 bytes, closing of none in files of 0 to 9; all operations."""
    message = message_of(rng, 16, 2, rng.choice((1, 0, 0x1234)))
    size = (28, 29, 30, 31, 18, 17)[turn % 6]
    what = turn // 6 % 5
    if what == 0:
        cases.add(lent_file(rng, b"", size), 0, message)
    elif what == 1:
        cases.close(lent_file(rng, records_of([message]), size), rng.choice((18, 18, 17, 19, 0)))
    elif what == 2:
        cases.close(lent_file(rng, b"", rng.randint(0, 9)), rng.choice((0, 0, 0, 8)))
    elif what == 3:
        cases.add(lent_file(rng, b"", rng.choice((size, rng.randint(0, 9)))), 0, message)
    else:
        cases.look(rng, (parts_of([message]).file() + bytes(9))[:size], [message])


# ---- Families: closing


def closing_accepted(cases, rng, turn):
    messages = random_messages(rng)
    told = rng.choice([len(records_of(messages))] * 3 + boundaries(messages))
    size = whole_size(len(records_of(messages)), len(messages)) + rng.choice((0, 0, 1, 4, rng.randint(1, 60)))
    cases.close(lent_file(rng, records_of(messages), size), told)


def closing_room(cases, rng, turn):
    """One byte short, exact, one more; room but for an entry, the trailer, all of it."""
    messages = random_messages(rng)
    needed = whole_size(len(records_of(messages)), len(messages))
    size = (needed - 1, needed, needed + 1, needed - 4, needed - 3, needed - 8, needed - 7, len(records_of(messages)))[turn % 8]
    cases.close(lent_file(rng, records_of(messages), max(size, len(records_of(messages)))), len(records_of(messages)))


def closing_told(cases, rng, turn):
    """Told wrong, with room for it and without."""
    messages = random_messages(rng, rng.choice((0, 1, 1)))
    size = whole_size(len(records_of(messages)), len(messages)) + rng.choice((0, 0, 1, 4, 40, -1, -8))
    file = lent_file(rng, records_of(messages), max(size, len(records_of(messages))))
    cases.close(file, wrong_told(rng, turn, messages, file))


def closing_again(cases, rng, turn):
    """A closed file closed again, also at an earlier record's end, or with its index and trailer spoilt."""
    messages = random_messages(rng)
    parts = parts_of(messages)
    told = rng.choice([parts.index_offset] * 2 + boundaries(messages))
    if turn % 3 == 1:
        rng.choice(TRAILER_DAMAGES + ENTRY_DAMAGES)(rng, parts)
    cases.close(parts.file() + shapes.random_tail(rng, (0, 0, 0, 5)[turn % 4]), told)


# ---- Families: opening, reading and finding


def looking(cases, rng, turn):
    messages = random_messages(rng)
    cases.look(rng, parts_of(messages).file(), messages)


def looking_in_vain(cases, rng, turn):
    """A number or a Session ID that isn't there."""
    messages = random_messages(rng)
    file = parts_of(messages).file()
    if turn % 2:
        cases.put(form.READ, file, absent_number(rng, len(messages)))
    else:
        cases.put(form.FIND, file, absent_wanted(rng, messages))


def looking_for_repeated(cases, rng, turn):
    """Session IDs that two or more messages have, and Client IDs that are another message's Session ID."""
    sessions = [rng.choice((0, rng.randrange(65536))), rng.randrange(65536)]
    messages = [message_of(rng, shapes.random_size(rng), rng.choice(sessions), rng.choice(sessions)) for _ in range(rng.randint(2, 6))]
    cases.put(form.FIND, parts_of(messages).file(), rng.choice(sessions))


def reading_of_all(cases, rng, turn):
    """Of an archive the first record, the last and any."""
    messages = random_messages(rng, 1)
    cases.put(form.READ, parts_of(messages).file(), (1, len(messages), rng.randint(1, len(messages)))[turn % 3])


def looking_at_damaged(ways, least):
    """A family: an archive with one of these damages, all in turn; sometimes two."""

    def family(cases, rng, turn):
        messages = random_messages(rng, rng.choice((least, 2)))
        parts = parts_of(messages)
        ways[turn % len(ways)](rng, parts)
        if rng.random() < 0.25:
            rng.choice(TRAILER_DAMAGES + ENTRY_DAMAGES + RECORD_DAMAGES)(rng, parts)
        cases.look(rng, parts.file(), messages)

    return family


def looking_at_damaged_bytes(cases, rng, turn):
    """Bits, bytes and runs of them changed, cut and put in, all ways in turn."""
    messages = random_messages(rng)
    cases.look(rng, damages.BYTE_DAMAGES[turn % len(damages.BYTE_DAMAGES)](rng, parts_of(messages).file()), messages)


def looking_at_tiny(cases, rng, turn):
    """The empty archive, what is left of it when cut, and others of 0 to 9 bytes."""
    empty = parts_of([]).file()
    tiny = (empty, empty[1:], empty[:7], bytes(8), empty[2:], b"\xff\xff\xff\xfc\x00\x01\x00\x01", b"\x00" + empty, empty + b"\x00", b"")
    cases.look(rng, (tiny + (bytes(7), b"\x00\x01" * 4, rng.randbytes(rng.randint(0, 9))))[turn % 12], [])


def looking_at_anything(cases, rng, turn):
    """Any few bytes with a trailer behind them that could be one."""
    size = rng.choice((0, 1, 4, 8, 18, rng.randint(0, 40)))
    offset = rng.choice((0, size, max(0, size - 4), size + 1, 2**32 - 4, 2**32 - 1, rng.randint(0, size)))
    count = rng.choice((0, 1, 1, 2, size // 4, 65535))
    trailer = offset.to_bytes(4, "big") + shapes.pair(count) + shapes.pair(rng.choice((1, 1, 1, 1, 0, 2)))
    cases.look(rng, rng.choice((bytes(size), rng.randbytes(size))) + trailer, [random_message(rng)])

# ---- Families: many records and large files

MOST_RECORDS = (MOST_FILE_BYTES - TRAILER_BYTES) // (ENTRY_BYTES + LENGTH_BYTES + 16)  # 2,978


def messages_of_total(rng, total, count):
    """So many messages that make an archive of this size."""
    spare = total - TRAILER_BYTES - count * (ENTRY_BYTES + LENGTH_BYTES + 16)
    cuts = sorted(rng.randint(0, spare) for _ in range(count - 1))
    return [random_message(rng, 16 + end - start) for start, end in zip([0] + cuts, cuts + [spare])]


def many_records(cases, rng, turn):
    """About 256 records, so that the count has two bytes; all operations."""
    sessions = [i // 2 * 0x0101 for i in range(rng.randint(254, 259))]
    messages = [message_of(rng, rng.choice((16, 16, 17)), shapes.random_session(rng), session) for session in sessions]
    parts = parts_of(messages)
    told = parts.index_offset
    if turn % 4 == 0:
        rng.choice(TRAILER_DAMAGES + ENTRY_DAMAGES)(rng, parts)
    if turn % 3 == 0:
        cases.close(parts.file(), told)
    elif turn % 3 == 1:
        message = random_message(rng)
        cases.add(lent_file(rng, records_of(messages), needed_with(messages, message) + rng.choice((0, -1, 9))), told, message)
    else:
        cases.look(rng, parts.file(), messages)


def looking_at_large(cases, rng, turn):
    """Files of 65,534 to 65,537 bytes that are right but for their size, by one record, some and the most; rarely damaged."""
    total = (65535, 65536, 65534, 65537)[turn % 4]
    messages = messages_of_total(rng, total, (1, rng.randint(2, 50), MOST_RECORDS)[turn // 4 % 3])
    parts = parts_of(messages)
    if turn % 8 == 6:
        rng.choice(TRAILER_DAMAGES + ENTRY_DAMAGES + RECORD_DAMAGES)(rng, parts)
    cases.look(rng, parts.file(), messages)


LARGE_TOTALS = (65535, 65536, 65534, 65537, 65539, 65540, 65543, 65544)  # room to the byte; without an entry, without the trailer


def adding_to_large(cases, rng, turn):
    """What comes of it would have about 65,535 bytes: by one message, by a small one behind others, by the 2,978th."""
    total = LARGE_TOTALS[turn % 8]
    messages = messages_of_total(rng, total, (1, rng.randint(2, 9), MOST_RECORDS)[turn // 8 % 3])
    rng.shuffle(messages)
    told = len(records_of(messages[:-1]))
    size = rng.choice((65535, 65536, total, total, 66000))
    cases.add(lent_file(rng, records_of(messages[:-1]), max(size, told)), told, messages[-1])


def closing_large(cases, rng, turn):
    """What comes of it would have about 65,535 bytes; the lent file is as long, shorter or longer."""
    total = (65535, 65536, 65534, 65540, 65543)[turn % 5]
    messages = messages_of_total(rng, total, (rng.randint(1, 9), MOST_RECORDS)[turn // 5 % 2])
    told = len(records_of(messages))
    size = rng.choice((65535, 65536, total, total, total - 1, 66000))
    cases.close(lent_file(rng, records_of(messages), max(size, told)), told)


def changing_beyond(cases, rng, turn):
    """Told sizes over 65,535 in a lent file that is longer: whole records, or so only once cut to 16 bits."""
    small = random_message(rng, 16)
    if turn % 2:
        told, records = 65536 + 18, lent_file(rng, records_of([small]), 65600)
    else:
        records = records_of([random_message(rng, rng.choice((65535, 65534, 65516))), small])
        told = len(records) + rng.choice((0, 0, 0, -1))
    message = small if turn // 2 % 2 else b""
    put_change(cases, rng, lent_file(rng, records, len(records) + 64), told, message)


def adding_large_bytes(cases, rng, turn):
    """Bytes of about 65,535, messages or not, to a file that has no room for them, and sometimes to one that has."""
    what = turn % 6
    size = (65535, 65536, 65552, 65535, 65537, 65552)[what]
    message = random_message(rng, size)
    if what == 3:
        message = with_length(message, size - 8 + rng.choice((1, -1)))
    elif what == 5:
        message = with_length(message, size % 65536 - 8)
    room = 66000 if turn // 6 % 4 == 0 else rng.choice((0, 30, 100))
    told = int(turn % 7 == 6)  # rarely wrong
    cases.add(lent_file(rng, b"", room), told, message)


# ---- All of them

FAMILIES = (  # of each hundred cases
    (4, adding_accepted), (2, adding_over), (5, adding_room), (4, adding_told), (2, adding_past_the_end), (5, adding_no_message),
    (4, adding_with_wrongs), (4, changing_damaged), (2, changing_flipped), (3, one_message),
    (2, closing_accepted), (4, closing_room), (5, closing_told), (4, closing_again),
    (6, looking), (4, looking_in_vain), (3, looking_for_repeated), (3, reading_of_all), (8, looking_at_damaged(TRAILER_DAMAGES, 0)),
    (7, looking_at_damaged(ENTRY_DAMAGES, 1)), (6, looking_at_damaged(RECORD_DAMAGES, 1)), (3, looking_at_damaged_bytes),
    (1, looking_at_tiny), (2, looking_at_anything), (1, many_records),
    (1, looking_at_large), (2, adding_to_large), (1, closing_large), (1, changing_beyond), (1, adding_large_bytes),
)


def make_cases(seed, count):
    """So many cases."""
    rng = random.Random(seed)
    cases = Cases()
    turns = collections.Counter()
    round_of_families = []
    while len(cases.all) < count:
        if not round_of_families:
            round_of_families = [family for weight, family in FAMILIES for _ in range(weight)]
            rng.shuffle(round_of_families)
        family = round_of_families.pop()
        family(cases, rng, turns[family])
        turns[family] += 1
    return cases.all


def main():
    counts = sys.argv[1:2] == ["--counts"]
    seed, count = (int(argument) for argument in sys.argv[2 if counts else 1 :])
    cases = make_cases(seed, count)
    if counts:
        print("\n".join(form.counts_lines(cases, [answer.answer(case) for case in cases])))
        print(f"{len(cases)} cases, {sum(len(form.case_bytes(case)) for case in cases)} bytes")
    else:
        sys.stdout.buffer.write(b"".join(form.case_bytes(case) for case in cases))


if __name__ == "__main__":
    main()
