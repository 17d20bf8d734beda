#!/usr/bin/env python3
"""What request Five says of all archives, tried on the second program with random ones.

    python3 tests/archive/properties.py SEED COUNT

Status 1 at the first that fails, with its bytes.
"""
import random
import sys

import damages
import shapes
from archive import add, close, find, open_archive, read, session_of, whole_size


def hold(what, truth, *bytes_shown):
    if not truth:
        print("fails:", what)
        for shown in bytes_shown:
            print(shown.hex(" ").upper())
        sys.exit(1)


def closed_from(file, messages):
    """The lent file with these messages added from nothing and closed; each step writes its own bytes alone. And its whole size."""
    told = 0
    for message in messages:
        added = add(file, told, message)
        hold("a message that has room is added", added.verdict == 0 and added.size == told + 2 + len(message), file, message)
        hold("adding writes the record alone", only_changed(file, added.file, told, added.size), file, message)
        file, told = added.file, added.size
    closed = close(file, told)
    hold("it is closed", closed.verdict == 0 and closed.size == whole_size(told, len(messages)), file)
    hold("closing writes index and trailer alone", only_changed(file, closed.file, told, closed.size), file)
    return closed.file, closed.size


def only_changed(before, after, start, end):
    return len(before) == len(after) and before[:start] == after[:start] and before[end:] == after[end:]


def messages_in(file):
    """The messages that an accepted file gives, one by one."""
    found = [read(file, n) for n in range(1, open_archive(file).entries + 1)]
    return [file[each.place : each.place + each.length] for each in found]


def opens_to_what_was_added(rng):
    """A closed file opens to the messages added, in order; each Session ID is found first where it first stands."""
    messages = shapes.random_messages(rng)
    size = whole_size(len(shapes.records_of(messages)), len(messages))
    lent = rng.randbytes(size + rng.choice((0, 0, 1, 50)))
    after, whole = closed_from(lent, messages)
    file = after[:whole]
    hold("the archive has its size", whole == size, file)
    hold("it opens", open_archive(file).verdict == 0, file)
    hold("to the messages added", messages_in(file) == messages, file)
    hold("and to no more", read(file, len(messages) + 1).verdict == 54, file)
    sessions = [session_of(message) for message in messages]
    for session in set(sessions):
        hold("the first is found", find(file, session) == read(file, sessions.index(session) + 1), file)
    hold("an absent one isn't", find(file, min(set(range(65536)) - set(sessions))).verdict == 54, file)
    if messages:
        hold("the last message needs every byte", add_all(lent[: size - 1], messages) == 50, file)


def add_all(file, messages):
    """The verdict of the last adding."""
    told, verdict = 0, 0
    for message in messages:
        added = add(file, told, message)
        file, told, verdict = added.file, added.size, added.verdict
    return verdict


def is_its_own_closing(rng):
    """A file opens exactly if some told size closes it to itself, and that size is then the records'. A refusal changes nothing."""
    messages = shapes.random_messages(rng)[:3]
    parts = shapes.parts_of(messages)
    for _ in range(rng.choice((0, 1, 1, 2))):
        rng.choice(damages.TRAILER_DAMAGES + damages.ENTRY_DAMAGES + damages.RECORD_DAMAGES)(rng, parts)
    file = parts.file()
    if rng.random() < 0.3:
        file = rng.choice(damages.BYTE_DAMAGES)(rng, file)
    opened = open_archive(file)
    same = []
    for told in range(len(file) + 2):
        closed = close(file, told)
        hold("a refused closing changes nothing", closed.verdict == 0 or (closed.size, closed.file) == (0, file), file)
        if (closed.verdict, closed.size, closed.file) == (0, len(file), file):
            same.append(told)
    hold("it opens exactly if it is its own closing", same == ([opened.records_size] if opened.verdict == 0 else []), file)
    if opened.verdict == 0:
        rebuilt, whole = closed_from(bytes(len(file)), messages_in(file))
        hold("its messages, added and closed, give its bytes", (rebuilt, whole) == (file, len(file)), file, rebuilt)


def refusals_agree(rng):
    """Reading and finding refuse as opening does, with zeros; a refused adding changes nothing."""
    messages = shapes.random_messages(rng)
    file = rng.choice(damages.BYTE_DAMAGES)(rng, shapes.parts_of(messages).file())
    verdict = open_archive(file).verdict
    for found in (read(file, rng.choice((0, 1, 2, 2**64 - 1))), find(file, shapes.random_session(rng))):
        hold("as opening does, else 54 or found", found.verdict == verdict or (verdict == 0 and found.verdict == 54), file)
        hold("zeros on refusal", found.verdict == 0 or (found.number, found.place, found.length) == (0, 0, 0), file)
    message = rng.choice((shapes.random_message(rng), shapes.no_message(rng, rng.randrange(100))))
    added = add(file, rng.choice(shapes.boundaries(messages) + [rng.randrange(2**64)]), message)
    hold("a refused adding changes nothing", added.verdict == 0 or (added.size, added.file) == (0, file), file, message)


def every_small_change(rng):
    """Of one small archive each byte with each value: it opens exactly if it is again what its messages give."""
    messages = [shapes.random_message(rng, 16) for _ in range(2)]
    file = shapes.parts_of(messages).file()
    for at in range(len(file)):
        for value in range(256):
            other = file[:at] + bytes([value]) + file[at + 1 :]
            opened = open_archive(other)
            if opened.verdict == 0:
                hold("its messages give its bytes", closed_from(bytes(len(other)), messages_in(other))[0] == other, other)
            else:
                hold("records that were right and an index as before open", not is_free(at), other)


def is_free(at):
    """Whether this byte of two records of 16-byte messages may be anything: no length, Length, Session ID, index or trailer."""
    return at < 36 and at % 18 not in (0, 1, 6, 7, 8, 9, 12, 13)


def main():
    seed, count = int(sys.argv[1]), int(sys.argv[2])
    rng = random.Random(seed)
    for _ in range(count):
        opens_to_what_was_added(rng)
        is_its_own_closing(rng)
        refusals_agree(rng)
    every_small_change(rng)
    print(f"{count} of each hold")


if __name__ == "__main__":
    main()
