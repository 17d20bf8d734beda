#!/usr/bin/env python3
"""A second program for document 02's request Five, "An archive that opens from its end".

Written from the papers alone: request Five, document 01 for the header, and the decisions for what they leave
open. It shares no code, table or text with the library. It is meant to be held against the paper, so it is plain.

    add(file, told, message)    -> Changed
    close(file, told)           -> Changed
    open_archive(file)          -> Opened
    read(file, n)               -> Found
    find(file, session)         -> Found

Nothing is changed in place: the answer of adding and closing holds the whole lent file as it is afterwards.

Decisions where the paper is silent:
 1. A record's offset is that of its two length bytes; the first record has offset 0.
 2. Opening takes the whole slice as the file. A file lent for adding or closing may be longer than the archive, over 65,535 bytes too.
 3. Sums are sums of whole numbers: none wraps, whatever the told size, the index offset or the number n.
 4. An index that ends past the trailer's start is 51; one that ends before it is 52.
 5. 50 for adding counts the new record, the index with its entry, and the trailer.
 6. A told size over 65,535 that is whole records in a longer lent file is no 52; there is then no room, 50.
 7. Of a message its size and Length are judged, nothing else.
 8. The answers: opening gives the records' size and the number of entries, reading and finding the record's number and
    the message as place and length in the file; adding the records' size with the new record, closing the file's whole
    size. On refusal all are 0.
"""
from dataclasses import dataclass

# ---- Numbers of the paper

MOST_FILE_BYTES = 65535
LENGTH_BYTES = 2  # in front of each message
ENTRY_BYTES = 4  # the record's offset and Session ID, two bytes each
TRAILER_BYTES = 8  # index offset (4), number of entries (2), form number (2)
FORM = 1
LEAST_MESSAGE_BYTES, MOST_MESSAGE_BYTES = 16, 65535

ACCEPTED, NO_ROOM, NO_ARCHIVE, DISAGREES, NO_MESSAGE, NO_SUCH_RECORD = 0, 50, 51, 52, 53, 54


# ---- What is handed back


@dataclass(frozen=True)
class Changed:
    """Of adding: the records' size with the new record. Of closing: the file's whole size."""

    verdict: int
    size: int
    file: bytes  # the whole lent file as it is after the call


@dataclass(frozen=True)
class Opened:
    verdict: int
    records_size: int  # this is the index offset
    entries: int


@dataclass(frozen=True)
class Found:
    verdict: int
    number: int  # the record's, from 1
    place: int  # of the message in the file
    length: int


@dataclass(frozen=True)
class Record:
    offset: int  # of the two length bytes
    message: bytes


# ---- Messages and records


def number_of(field):
    return int.from_bytes(field, "big")


def is_message(data):
    """A message is 16 to 65,535 bytes whose Length is its size less 8."""
    return LEAST_MESSAGE_BYTES <= len(data) <= MOST_MESSAGE_BYTES and number_of(data[4:8]) == len(data) - 8


def session_of(message):
    return number_of(message[10:12])


def record_bytes(message):
    """Two bytes of length, then the message."""
    return len(message).to_bytes(LENGTH_BYTES, "big") + message


def records_of(data):
    """The records that these bytes are, from the first byte to the last; None if they aren't whole records of messages."""
    records = []
    at = 0
    while at < len(data):
        message_at = at + LENGTH_BYTES
        if message_at > len(data):
            return None
        message_end = message_at + number_of(data[at:message_at])
        if message_end > len(data):
            return None
        message = data[message_at:message_end]
        if not is_message(message):
            return None
        records.append(Record(at, message))
        at = message_end
    return records


# ---- Index and trailer


def index_bytes(records):
    """Entries in record order: the record's offset and Session ID."""
    entries = [record.offset.to_bytes(2, "big") + session_of(record.message).to_bytes(2, "big") for record in records]
    return b"".join(entries)


def trailer_bytes(index_offset, entries):
    return index_offset.to_bytes(4, "big") + entries.to_bytes(2, "big") + FORM.to_bytes(2, "big")


def whole_size(records_size, entries):
    """Records, index and trailer."""
    return records_size + ENTRY_BYTES * entries + TRAILER_BYTES


def fits(size, file):
    """In the lent file and in 65,535 bytes."""
    return size <= len(file) and size <= MOST_FILE_BYTES


# ---- Adding and closing


def add(file, told, message):
    """Order: 52, 53, 50. Writes the record alone."""
    records = told_records(file, told)
    if records is None:
        return Changed(DISAGREES, 0, file)
    if not is_message(message):
        return Changed(NO_MESSAGE, 0, file)
    record = record_bytes(message)
    if not fits(whole_size(told + len(record), len(records) + 1), file):
        return Changed(NO_ROOM, 0, file)
    return Changed(ACCEPTED, told + len(record), written(file, told, record))


def close(file, told):
    """Order: 52, 50. Writes index and trailer alone."""
    records = told_records(file, told)
    if records is None:
        return Changed(DISAGREES, 0, file)
    if not fits(whole_size(told, len(records)), file):
        return Changed(NO_ROOM, 0, file)
    tail = index_bytes(records) + trailer_bytes(told, len(records))
    return Changed(ACCEPTED, told + len(tail), written(file, told, tail))


def told_records(file, told):
    """The records of the told size; None if that size isn't whole records of messages in the file."""
    if told > len(file):
        return None
    return records_of(file[:told])


def written(file, place, data):
    """The file with this data at this place, all else as it was."""
    return file[:place] + data + file[place + len(data) :]


# ---- Opening, reading and finding


def open_archive(file):
    """Order: 51, 52."""
    verdict, records = opened(file)
    if verdict != ACCEPTED:
        return Opened(verdict, 0, 0)
    return Opened(ACCEPTED, sum(LENGTH_BYTES + len(record.message) for record in records), len(records))


def read(file, n):
    """The n-th record, from 1. Refuses as opening does, then 54."""
    verdict, records = opened(file)
    if verdict != ACCEPTED:
        return Found(verdict, 0, 0, 0)
    if not 1 <= n <= len(records):
        return Found(NO_SUCH_RECORD, 0, 0, 0)
    return found(n, records[n - 1])


def find(file, session):
    """The first record whose message has this Session ID. Refuses as opening does, then 54."""
    verdict, records = opened(file)
    if verdict != ACCEPTED:
        return Found(verdict, 0, 0, 0)
    for number, record in enumerate(records, start=1):
        if session_of(record.message) == session:
            return found(number, record)
    return Found(NO_SUCH_RECORD, 0, 0, 0)


def found(number, record):
    return Found(ACCEPTED, number, record.offset + LENGTH_BYTES, len(record.message))


def opened(file):
    """The verdict of opening, and the records, None on refusal."""
    if not TRAILER_BYTES <= len(file) <= MOST_FILE_BYTES:
        return NO_ARCHIVE, None
    trailer_at = len(file) - TRAILER_BYTES
    trailer = file[trailer_at:]
    index_offset, entries, form = number_of(trailer[0:4]), number_of(trailer[4:6]), number_of(trailer[6:8])
    if index_offset + ENTRY_BYTES * entries > trailer_at:
        return NO_ARCHIVE, None
    if form != FORM:
        return NO_ARCHIVE, None
    records = records_of(file[:index_offset])
    if records is None:
        return DISAGREES, None
    if len(records) != entries:
        return DISAGREES, None
    if file[index_offset:trailer_at] != index_bytes(records):
        return DISAGREES, None
    return ACCEPTED, records
