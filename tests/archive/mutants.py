#!/usr/bin/env python3
"""How well the generated archive cases tell wrong programs from the right one.

    python3 tests/archive/mutants.py SEED COUNT

Each wrong program is archive.py with one edit. For each it prints how many of the cases get another
answer from it. A wrong program that no case finds is printed last and makes the exit code 1.
"""
import os
import sys

import answer
import archive
import gen

sys.path.insert(0, os.path.join(os.path.dirname(os.path.abspath(__file__)), "..", "shared"))
import mutation  # noqa: E402

# ---- Words of archive.py that the edits change

SIZES = "LEAST_MESSAGE_BYTES, MOST_MESSAGE_BYTES = 16, 65535"
LENGTH = "number_of(data[4:8]) == len(data) - 8"
SESSION = "number_of(message[10:12])"
RECORD = 'return len(message).to_bytes(LENGTH_BYTES, "big") + message'
ONE_BYTE_LEFT = "        if message_at > len(data):\n            return None\n"
RECORD_CUT = "        if message_end > len(data):\n            return None\n"
RECORD_JUDGED = "        if not is_message(message):\n            return None\n"
RECORD_TAKEN = "        records.append(Record(at, message))\n"
ENTRY_OFFSET = 'record.offset.to_bytes(2, "big")'
ENTRY_SESSION = 'session_of(record.message).to_bytes(2, "big")'
TRAILER_OFFSET = 'index_offset.to_bytes(4, "big")'
TRAILER_COUNT = 'entries.to_bytes(2, "big")'
TRAILER_FORM = 'FORM.to_bytes(2, "big")'
WHOLE = "return records_size + ENTRY_BYTES * entries + TRAILER_BYTES"
FITS = "return size <= len(file) and size <= MOST_FILE_BYTES"

ADD_STARTS = '    """Order: 52, 53, 50. Writes the record alone."""\n'
ADD_52 = "        return Changed(DISAGREES, 0, file)\n    if not is_message(message):\n"
ADD_53 = "    if not is_message(message):\n        return Changed(NO_MESSAGE, 0, file)\n"
ADD_ROOM = "    if not fits(whole_size(told + len(record), len(records) + 1), file):\n"
ADD_50 = "        return Changed(NO_ROOM, 0, file)\n    return Changed(ACCEPTED, told + len(record)"
ADD_SIZE = "return Changed(ACCEPTED, told + len(record), "
ADD_WRITES = "written(file, told, record)"

CLOSE_STARTS = '    """Order: 52, 50. Writes index and trailer alone."""\n'
CLOSE_ROOM = "    if not fits(whole_size(told, len(records)), file):\n"
CLOSE_52 = "        return Changed(DISAGREES, 0, file)\n" + CLOSE_ROOM
CLOSE_50 = "        return Changed(NO_ROOM, 0, file)\n    tail"
CLOSE_SIZE = "return Changed(ACCEPTED, told + len(tail), "
CLOSE_WRITES = "written(file, told, tail)"

TOLD_PAST = "    if told > len(file):\n        return None\n"
TOLD_WALK = "    return records_of(file[:told])\n"

FILE_51 = "    if not TRAILER_BYTES <= len(file) <= MOST_FILE_BYTES:\n        return NO_ARCHIVE, None\n"
END_51 = "    if index_offset + ENTRY_BYTES * entries > trailer_at:\n        return NO_ARCHIVE, None\n"
FORM_51 = "    if form != FORM:\n        return NO_ARCHIVE, None\n"
OPEN_WALK = "    records = records_of(file[:index_offset])\n"
RECORDS_52 = "    if records is None:\n        return DISAGREES, None\n"
COUNT_52 = "    if len(records) != entries:\n        return DISAGREES, None\n"
INDEX_52 = "    if file[index_offset:trailer_at] != index_bytes(records):\n"
OPEN_SIZE = "sum(LENGTH_BYTES + len(record.message) for record in records)"

READ_STARTS = '    """The n-th record, from 1. Refuses as opening does, then 54."""\n'
READ_54 = "    if not 1 <= n <= len(records):\n        return Found(NO_SUCH_RECORD, 0, 0, 0)\n"
READ_FOUND = "    return found(n, records[n - 1])\n"
FIND_STARTS = '    """The first record whose message has this Session ID. Refuses as opening does, then 54."""\n'
FIND_WALK = "enumerate(records, start=1):"
FIND_SAME = "if session_of(record.message) == session:"
FIND_54 = "            return found(number, record)\n    return Found(NO_SUCH_RECORD, 0, 0, 0)\n"
PLACE, PLACE_LENGTH = "record.offset + LENGTH_BYTES, ", "record.offset + LENGTH_BYTES, len(record.message))"

# ---- Longer wrong words

INDEX_END = "index_offset + ENTRY_BYTES * entries"
ANSWER_50 = "        return Changed(NO_ROOM, 0, file)\n"
ANSWER_54 = "        return Found(NO_SUCH_RECORD, 0, 0, 0)\n"
CLOSED_AT_ONCE = (
    "written(written(file, told, record), told + len(record), "
    "index_bytes(records_of(file[:told] + record)) + trailer_bytes(told + len(record), len(records) + 1))"
)
LENGTH_WRITTEN = (
    "        head = (len(message) % 2**16).to_bytes(2, 'big')\n"
    "        return Changed(NO_MESSAGE, 0, written(file, told, head) if told + 2 <= len(file) else file)\n"
)
WRITTEN_BY_52 = "written(file, told, record_bytes(message[:65535]))[: len(file)] if told < len(file) else file"
WALK_OVER_TOLD = (
    "    records, at = [], 0\n"
    "    while at < told:\n"
    "        size = number_of(file[at : at + 2])\n"
    "        message = file[at + 2 : at + 2 + size]\n"
    "        if not is_message(message) or len(message) < size:\n"
    "            return None\n"
    "        records.append(Record(at, message))\n"
    "        at += 2 + size\n"
    "    return records\n"
)
WALK_BY_INDEX = (
    "    places = [number_of(file[at : at + 2]) for at in range(index_offset, trailer_at - 3, 4)]\n"
    "    records = [Record(at, file[at + 2 : at + 2 + number_of(file[at : at + 2])]) for at in places]\n"
    "    records = records if all(is_message(record.message) for record in records) else None\n"
)
WALK_WITH_GAP = (
    "    ends = [end for end in range(max(0, index_offset - 3), index_offset + 1) if records_of(file[:end]) is not None]\n"
    "    records = records_of(file[: ends[-1]]) if ends else None\n"
)
ENTRIES_BY = (
    "    entries_of = lambda index: %s(index[at : at + 4]%s for at in range(0, len(index), 4))\n"
    "    if entries_of(file[index_offset:trailer_at]) != entries_of(index_bytes(records)):\n"
)

EDITS = (  # what is wrong; archive.py's words; the wrong words
    # Messages
    ("15 bytes are a message", SIZES, SIZES.replace("16,", "15,")),
    ("16 bytes are no message", SIZES, SIZES.replace("16,", "17,")),
    ("8 bytes are a message", SIZES, SIZES.replace("16,", "8,")),
    ("65,535 bytes are no message", SIZES, SIZES.replace("65535", "65534")),
    ("over 32,767 bytes are no message", SIZES, SIZES.replace("65535", "32767")),
    ("50 for 65,536 bytes", ADD_53, ADD_53.replace("NO_MESSAGE", "NO_ROOM if len(message) == 65536 else NO_MESSAGE")),
    ("Length is the size", LENGTH, "number_of(data[4:8]) in (len(data) - 8, len(data))"),
    ("Length may be less", LENGTH, LENGTH.replace("==", "<=")),
    ("Length may be more", LENGTH, LENGTH.replace("==", ">=")),
    ("Length one less", LENGTH, "number_of(data[4:8]) in (len(data) - 8, len(data) - 9)"),
    ("Length one more", LENGTH, "number_of(data[4:8]) in (len(data) - 8, len(data) - 7)"),
    ("Length's last two bytes only", LENGTH, "number_of(data[6:8]) == (len(data) - 8) % 2**16"),
    ("Length's last three bytes only", LENGTH, "number_of(data[5:8]) == (len(data) - 8) % 2**24"),
    ("Length not asked for", " and " + LENGTH, ""),
    ("Length little-endian", LENGTH, 'int.from_bytes(data[4:8], "little") == len(data) - 8'),
    ("Protocol Version judged", LENGTH, LENGTH + " and data[12] == 1"),
    ("Message Type judged", LENGTH, LENGTH + " and data[14] in (0, 1, 2, 128, 129)"),
    ("payload up to 1,400 bytes", LENGTH, LENGTH + " and len(data) <= 1416"),
    ("session at Client's place", SESSION, "number_of(message[8:10])"),
    ("Session ID's last byte only", SESSION, "message[11]"),
    ("Session ID little-endian", SESSION, 'int.from_bytes(message[10:12], "little")'),
    # Records
    ("length of the whole record", RECORD, RECORD.replace("len(message)", "(len(message) + 2)")),
    ("record's length little-endian", RECORD, RECORD.replace("big", "little")),
    ("one byte left is no record", ONE_BYTE_LEFT, ONE_BYTE_LEFT.replace("return None", "break")),
    ("a cut record ends the walk", RECORD_CUT, RECORD_CUT.replace("return None", "break")),
    ("a cut record is the bytes there", RECORD_CUT, "        message_end = min(message_end, len(data))\n"),
    ("no message ends the walk", RECORD_JUDGED, RECORD_JUDGED.replace("return None", "break")),
    ("the first record's message looked at only", RECORD_JUDGED, RECORD_JUDGED.replace("if", "if at == 0 and")),
    ("the last record's message not looked at", RECORD_JUDGED, RECORD_JUDGED.replace("if", "if message_end < len(data) and")),
    ("records not looked at as messages", RECORD_JUDGED, ""),
    ("an empty record passes", RECORD_JUDGED, RECORD_JUDGED.replace("if", "if message and")),
    ("at most 255 records", RECORD_TAKEN, RECORD_TAKEN + "        if len(records) > 255:\n            return None\n"),
    ("at most 2,977 records", RECORD_TAKEN, RECORD_TAKEN + "        if len(records) > 2977:\n            return None\n"),
    # Index and trailer
    ("offset of the message", ENTRY_OFFSET, '(record.offset + 2).to_bytes(2, "big")'),
    ("offsets from 1", ENTRY_OFFSET, '(record.offset + 1).to_bytes(2, "big")'),
    ("entry's offset little-endian", ENTRY_OFFSET, ENTRY_OFFSET.replace("big", "little")),
    ("entry's offset of one byte", ENTRY_OFFSET, '(record.offset % 2**8).to_bytes(2, "big")'),
    ("entry's offset of 15 bits", ENTRY_OFFSET, '(record.offset % 2**15).to_bytes(2, "big")'),
    ("Session ID before the offset", ENTRY_OFFSET + " + " + ENTRY_SESSION, ENTRY_SESSION + " + " + ENTRY_OFFSET),
    ("index offset little-endian", TRAILER_OFFSET, TRAILER_OFFSET.replace("big", "little")),
    ("index offset from 1", TRAILER_OFFSET, '(index_offset + 1).to_bytes(4, "big")'),
    ("count little-endian", TRAILER_COUNT, TRAILER_COUNT.replace("big", "little")),
    ("count of one byte", TRAILER_COUNT, '(entries % 2**8).to_bytes(2, "big")'),
    ("form 2 is written", TRAILER_FORM, '(2).to_bytes(2, "big")'),
    ("form before count", TRAILER_COUNT + " + " + TRAILER_FORM, TRAILER_FORM + " + " + TRAILER_COUNT),
    # Room
    ("50 without the trailer", WHOLE, "return records_size + ENTRY_BYTES * entries"),
    ("50 without the index", WHOLE, "return records_size + TRAILER_BYTES"),
    ("lent file one byte short is enough", FITS, FITS.replace("len(file)", "len(file) + 1")),
    ("exactly full is refused", FITS, FITS.replace("<= len(file)", "< len(file)")),
    ("65,535 is not written", FITS, FITS.replace("<= MOST", "< MOST")),
    ("65,536 is written", FITS, FITS + " + 1"),
    ("65,535 counted without the trailer", FITS, FITS + " + TRAILER_BYTES"),
    ("a lent file over 65,535 is refused", FITS, FITS + " and len(file) <= MOST_FILE_BYTES"),
    ("room in 16 bits", FITS, FITS.replace("size", "size % 2**16")),
    # Adding
    ("50 without the new entry", ADD_ROOM, ADD_ROOM.replace("len(records) + 1", "len(records)")),
    ("50 with an entry too many", ADD_ROOM, ADD_ROOM.replace("len(records) + 1", "len(records) + 2")),
    ("50 for the record alone", ADD_ROOM, "    if not fits(told + len(record), file):\n"),
    ("50 without the record's two bytes", ADD_ROOM, ADD_ROOM.replace("len(record),", "len(message),")),
    ("53 before 52", ADD_STARTS, ADD_53),
    ("50 before 53", ADD_53, ADD_ROOM.replace("len(record),", "2 + len(message),") + ANSWER_50 + ADD_53),
    ("50 before 52 in adding", ADD_STARTS, "    if not fits(told + 8, file):\n" + ANSWER_50),
    ("53 not asked for", ADD_53, ""),
    ("adding answers the whole size", ADD_SIZE, "return Changed(ACCEPTED, whole_size(told + len(record), len(records) + 1), "),
    ("adding answers the message's end without its two bytes", ADD_SIZE, ADD_SIZE.replace("record", "message")),
    ("adding closes too", ADD_WRITES, CLOSED_AT_ONCE),
    ("adding clears the rest", ADD_WRITES, "file[:told] + record + bytes(len(file) - told - len(record))"),
    ("adding writes one byte more", ADD_WRITES, 'written(file, told, record + b"\\0")'),
    ("adding writes nothing", ADD_WRITES, "file"),
    ("adding writes the message alone", ADD_WRITES, "written(file, told + 2, message)"),
    ("adding writes at the file's start", ADD_WRITES, "written(file, 0, record)"),
    ("a refused adding writes the length, 53", "        return Changed(NO_MESSAGE, 0, file)\n", LENGTH_WRITTEN),
    ("a refused adding writes what fits, 50", ADD_50, ADD_50.replace("0, file", "0, written(file, told, record)[: len(file)]")),
    ("a refused adding writes, 52", ADD_52, ADD_52.replace("0, file", "0, " + WRITTEN_BY_52)),
    ("a refused adding answers the told size", ADD_50, ADD_50.replace("0, file", "told, file")),
    # Closing
    ("closing asks for one entry more", CLOSE_ROOM, CLOSE_ROOM.replace("len(records)", "len(records) + 1")),
    ("50 before 52 in closing", CLOSE_STARTS, "    if not fits(told + 8, file):\n" + ANSWER_50),
    ("closing answers the records' size", CLOSE_SIZE, CLOSE_SIZE.replace(" + len(tail)", "")),
    ("closing answers the lent file's size", CLOSE_SIZE, CLOSE_SIZE.replace("told + len(tail)", "len(file)")),
    ("trailer at the lent file's end", CLOSE_WRITES, "written(written(file, told, tail[:-8]), len(file) - 8, tail[-8:])"),
    ("closing writes past", CLOSE_WRITES, 'written(file, told, tail + b"\\0")[: len(file)]'),
    ("closing clears the rest", CLOSE_WRITES, "file[:told] + tail + bytes(len(file) - told - len(tail))"),
    ("closing cuts the file", CLOSE_WRITES, "file[:told] + tail"),
    ("closing leaves out the index", CLOSE_WRITES, "written(file, told + len(tail) - 8, tail[-8:])"),
    ("closing leaves out the trailer", CLOSE_WRITES, "written(file, told, tail[:-8])"),
    ("a refused closing writes what fits, 50", CLOSE_50, CLOSE_50.replace("0, file", "0, written(file, told, bytes(8))[: len(file)]")),
    ("a refused closing writes, 52", CLOSE_52, CLOSE_52.replace("0, file)\n", "0, file[:-8] + trailer_bytes(told % 2**32, 0))\n", 1)),
    ("a refused closing answers the told size", CLOSE_52, CLOSE_52.replace("0, file)\n", "told, file)\n", 1)),
    # Told sizes
    ("told size in 32 bits", TOLD_PAST + TOLD_WALK, (TOLD_PAST + TOLD_WALK).replace("told", "told % 2**32")),
    ("told size in 16 bits", TOLD_WALK, TOLD_WALK.replace("told", "told % 2**16")),
    ("told size past the end is the end", TOLD_PAST, ""),
    ("told size of the file's end is refused", TOLD_PAST, TOLD_PAST.replace(">", ">=")),
    ("told size over 65,535 is 52", TOLD_PAST, TOLD_PAST.replace("len(file)", "min(len(file), MOST_FILE_BYTES)")),
    ("told size 0 is refused", TOLD_PAST, TOLD_PAST.replace("len(file)", "len(file) or told == 0")),
    ("told size not checked", TOLD_WALK, "    return records_of(file[:told]) or []\n"),
    ("a record may reach over the told size", TOLD_WALK, WALK_OVER_TOLD),
    # Opening
    ("7 bytes are a file", FILE_51, "    file = bytes(len(file) == 7) + file\n" + FILE_51),
    ("under 8 bytes is 52", FILE_51, FILE_51.replace("NO_ARCHIVE", "DISAGREES if len(file) < 8 else NO_ARCHIVE")),
    ("8 bytes are no file", FILE_51, FILE_51.replace("TRAILER_BYTES <=", "TRAILER_BYTES <")),
    ("65,536 bytes are opened", FILE_51, FILE_51.replace("MOST_FILE_BYTES", "MOST_FILE_BYTES + 1")),
    ("65,535 bytes are not opened", FILE_51, FILE_51.replace("<= MOST", "< MOST")),
    ("over 65,535 bytes is 52", FILE_51, FILE_51.replace("NO_ARCHIVE", "DISAGREES if len(file) > 8 else NO_ARCHIVE")),
    ("index's end wraps at 32 bits", END_51, END_51.replace(INDEX_END, f"({INDEX_END}) % 2**32")),
    ("entries' bytes wrap at 16 bits", END_51, END_51.replace("ENTRY_BYTES * entries", "ENTRY_BYTES * entries % 2**16")),
    ("index offset in 16 bits", "number_of(trailer[0:4])", "number_of(trailer[2:4])"),
    ("index may end one past the trailer's start", END_51, END_51.replace("> trailer_at", "> trailer_at + 1")),
    ("index may reach over the trailer", END_51, END_51.replace("> trailer_at", "> len(file)")),
    ("index offset alone looked at", END_51, END_51.replace(" + ENTRY_BYTES * entries", "")),
    ("index ending early is 51", END_51, END_51.replace("> trailer_at", "!= trailer_at")),
    ("52 for an index past the trailer", END_51, END_51.replace("NO_ARCHIVE", "DISAGREES")),
    ("form not asked for", FORM_51, ""),
    ("form 0 is opened", FORM_51, FORM_51.replace("!= FORM", "not in (0, 1)")),
    ("form 2 is opened", FORM_51, FORM_51.replace("!= FORM", "not in (1, 2)")),
    ("form's last byte only", FORM_51, FORM_51.replace("form !=", "form % 256 !=")),
    ("another form is 52", FORM_51, FORM_51.replace("NO_ARCHIVE", "DISAGREES")),
    ("52 before 51", FORM_51, FORM_51.replace("NO_ARCHIVE", "NO_ARCHIVE if records_of(file[:index_offset]) is not None else DISAGREES")),
    ("bad records are 51", RECORDS_52, RECORDS_52.replace("DISAGREES", "NO_ARCHIVE")),
    ("count may be less", COUNT_52, COUNT_52.replace("!=", "<")),
    ("count may be more", COUNT_52 + INDEX_52, COUNT_52.replace("!=", ">") + INDEX_52.replace("at] !=", "at][: 4 * len(records)] !=")),
    ("records without an entry", COUNT_52, COUNT_52.replace("!=", "<") + "    records = records[:entries]\n"),
    ("gap before the trailer", INDEX_52, INDEX_52.replace("trailer_at", INDEX_END)),
    ("gap before the index", OPEN_WALK, WALK_WITH_GAP),
    ("index not looked at", INDEX_52, f"    if {INDEX_END} != trailer_at:\n"),
    ("entries' offsets not looked at", INDEX_52, ENTRIES_BY % ("list", "[2:4]")),
    ("entries' Session IDs not looked at", INDEX_52, ENTRIES_BY % ("list", "[0:2]")),
    ("entries in any order", INDEX_52, ENTRIES_BY % ("sorted", "")),
    ("last entry not looked at", INDEX_52, INDEX_52.replace("trailer_at]", "trailer_at][:-4]").replace("(records)", "(records)[:-4]")),
    ("records by the index alone", OPEN_WALK, WALK_BY_INDEX),
    ("no entries is refused", COUNT_52, COUNT_52.replace("!= entries", "!= entries or entries == 0")),
    ("opening answers the file's size", OPEN_SIZE, "len(file)"),
    ("opening answers the messages' bytes", OPEN_SIZE, OPEN_SIZE.replace("LENGTH_BYTES + ", "")),
    ("opening answers one entry less", OPEN_SIZE + ", len(records)", OPEN_SIZE + ", max(1, len(records)) - 1"),
    # Reading and finding
    ("n from 0", READ_54 + READ_FOUND, READ_54.replace("1 <= n <=", "0 <= n <") + "    return found(n, records[n])\n"),
    ("n = 0 is the last", READ_54, READ_54.replace("1 <= n", "1 - bool(records) <= n")),
    ("n past the last is the last", READ_54, "    n = min(n, len(records))\n" + READ_54),
    ("n in 32 bits", READ_54, "    n %= 2**32\n" + READ_54),
    ("n in 16 bits", READ_54, "    n %= 2**16\n" + READ_54),
    ("54 before 51 and 52 for n = 0", READ_STARTS, "    if n == 0:\n" + ANSWER_54),
    ("54 before 52 for n over the count", READ_STARTS, "    if opened(file)[0] == DISAGREES and n > number_of(file[-4:-2]):\n" + ANSWER_54),
    ("reading gives 54 for 51", READ_STARTS, "    if opened(file)[0] == NO_ARCHIVE:\n" + ANSWER_54),
    ("finding gives 54 for 52", FIND_STARTS, "    if opened(file)[0] == DISAGREES:\n" + ANSWER_54),
    ("a refused reading answers n", READ_54, READ_54.replace("RECORD, 0", "RECORD, n")),
    ("place of the record", PLACE, "record.offset, "),
    ("length of the record", PLACE_LENGTH, PLACE + "LENGTH_BYTES + len(record.message))"),
    ("place and length exchanged", PLACE_LENGTH, "len(record.message), record.offset + LENGTH_BYTES)"),
    ("the last of the Session ID", FIND_WALK, "reversed(list(enumerate(records, start=1))):"),
    ("found number from 0", FIND_WALK, "enumerate(records):"),
    ("the first record is passed over", FIND_WALK, "list(enumerate(records, start=1))[1:]:"),
    ("the last record is passed over", FIND_WALK, "list(enumerate(records, start=1))[:-1]:"),
    ("two records are looked through", FIND_WALK, "enumerate(records[:2], start=1):"),
    ("finding by the Client ID", FIND_SAME, "if number_of(record.message[8:10]) == session:"),
    ("Session ID 0 is none", FIND_SAME, FIND_SAME.replace("if", "if session and")),
    ("finding nothing is accepted", FIND_54, FIND_54.replace("NO_SUCH_RECORD", "ACCEPTED")),
)


def answers_of(cases, program):
    answer.archive = program
    found = []
    for case in cases:
        try:
            found.append(answer.answer(case))
        except Exception as error:  # a wrong program may also stop
            found.append(repr(error))
    answer.archive = archive
    return found


def main():
    seed, count = int(sys.argv[1]), int(sys.argv[2])
    mutation.run(archive, EDITS, gen.make_cases(seed, count), answers_of)


if __name__ == "__main__":
    main()
