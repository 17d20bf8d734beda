#!/usr/bin/env python3
"""Hand-found answers for the second program: request Five's archive, byte by byte.

    python3 tests/archive/test_archive.py
"""
import sys

from archive import Changed, Found, Opened, add, close, find, is_message, open_archive, read

passed, failed = 0, 0


def check(name, got, want):
    global passed, failed
    if got == want:
        passed += 1
    else:
        failed += 1
        print(f"{name}:\n  got  {got}\n  want {want}")


def of(digits):
    return bytes.fromhex(digits)


# ---- Messages, records and archives by hand

ONE = of("4A 01 80 01 00 00 00 08 00 02 00 01 01 01 02 00")  # 16 bytes, Client ID 2, Session ID 1
TWO = of("4A 01 80 01 00 00 00 0C 00 01 01 00 01 01 02 00 10 02 FF 83")  # 20 bytes, Session ID 256
THREE = of("00 00 00 00 00 00 00 09 01 00 00 01 07 00 FF 55 AA")  # 17 bytes, Session ID 1 again; versions and type are not judged

EMPTY = of("00 00 00 00 00 00 00 01")
ARCHIVE_1 = of("00 10") + ONE + of("00 00 00 01") + of("00 00 00 12 00 01 00 01")
RECORDS_3 = of("00 10") + ONE + of("00 14") + TWO + of("00 11") + THREE
INDEX_3 = of("00 00 00 01") + of("00 12 01 00") + of("00 28 00 01")
ARCHIVE_3 = RECORDS_3 + INDEX_3 + of("00 00 00 3B 00 03 00 01")


def check_sizes():
    """The vectors themselves."""
    check("one message", (len(ARCHIVE_1), len(ARCHIVE_3), len(RECORDS_3)), (30, 79, 59))
    for name, message in (("one", ONE), ("two", TWO), ("three", THREE)):
        check(f"{name} is a message", is_message(message), True)


# ---- Messages


def sized(size, length):
    """Bytes of this size with this Length."""
    return (ONE[:4] + length.to_bytes(4, "big") + ONE[8:] + bytes(70000))[:size]


def check_messages():
    for size, length, want in (
        (16, 8, True), (15, 7, False), (15, 8, False), (16, 7, False), (16, 9, False), (17, 9, True), (17, 8, False), (16, 16, False),
        (16, 0, False), (8, 0, False), (16, 0x10008, False), (65535, 65527, True), (65535, 65526, False), (65536, 65528, False),
        (65552, 65544, False), (65552, 8, False),
    ):
        check(f"{size} bytes with Length {length}", is_message(sized(size, length)), want)
    check("no bytes", is_message(b""), False)


# ---- Adding and closing


def refuses(name, got, verdict, file):
    check(name, got, Changed(verdict, 0, file))


def check_one_message():
    lent = b"\xa5" * 30
    added = of("00 10") + ONE + b"\xa5" * 12
    check("add one", add(lent, 0, ONE), Changed(0, 18, added))
    check("close one", close(added, 18), Changed(0, 30, ARCHIVE_1))
    check("close again", close(ARCHIVE_1, 18), Changed(0, 30, ARCHIVE_1))
    check("close with room", close(added + b"\x07", 18), Changed(0, 30, ARCHIVE_1 + b"\x07"))
    refuses("add to 29 bytes", add(lent[:29], 0, ONE), 50, lent[:29])
    refuses("close 29 bytes", close(added[:29], 18), 50, added[:29])
    refuses("add to 18 bytes", add(lent[:18], 0, ONE), 50, lent[:18])
    refuses("add to none", add(b"", 0, ONE), 50, b"")


def check_empty():
    check("close nothing", close(b"\xa5" * 8, 0), Changed(0, 8, EMPTY))
    check("close nothing with room", close(b"\xa5" * 9, 0), Changed(0, 8, EMPTY + b"\xa5"))
    refuses("close 7 bytes", close(bytes(7), 0), 50, bytes(7))
    refuses("close no bytes", close(b"", 0), 50, b"")
    check("open empty", open_archive(EMPTY), Opened(0, 0, 0))
    check("close an archive as nothing", close(ARCHIVE_1, 0), Changed(0, 8, EMPTY + ARCHIVE_1[8:]))


def check_three_messages():
    file = b"\xff" * 79
    for told, message, size in ((0, ONE, 18), (18, TWO, 40), (40, THREE, 59)):
        changed = add(file, told, message)
        check(f"add at {told}", (changed.verdict, changed.size), (0, size))
        check("nothing else is written", changed.file[:told] + changed.file[size:], file[:told] + file[size:])
        file = changed.file
    check("records of three", file, RECORDS_3 + b"\xff" * 20)
    check("close three", close(file, 59), Changed(0, 79, ARCHIVE_3))
    refuses("close three, a byte short", close(file[:78], 59), 50, file[:78])
    check("close two of three", close(ARCHIVE_3, 40).size, 56)
    # 40 + 19 + 3 entries + 8 = 79: with two entries only it would be 75.
    refuses("add the third, a byte short", add(RECORDS_3[:40] + bytes(38), 40, THREE), 50, RECORDS_3[:40] + bytes(38))
    refuses("add the third without room for its entry", add(RECORDS_3[:40] + bytes(35), 40, THREE), 50, RECORDS_3[:40] + bytes(35))


def check_told_sizes():
    file = RECORDS_3[:18] + b"\xa5" * 60
    check("told 18", add(file, 18, ONE).size, 36)
    for told in (1, 2, 17, 19, 20, 78, 79, 2**16 + 18, 2**32, 2**32 + 18, 2**63 + 18, 2**64 - 1):
        refuses(f"add, told {told}", add(file, told, ONE), 52, file)
        refuses(f"close, told {told}", close(file, told), 52, file)
    check("told 18 of three", close(ARCHIVE_3, 18).verdict, 0)
    refuses("told 39 of three", close(ARCHIVE_3, 39), 52, ARCHIVE_3)
    refuses("the file ends in the record", close(RECORDS_3[:17], 18), 52, RECORDS_3[:17])
    refuses("told the file's end in a record", close(RECORDS_3[:17], 17), 52, RECORDS_3[:17])
    short = of("00 0F") + sized(15, 7) + bytes(40)
    refuses("a record of 15 bytes", add(short, 17, ONE), 52, short)
    wrong = of("00 10") + sized(16, 9) + bytes(40)
    refuses("a record with another Length", close(wrong, 18), 52, wrong)
    check("what is behind the told size is not judged", close(wrong, 0).verdict, 0)


def check_order_of_changes():
    full = of("00 10") + ONE
    refuses("52 before 53", add(full + bytes(40), 17, b""), 52, full + bytes(40))
    refuses("52 before 50", add(full, 17, ONE), 52, full)
    refuses("52 before 53 and 50", add(full, 19, b""), 52, full)
    refuses("53 before 50", add(full, 18, ONE[:15]), 53, full)
    refuses("53", add(full + bytes(40), 18, ONE[:15]), 53, full + bytes(40))
    refuses("50", add(full, 18, ONE), 50, full)
    refuses("52 before 50 in closing", close(full, 17), 52, full)
    refuses("50 in closing", close(full, 18), 50, full)


# ---- Opening, reading and finding


def refuses_to_open(name, file, verdict):
    check(name, open_archive(file), Opened(verdict, 0, 0))
    for n in (0, 1, 2**64 - 1):
        check(f"{name}, read {n}", read(file, n), Found(verdict, 0, 0, 0))
    for session in (1, 0xFFFF):
        check(f"{name}, find {session}", find(file, session), Found(verdict, 0, 0, 0))


def with_trailer(digits, records=ARCHIVE_1[:-8]):
    return records + of(digits)


def check_opening():
    check("open one", open_archive(ARCHIVE_1), Opened(0, 18, 1))
    check("open three", open_archive(ARCHIVE_3), Opened(0, 59, 3))
    for size in range(8):
        refuses_to_open(f"{size} bytes", EMPTY[8 - size :], 51)
    refuses_to_open("FF FF FF FC", of("FF FF FF FC 00 01 00 01"), 51)
    refuses_to_open("FF FF FF FC behind a record", with_trailer("FF FF FF FC 00 01 00 01"), 51)
    for form in ("00 00", "00 02", "01 00", "01 01", "FF FF"):
        refuses_to_open("form " + form, with_trailer("00 00 00 12 00 01 " + form), 51)
    refuses_to_open("index one past", with_trailer("00 00 00 13 00 01 00 01"), 51)
    refuses_to_open("an entry too many", with_trailer("00 00 00 12 00 02 00 01"), 51)
    refuses_to_open("entries of 65,540 bytes", with_trailer("00 00 00 12 40 01 00 01"), 51)
    refuses_to_open("offset past the trailer, no entries", with_trailer("00 00 00 17 00 00 00 01"), 51)
    refuses_to_open("offset at the trailer, no entries", with_trailer("00 00 00 16 00 00 00 01"), 52)
    refuses_to_open("index one early", with_trailer("00 00 00 11 00 01 00 01"), 52)
    refuses_to_open("an entry too few", with_trailer("00 00 00 12 00 00 00 01"), 52)
    refuses_to_open("index within the record", with_trailer("00 00 00 0E 00 02 00 01"), 52)
    refuses_to_open("another offset", with_trailer("00 00 00 12 00 01 00 01", of("00 10") + ONE + of("00 02 00 01")), 52)
    refuses_to_open("another Session ID", with_trailer("00 00 00 12 00 01 00 01", of("00 10") + ONE + of("00 00 00 02")), 52)
    refuses_to_open("a byte before the index", with_trailer("00 00 00 13 00 01 00 01", of("00 10") + ONE + of("00 00 00 00 01")), 52)
    refuses_to_open("a byte behind the index", with_trailer("00 00 00 12 00 01 00 01", ARCHIVE_1[:-8] + b"\0"), 52)
    refuses_to_open("entries exchanged", RECORDS_3 + INDEX_3[4:8] + INDEX_3[:4] + INDEX_3[8:] + ARCHIVE_3[-8:], 52)
    refuses_to_open("a record without an entry", RECORDS_3 + INDEX_3[:8] + of("00 00 00 3B 00 02 00 01"), 52)
    refuses_to_open("an entry without a record", RECORDS_3[:40] + INDEX_3 + of("00 00 00 28 00 03 00 01"), 52)
    refuses_to_open("another Length", with_trailer("00 00 00 12 00 01 00 01", of("00 10") + sized(16, 9) + of("00 00 00 01")), 52)
    refuses_to_open("15 bytes", with_trailer("00 00 00 11 00 01 00 01", of("00 0F") + sized(15, 7) + of("00 00 00 01")), 52)
    refuses_to_open("form and Length", with_trailer("00 00 00 12 00 01 00 02", of("00 10") + sized(16, 9) + of("00 00 00 01")), 51)


def check_reading():
    for n, place, size, message in ((1, 2, 16, ONE), (2, 20, 20, TWO), (3, 42, 17, THREE)):
        check(f"read {n}", read(ARCHIVE_3, n), Found(0, n, place, size))
        check(f"bytes of {n}", ARCHIVE_3[place : place + size], message)
    for n in (0, 4, 2**16 + 1, 2**32 + 1, 2**64 - 1):
        check(f"read {n}", read(ARCHIVE_3, n), Found(54, 0, 0, 0))
    check("read of none", read(EMPTY, 1), Found(54, 0, 0, 0))
    check("find 1", find(ARCHIVE_3, 1), Found(0, 1, 2, 16))
    check("find 256", find(ARCHIVE_3, 256), Found(0, 2, 20, 20))
    check("find a Client ID", find(ARCHIVE_3, 2), Found(54, 0, 0, 0))
    check("find none", find(EMPTY, 0), Found(54, 0, 0, 0))


# ---- 65,535 bytes


def check_limits():
    for size in (65534, 65535, 65536):
        message = sized(size - 14, size - 22)
        record = (size - 14).to_bytes(2, "big") + message
        lent = bytes(65600)
        closed = record + of("00 00 00 01") + (size - 12).to_bytes(4, "big") + of("00 01 00 01")
        check(f"archive of {size}", len(closed), size)
        if size <= 65535:
            check(f"add to {size}", add(lent, 0, message), Changed(0, size - 12, record + lent[size - 12 :]))
            check(f"close to {size}", close(record + bytes(12), size - 12), Changed(0, size, closed))
            check(f"open {size}", open_archive(closed), Opened(0, size - 12, 1))
            refuses(f"close to {size}, a byte short", close(record + bytes(11), size - 12), 50, record + bytes(11))
        else:
            refuses(f"add to {size}", add(lent, 0, message), 50, lent)
            refuses(f"close to {size}", close(record + bytes(64), size - 12), 50, record + bytes(64))
            refuses_to_open(f"open {size}", closed, 51)
    check("2,978 messages of 16 bytes", close((of("00 10") + ONE) * 2978 + bytes(2978 * 4 + 8), 2978 * 18).size, 65524)
    beyond = of("FF FF") + sized(65535, 65527) + of("00 10") + ONE + bytes(64)
    refuses("told 65,555 in a longer file, whole records", close(beyond, 65555), 50, beyond)
    refuses("told 65,554 in a longer file", close(beyond, 65554), 52, beyond)


def main():
    for part in (
        check_sizes, check_messages, check_one_message, check_empty, check_three_messages, check_told_sizes, check_order_of_changes,
        check_opening, check_reading, check_limits,
    ):
        part()
    print(f"{passed} passed, {failed} failed")
    sys.exit(bool(failed))


if __name__ == "__main__":
    main()
