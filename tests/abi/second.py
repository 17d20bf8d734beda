#!/usr/bin/env python3
"""Runs cases of the second program (tests/second) through the static library and compares the answers.

    tests/abi/second.py LIBRARY CASES

LIBRARY is the archive linked as a shared object, CASES a file in the form of docs/CASES.md. Of its cases those of messages and tables
are run; a payload alone is no function of the library. Prints each difference, and ends with status 1 if there is one.
"""
import ctypes
import sys
from pathlib import Path

sys.path.insert(0, str(Path(__file__).resolve().parent.parent / "second"))
import answer  # noqa: E402
import sip  # noqa: E402

NO_CODE = 256
OLD = 0xA5A5A5A5A5A5A5A5  # every lent number before a reading


def struct(name, **fields):
    return type(name, (ctypes.Structure,), {"_fields_": list(fields.items())})


U8, U16, U32, U64, SIZE = ctypes.c_uint8, ctypes.c_uint16, ctypes.c_uint32, ctypes.c_uint64, ctypes.c_size_t
Form = struct("Form", count=SIZE, width=U32, fixed=U32)
Expectation = struct("Expectation", service=U16, method=U16, interface=U8, kind=U8)
Answer = struct(
    "Answer", verdict=U32, code=U32, place=SIZE, skipped=SIZE, client=U16, session=U16, found_code=U8,
    payload_at=SIZE, payload_len=SIZE, rest_at=SIZE, rest_len=SIZE,
)
Fields = struct("Fields", service=U16, method=U16, client=U16, session=U16, interface=U8, kind=U8, code=U8)
Sent = struct("Sent", verdict=U32, len=SIZE)


def numbers(values):
    return (U64 * len(values))(*values), len(values)


def octets(data):
    return (U8 * len(data)).from_buffer_copy(data), len(data)


def four(row):
    """The numbers of a value row."""
    what = answer.CASES.index(row.case)
    if row.case == "bytes":
        return [what, 0, row.number, row.length]
    number = row.bits if row.case.startswith("float") else row.number
    return [what, number % 2**64, 0, 0]


class ByLibrary(answer.Answerer):
    """Answers as the second program does, by the library: what is compared is what both say in docs/CASES.md's words."""

    def __init__(self, path):
        super().__init__()
        self.library = ctypes.CDLL(path)
        words, size, buffer = ctypes.POINTER(U64), SIZE, ctypes.POINTER(U8)
        for name, given, taken in (
            ("check_table", U32, [Form, words, size]),
            ("read_message", Answer, [buffer, size, Expectation, Form, words, size, words, size]),
            ("write_message", Sent, [Fields, Form, words, size, words, size, buffer, size, buffer, size]),
        ):
            function = getattr(self.library, f"chudopolk_{name}")
            function.restype, function.argtypes = given, taken

    def lent_table(self):
        rows = [x for r in self.table.rows for x in (r.level, r.data_id, r.kind, r.element_kind, int(r.required))]
        return Form(self.table.claimed_rows(), self.table.width, int(self.table.static)), *numbers(rows)

    def check_table(self):
        return [sip.verdict_words(self.library.chudopolk_check_table(*self.lent_table()))]

    def read_message(self, datagram):
        e = self.expected
        values, count = numbers([OLD] * 4 * self.room)
        expectation = Expectation(e.service, e.method, e.interface, e.message_type)
        a = self.library.chudopolk_read_message(*octets(datagram), expectation, *self.lent_table(), values, count)
        code = sip.return_code(a.verdict)
        assert a.code == (NO_CODE if code is None else code), "the return code"
        payload, rest = (a.payload_at, a.payload_len), (a.rest_at, a.rest_len)
        if a.verdict != 0:
            payload, rest = (part if part[1] else (0, 0) for part in (payload, rest))
        lines = [
            f"{sip.verdict_words(a.verdict)} place {a.place} skipped {a.skipped}",
            f"client {a.client} session {a.session} return {a.found_code}",
            f"payload {payload[0]} {payload[1]} rest {rest[0]} {rest[1]}",
        ]
        return lines + [f"{i + 1} {self.row_words(i, list(values[4 * i : 4 * i + 4]))}" for i in range(self.room)]

    def row_words(self, i, row):
        """A row that was left alone shows what docs/CASES.md has in it before a case."""
        if row == [OLD] * 4:
            return answer.row_words(answer.lent_row(i + 1))
        what, number, place, length = row
        case = answer.CASES[what]
        signed = number - 2**64 if case == "signed" and number >= 2**63 else number
        shown = {"bytes": (place, length, 0), "float32": (0, 0, number), "float64": (0, 0, number)}.get(case, (signed, 0, 0))
        shown = sip.Row(case, *shown)
        assert four(shown) == row, f"numbers that are not used are 0: {row}"
        return answer.row_words(shown)

    def write_message(self, data):
        h = self.header
        fields = Fields(h.service, h.method, h.client, h.session, h.interface, h.message_type, h.return_code)
        out, room = octets(bytes([answer.FILL]) * int.from_bytes(data, "big"))
        values = numbers([x for row in self.rows for x in four(row)])
        sent = self.library.chudopolk_write_message(fields, *self.lent_table(), *values, *octets(self.content), out, room)
        return answer.writing_lines(sip.Writing(sent.verdict, sent.len, bytes(out)))


def main(library, cases):
    second, first = answer.Answerer(), ByLibrary(library)
    first.read_payload = first.write_payload = lambda data: []
    ran = differing = 0
    for line in Path(cases).read_text().splitlines():
        expected, got = second.answer(line), first.answer(line)
        if len(got) < 2:
            continue
        ran += 1
        if got != expected:
            differing += 1
            print("\n".join([line, "expected:"] + expected + ["got:"] + got))
    print(f"second: {ran - differing} of {ran} cases of messages and tables agree with the second program")
    return 1 if differing or not ran else 0


if __name__ == "__main__":
    if len(sys.argv) != 3:
        sys.exit("usage: tests/abi/second.py LIBRARY CASES")
    sys.exit(main(sys.argv[1], sys.argv[2]))
