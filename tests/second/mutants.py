#!/usr/bin/env python3
"""How well the generated cases tell wrong programs from the right one.

    python3 tests/second/mutants.py SEED COUNT

Each wrong program is sip.py with one edit. For each it prints how many of the cases get another
answer from it. A wrong program that no case finds is printed last and makes the exit code 1.
"""
import os
import sys

import answer
import gen
import sip

sys.path.insert(0, os.path.join(os.path.dirname(os.path.abspath(__file__)), "..", "shared"))
import mutation  # noqa: E402

EDITS = (  # what is wrong; sip.py's words; the wrong words
    ("refuses everything", "walk = Walk(payload, table)\n", "return PayloadReading(24, 0, 0, first_rows_absent(table, lent_rows))\n    walk = None\n"),
    ("touches no row", "return PayloadReading(0, 0, walk.skipped, walk.rows + list(lent_rows)[len(table.rows) :])", "return PayloadReading(0, 0, walk.skipped, list(lent_rows))"),
    ("reads the first member only", "while at < end:\n            at = self.read_member(parent, met, at, end)", "if at < end:\n            at = self.read_member(parent, met, at, end)"),
    ("invents the skip count", "return PayloadReading(0, 0, walk.skipped,", "return PayloadReading(0, 0, walk.skipped + 1,"),
    ("fills an absent number", "self.rows = [ABSENT] * len(table.rows)\n", "self.rows = [unsigned(0) if r.kind == UINT32 else ABSENT for r in table.rows]\n"),
    ("wire type 5 by the table's width", "{4: self.width, 5: 1, 6: 2, 7: 4}", "{4: self.width, 5: self.width, 6: 2, 7: 4}"),
    ("wire type 4 by one byte", "{4: self.width, 5: 1, 6: 2, 7: 4}", "{4: 1, 5: 1, 6: 2, 7: 4}"),
    ("inner struct to the payload's end", "self.read_level(number, at, at + length)", "self.read_level(number, at, len(self.payload))"),
    ("inner overrun not seen", "if content_at + length > end:", "if content_at + length > len(self.payload):"),
    ("field cut by the payload's end", "if at + field_bytes > end:", "if at + field_bytes > len(self.payload):"),
    ("unknown twice is 22", "        if number is None:\n            self.skipped += 1", "        if number is None:\n            if data_id in met: raise Refused(22, tag_at)\n            met.add(data_id)\n            self.skipped += 1"),
    ("unknown twice is counted once", "self.skipped += 1", "self.skipped += 0 if (-1 - data_id) in met else 1; met.add(-1 - data_id)"),
    ("nonzero is TRUE", "return unsigned(number & 1)", "return unsigned(int(number != 0))"),
    ("27 under an absent struct", "        for number in self.known[parent].values():", "        for number in (range(len(self.type_rows)) if parent is None else self.known[parent].values()):"),
    ("22 by ID over all levels", "            if number in met:\n                raise Refused(22, tag_at)\n", "            ids = self.__dict__.setdefault('ids', set())\n            if data_id in ids:\n                raise Refused(22, tag_at)\n            ids.add(data_id)\n"),
    ("known by ID at any level", "number = self.known[parent].get(data_id)", "number = next((d[data_id] for d in self.known.values() if data_id in d), None)"),
    ("reserved bit in the wire type", "wire_type = tag >> 12 & 0b111", "wire_type = min(7, tag >> 12)"),
    ("reserved bit in the ID", "data_id = tag & 0xFFF", "data_id = tag & 0x8FFF"),
    ("place counted from the struct", "raise Refused(20, tag_at)", "raise Refused(20, tag_at if parent is None else 0)"),
    ("27 at the payload's end", "raise Refused(27, end)", "raise Refused(27, len(self.payload))"),
    ("24 at the tag", "raise Refused(24, content_at)", "raise Refused(24, tag_at)"),
    ("23 at the tag", "raise Refused(23, at)", "raise Refused(23, at - 2)"),
    ("26 at the text", "raise Refused(26, at)", "raise Refused(26, at + 3)"),
    ("22 before 21", "            if not wire_type_is_of_kind(wire_type, self.type_rows[number].kind):", "            if number in met:\n                raise Refused(22, tag_at)\n            if not wire_type_is_of_kind(wire_type, self.type_rows[number].kind):"),
    ("24 before 22", "            if number in met:\n                raise Refused(22, tag_at)", "            a, b = self.read_extent(wire_type, tag_at + 2, end)\n            if a + b > end: raise Refused(24, a)\n            if number in met:\n                raise Refused(22, tag_at)"),
    ("25 before 24", "        if content_at + length > end:", "        if number is not None and self.type_rows[number].kind == ARRAY and length % NUMBER_KINDS[self.type_rows[number].element_kind][0]:\n            raise Refused(25, content_at)\n        if content_at + length > end:"),
    ("skip count kept on refusal", "refused.place, 0, first_rows_absent", "refused.place, walk.skipped, first_rows_absent"),
    ("rows beyond cleared", "return [ABSENT] * len(table.rows) + list(lent_rows)[len(table.rows) :]", "return [ABSENT] * len(lent_rows)"),
    ("rows beyond cleared on acceptance", "walk.rows + list(lent_rows)[len(table.rows) :])", "walk.rows + [ABSENT] * (len(lent_rows) - len(table.rows)))"),
    ("text's place one further", "at + len(TEXT_MARK), length", "at + len(TEXT_MARK) + 1, length"),
    ("text with its terminator", "length - len(TEXT_MARK + TEXT_END))", "length - len(TEXT_MARK))"),
    ("terminator not asked for", "and end == TEXT_END ", ""),
    ("zero in the text", "if 0x01 <= lead <= 0x7F:", "if 0x00 <= lead <= 0x7F:"),
    ("C0 and C1 as lead bytes", "if 0xC2 <= lead <= 0xDF:", "if 0xC0 <= lead <= 0xDF:"),
    ("C2 no lead byte", "if 0xC2 <= lead <= 0xDF:", "if 0xC3 <= lead <= 0xDF:"),
    ("F5 as a lead byte", "if 0xF0 <= lead <= 0xF4:", "if 0xF0 <= lead <= 0xF5:"),
    ("F4 no lead byte", "if 0xF0 <= lead <= 0xF4:", "if 0xF0 <= lead <= 0xF3:"),
    ("EF with three", "if 0xE0 <= lead <= 0xEF:", "if 0xE0 <= lead <= 0xEE:"),
    ("text as in Unicode", "        at += 1 + following\n", "        if (text[at], tail[:1] < b'\\xa0') == (0xE0, True) or (text[at], tail[:1] >= b'\\xa0') == (0xED, True): return False\n        at += 1 + following\n"),
    ("tail up to C0", "all(0x80 <= byte <= 0xBF for byte in tail)", "all(0x80 <= byte <= 0xC0 for byte in tail)"),
    ("tail from 7F", "all(0x80 <= byte <= 0xBF for byte in tail)", "all(0x7F <= byte <= 0xBF for byte in tail)"),
    ("struct met by its place only", "            met.add(number)\n", "            if self.type_rows[number].kind != STRUCT: met.add(number)\n"),
    ("float32 as float64", "    if kind == FLOAT32:\n        return float32(number)\n", ""),
    ("signed as unsigned", 'return signed(int.from_bytes(content, "big", signed=True))', "return signed(number)"),
    ("1,401 is read", "if len(payload) > MOST_PAYLOAD_BYTES:", "if len(payload) > MOST_PAYLOAD_BYTES + 1:"),
    ("1,400 is refused", "if len(payload) > MOST_PAYLOAD_BYTES:", "if len(payload) >= MOST_PAYLOAD_BYTES:"),
    ("17 before 16", "    verdict = header_verdict(datagram, expected)\n", "    verdict = header_verdict(datagram, expected)\n    if verdict == 16 and length > 1408: verdict = 17\n"),
    ("Client and Session exchanged", "client=number_of(datagram[8:10]),\n        session=number_of(datagram[10:12]),", "client=number_of(datagram[10:12]),\n        session=number_of(datagram[8:10]),"),
    ("Client and Session exchanged in writing", '        + header.client.to_bytes(2, "big")\n        + header.session.to_bytes(2, "big")', '        + header.session.to_bytes(2, "big")\n        + header.client.to_bytes(2, "big")'),
    ("11 off by one", "if length < 8 or message_end > len(datagram):", "if length < 8 or message_end > len(datagram) + 1:"),
    ("11 in 32 bits", "message_end = LENGTH_COUNTS_FROM + length", "message_end = (LENGTH_COUNTS_FROM + length) % 2**32"),
    ("Length 7", "if length < 8 or", "if length < 7 or"),
    ("Length 8 refused", "if length < 8 or", "if length < 9 or"),
    ("15 bytes", "if len(datagram) < HEADER_BYTES:", "if len(datagram) < 15:"),
    ("10 leaves the rows", "return reading_without_parts(10, first_rows_absent(table, lent_rows))", "return reading_without_parts(10, list(lent_rows))"),
    ("11 leaves the rows", "return reading_without_parts(11, first_rows_absent(table, lent_rows))", "return reading_without_parts(11, list(lent_rows))"),
    ("header refusals leave the rows", "PayloadReading(verdict, 0, 0, first_rows_absent(table, lent_rows))", "PayloadReading(verdict, 0, 0, list(lent_rows))"),
    ("2 clears rows", "return reading_without_parts(2, list(lent_rows))", "return reading_without_parts(2, [ABSENT] * len(lent_rows))"),
    ("15 before 14", "    if datagram[13] != expected.interface:\n        return 14\n    if number_of(datagram[2:4]) != expected.method:\n        return 15\n", "    if number_of(datagram[2:4]) != expected.method:\n        return 15\n    if datagram[13] != expected.interface:\n        return 14\n"),
    ("13 before 12", "    if datagram[12] != PROTOCOL_VERSION:\n        return 12\n    if number_of(datagram[0:2]) != expected.service:\n        return 13\n", "    if number_of(datagram[0:2]) != expected.service:\n        return 13\n    if datagram[12] != PROTOCOL_VERSION:\n        return 12\n"),
    ("2 before 1 for the type", "if not check_table(table) or expected.message_type not in MESSAGE_TYPES:", "if not check_table(table) or (expected.message_type not in MESSAGE_TYPES and len(lent_rows) >= len(table.rows)):"),
    ("payload given after 17", "payload_is_given = payload.verdict == 0 or 20", "payload_is_given = payload.verdict == 0 or 17"),
    ("payload not given after 20 to 27", "payload_is_given = payload.verdict == 0 or 20 <= payload.verdict <= 27", "payload_is_given = payload.verdict == 0"),
    ("rest not given after a refusal", "rest=part(payload.verdict, message_end, len(datagram)),", "rest=part(payload.verdict, message_end, len(datagram)) if payload_is_given else (0, 0),"),
    ("return code of the verdict", "return_code=datagram[15],", "return_code=return_code(payload.verdict) or 0,"),
    ("65 rows", "MOST_TYPE_ROWS = 64", "MOST_TYPE_ROWS = 65"),
    ("63 rows", "MOST_TYPE_ROWS = 64", "MOST_TYPE_ROWS = 63"),
    ("ID 4096", "0 <= row.data_id <= 4095", "0 <= row.data_id <= 4096"),
    ("element kind of a number", "return row.element_kind == 0", "return True"),
    ("array of strings", "return 1 <= row.element_kind <= 11", "return 1 <= row.element_kind <= 12"),
    ("array of nothing", "return 1 <= row.element_kind <= 11", "return 0 <= row.element_kind <= 11"),
    ("width 3", "table.width in (1, 2, 4)", "table.width in (1, 2, 3, 4)"),
    ("level rises behind anything", "before.level + 1 if before.kind == STRUCT else before.level", "before.level + 1"),
    ("level rises by two", "before.level + 1 if before.kind == STRUCT else before.level", "before.level + 2 if before.kind == STRUCT else before.level"),
    ("struct at level 4", "all(row.level <= 3 for row in rows if row.kind == STRUCT)", "True"),
    ("IDs differ side by side only", "        seen.add((parent, row.data_id))\n", "        seen = {(parent, row.data_id)}\n"),
    ("IDs differ over the whole table", "        if (parent, row.data_id) in seen:", "        parent = None\n        if (parent, row.data_id) in seen:"),
    ("first row at level 2", "return rows[0].level == 1", "return True"),
    ("30 before 31 in a row", "        if run_is_past_the_buffer(rows[number], content):\n            return 31\n        if not row_is_right(type_rows[number], rows[number], level_is_present, content):\n            return 30\n", "        if not row_is_right(type_rows[number], rows[number], level_is_present, content):\n            return 30\n        if run_is_past_the_buffer(rows[number], content):\n            return 31\n"),
    ("all 31 before all 30", "    for number, parent in enumerate(parents(type_rows)):\n        level_is", "    if any(run_is_past_the_buffer(row, content) for row in rows[: len(type_rows)]):\n        return 31\n    for number, parent in enumerate(parents(type_rows)):\n        level_is"),
    ("31's sum wrapped", "row.number + row.length > len(content)", "(row.number + row.length) % 2**64 > len(content)"),
    ("31 off by one", "row.number + row.length > len(content)", "row.number + row.length >= len(content) + (row.length == 0)"),
    ("empty run past the end", "row.number + row.length > len(content)", "row.length > 0 and row.number + row.length > len(content)"),
    ("31 for strings and arrays only", "        if run_is_past_the_buffer(rows[number], content):", "        if type_rows[number].kind in (STRING, ARRAY) and run_is_past_the_buffer(rows[number], content):"),
    ("31 at present levels only", "        if run_is_past_the_buffer(rows[number], content):", "        if level_is_present and run_is_past_the_buffer(rows[number], content):"),
    ("boolean 2 is written", 'return row.case == "unsigned" and row.number in (0, 1)', 'return row.case == "unsigned" and row.number in (0, 1, 2)'),
    ("unsigned one too large", "0 <= row.number < 2 ** number_bits(kind)", "0 <= row.number <= 2 ** number_bits(kind)"),
    ("signed range off", "-half <= row.number < half", "-half < row.number < half"),
    ("float32 bits not looked at", 'return row.case == "float32" and 0 <= row.bits < 2**32', 'return row.case == "float32"'),
    ("required in a struct not looked at", "return not (type_row.required and level_is_present)", "return not (type_row.required and level_is_present and type_row.level == 1)"),
    ("required under an absent struct", "return not (type_row.required and level_is_present)", "return not type_row.required"),
    ("present under an absent struct", "return level_is_present and value_is_of_kind_and_range", "return value_is_of_kind_and_range"),
    ("array length not looked at", 'row.case == "bytes" and row.length % NUMBER_KINDS[type_row.element_kind][0] == 0', 'row.case == "bytes"'),
    ("text not looked at", 'row.case == "bytes" and text_is_well_formed(bytes_of_run(row, content))', 'row.case == "bytes"'),
    ("array elements judged", 'row.case == "bytes" and row.length % NUMBER', 'row.case == "bytes" and (type_row.element_kind != 1 or all(b < 2 for b in bytes_of_run(row, content))) and row.length % NUMBER'),
    ("33 before 32", "    if writer.some_content_is_over_its_length_field():", "    if writer.level_bytes(None) > MOST_PAYLOAD_BYTES:\n        return 33, b\"\"\n    if writer.some_content_is_over_its_length_field():"),
    ("32 not asked of structs", "type_row.kind in LENGTH_FIELD_KINDS and self.content_bytes(number) > most", "type_row.kind in (STRING, ARRAY) and self.content_bytes(number) > most"),
    ("32 asked of the text alone", "self.content_bytes(number) > most:", "self.content_bytes(number) - 4 * (type_row.kind == STRING) > most:"),
    ("255 doesn't fit", "most = 256**self.width - 1", "most = 256**self.width - 2"),
    ("65,536 at width 2", "most = 256**self.width - 1", "most = 256**self.width - 1 + (self.width == 2)"),
    ("1,401 is written", "writer.level_bytes(None) > MOST_PAYLOAD_BYTES", "writer.level_bytes(None) > MOST_PAYLOAD_BYTES + 1"),
    ("1,400 is not written", "writer.level_bytes(None) > MOST_PAYLOAD_BYTES", "writer.level_bytes(None) >= MOST_PAYLOAD_BYTES"),
    ("a byte behind the message", "message + bytes(output)[len(message) :]", "message + bytes(output[len(message) :][:1] and b'\\0') + bytes(output)[len(message) + 1 :]"),
    ("a refused write scribbles", "return Writing(verdict, 0, bytes(output))", "return Writing(verdict, 0, message[: len(output)] + bytes(output)[len(message) :])"),
    ("length on refusal", "return Writing(verdict, 0, bytes(output))", "return Writing(verdict, len(message), bytes(output))"),
    ("static mark ignored", "4 if table.static else {1: 5, 2: 6, 4: 7}[table.width]", "{1: 5, 2: 6, 4: 7}[table.width]"),
    ("wire type 5 always", "{1: 5, 2: 6, 4: 7}[table.width]", "5"),
    ("Length without the header's eight bytes", "(8 + payload_bytes).to_bytes", "(payload_bytes).to_bytes"),
    ("no terminator", "return TEXT_MARK + bytes_of_run(row, self.content) + TEXT_END", "return TEXT_MARK + bytes_of_run(row, self.content)"),
    ("rows beyond are looked at", "    verdict = rows_verdict(table.rows, rows, content)\n", "    verdict = 31 if any(run_is_past_the_buffer(r, content) for r in rows[len(table.rows):]) else rows_verdict(table.rows, rows, content)\n"),
    ("2 for the output before 33", "    verdict, payload = payload_to_write(table, rows, content)\n    message", "    verdict, payload = payload_to_write(table, rows, content)\n    if verdict in (32, 33) and len(output) < 16: verdict = 2\n    message"),
    ("1 for the type after the rows", "    if header.message_type not in MESSAGE_TYPES:\n        return written(1, b\"\", output)\n    verdict, payload = payload_to_write(table, rows, content)\n", "    verdict, payload = payload_to_write(table, rows, content)\n    if verdict == 0 and header.message_type not in MESSAGE_TYPES:\n        return written(1, b\"\", output)\n"),
    ("ERROR is no type", "(REQUEST, REQUEST_NO_RETURN, NOTIFICATION, RESPONSE, ERROR)", "(REQUEST, REQUEST_NO_RETURN, NOTIFICATION, RESPONSE)"),
)


def answers_of(lines, program):
    answer.sip = program
    answerer = answer.Answerer()
    found = []
    for line in lines:
        try:
            shown = answerer.answer(line)
        except Exception as error:  # a wrong program may also stop
            shown = [repr(error)]
        if shown:
            found.append(shown)
    answer.sip = sip
    return found


def main():
    seed, count = int(sys.argv[1]), int(sys.argv[2])
    mutation.run(sip, EDITS, gen.make_cases(seed, count), answers_of)


if __name__ == "__main__":
    main()
