"""Compares what tshark shows of messages that the library wrote with what it was asked to write: tshark.py SEED FOLDER COMMAND...

COMMAND runs `vectors`; FOLDER takes the capture. Each message is compared as a list of fields: the header's nine, then for each member its
row and kind, reserved bit, wire type, Data ID, width and content of its length field, and value, level by level in table order. A row
that is absent has no place in that list, and a complaint of tshark has none either.

What tshark 4.0.17 can't judge (most of it shows in the list of datagrams that the library didn't write):
- It says nothing about a required member that is missing, a member that comes twice, the order of members, a payload over 1,400 bytes, one
  byte left at the end of a struct, and an array whose length is no multiple. That none of them was written, the comparison alone shows.
- It shows a number by its kind, whatever its wire type. The comparison looks at the wire type itself.
- It says nothing about a text without mark or terminator, with a zero byte or ill formed. It shows a text up to its first zero byte,
  01, 09, 0A and 0D as blanks, 7F as \\x7f, and what is no UTF-8 as U+FFFD, E0 80 80 too, which is well formed by the scope paper; no such
  text is written here. It cuts a line off after 239 bytes. So the bytes of each text are compared too, and they alone over 180 bytes.
- It shows 6 digits of a float32 and 15 of a float64, and every NaN as nan or -nan. So the bytes of each float are compared too.
- It has no booleans: they are configured as uint8, and 02 is shown as 2.
- It takes the width of wire type 4 from its configuration, here by the interface. Widths told in the tag it reads whatever is configured.
- Its configuration has no column for required or optional, and names a struct by its members: one without any is given one that never comes.
- It calls an unknown member malformed, where the library skips it; with wire type 4 it shows nothing of what follows.
- It sees messages only: what the library refuses to write, and that it leaves the rest of the output alone, it can't see.
"""
import os
import struct
import subprocess
import sys
import xml.etree.ElementTree as xml
from itertools import product, zip_longest

from written import (ARRAY, MESSAGE_TYPES, NUMBERS, STRING, STRUCT, TABLE_R, TABLE_W,
                     answers, members, messages, number_bytes, reading_case, write)

PORT = 30501
HEADER = ("serviceid", "methodid", "length", "clientid", "sessionid", "protoversion", "interfaceversion", "messagetype", "returncode")
TEXT_MOST = 180  # Bytes of content up to which a text is shown whole.
IDS = 4096  # tshark wants a number above each Data ID.

# ---- What tshark is told


def options(tables):
    """The tables as records of tshark's lists. Kinds come first: a member is shown with its value only if its kind is known by then."""
    told = []

    def tell(which, *columns):
        told.extend(("-o", "uat:SOMEIP_parameter_%s:%s" % (which, ",".join('"%s"' % column for column in columns))))

    for kind, (name, size, case) in NUMBERS.items():
        tell("base_types", "%x" % kind, name, ("uint%d", "int%d", "float%d", "float%d")[case - 1] % (8 * size), "TRUE", 8 * size, 8 * size)
    for bits in (8, 16, 32):
        tell("strings", "%x" % (bits << 8), "string", "utf-8", "TRUE", 0, bits, "TRUE", 0)
        for kind in NUMBERS:
            tell("arrays", "%x" % (bits << 8 | kind), "element", 1, "%x" % kind, 1, "array%d_%d" % (bits, kind), 0, 0, 65535, bits, 0)
    for table in tables:
        for n in (n for n, row in enumerate(table.rows) if row.kind == STRUCT):
            for member in [member_columns(table, m) for m in members(table, n)] or [(0, "none", 1, "1", "none")]:
                tell("structs", member_columns(table, n)[3], "struct", 8 * table.width, 0, "TRUE", IDS, *member)
        for message_type, n in product(MESSAGE_TYPES, members(table, -1)):
            ids = ("%x" % table.service, "%x" % table.method, table.width, "%x" % message_type)
            tell("list", *ids, "TRUE", IDS, *member_columns(table, n))
    return told


def member_columns(table, n):
    """Data ID, name, the list where its kind stands, its number there, and the name of its field."""
    row, bits = table.rows[n], 8 * table.width
    kinds = {STRING: (2, bits << 8), ARRAY: (3, bits << 8 | row.element), STRUCT: (4, table.service << 16 | table.width << 8 | n)}
    which, number = kinds.get(row.kind, (1, row.kind))
    return row.data_id, "row%d" % (n + 1), which, "%x" % number, "%s%d_row%d" % (table.name, table.width, n + 1)


def capture(datagrams):
    """A pcap file of IPv4 packets with one UDP datagram each; no checksums."""
    packets = [struct.pack("<IHHiIII", 0xA1B2C3D4, 2, 4, 0, 0, 65535, 228)]
    for datagram in datagrams:
        size = 28 + len(datagram)
        ip = struct.pack(">BBHHHBBH4B4B", 0x45, 0, size, 0, 0, 64, 17, 0, 192, 0, 2, 1, 192, 0, 2, 2)
        packets.append(struct.pack("<IIII", 0, 0, size, size) + ip + struct.pack(">HHHH", PORT, PORT, size - 20, 0) + datagram)
    return b"".join(packets)


# ---- What was written, as a list of fields


def written_fields(message):
    table = message.table
    fields, size = written_level(message, -1)
    header = (table.service, table.method, 8 + size, message.client, message.session, 1, table.width, message.message_type, message.return_code)
    return [*zip(HEADER, header), *fields]


def written_level(message, parent):
    """The fields of a level, and its bytes."""
    found = [written_member(message, n) for n in members(message.table, parent) if message.values[n] is not None]
    return [field for fields, _ in found for field in fields], sum(size for _, size in found)


def written_member(message, n):
    """The fields of a member, and its bytes."""
    table, row, some, name = message.table, message.table.rows[n], message.values[n], "row%d" % (n + 1)
    if row.kind in NUMBERS:
        size = NUMBERS[row.kind][1]
        label, *fields = written_number(name, row.kind, some)
        return [label, ("reserved", 0), ("wire type", (1, 2, 4, 8).index(size)), ("Data ID", row.data_id), *fields], 2 + size
    if row.kind == STRUCT:
        label = "struct %s [struct]" % name
        fields, size = written_level(message, n)
    elif row.kind == ARRAY:
        label, size = "array %s (elements limit: 0-65535)" % name, len(some) * NUMBERS[row.element][1]
        fields = [field for element in some for field in written_number("element", row.element, element)]
    else:
        content = b"\xef\xbb\xbf" + some + b"\x00"
        label, size = "%s [string]" % name, len(content)
        fields = [("text", content[:-1].decode() if size <= TEXT_MOST else None), ("bytes", content.hex())]
    wire_type = 4 if table.static else {1: 5, 2: 6, 4: 7}[table.width]
    tag = [("label", label), ("reserved", 0), ("wire type", wire_type), ("Data ID", row.data_id), ("width", table.width), ("length", size)]
    return tag + fields + [("end", None)], 2 + table.width + size


def written_number(name, kind, number):
    """Label and number as they are shown; of a float the digits that tshark gives, and the bytes."""
    kind_name, _, case = NUMBERS[kind]
    label, data = ("label", "%s [%s]" % (name, kind_name)), number_bytes(kind, number)
    if case < 3:
        return [label, ("value", str(number))]
    digits = "%.6g" % struct.unpack(">f", data) if case == 3 else "%.15g" % struct.unpack(">d", data)
    return [label, ("value", "-nan" if digits == "nan" and data[0] & 0x80 else digits), ("bytes", data.hex())]


# ---- What tshark shows, as the same list


def shown_fields(packet):
    """The fields of a packet, with what tshark holds against it as further fields."""
    found = [proto for proto in packet if proto.get("name") == "someip"]
    if len(found) != 1:
        return [("messages", len(found)), *complaints(packet)]
    named = {field.get("name"): field for field in found[0]}
    header = [(name, int(named["someip." + name].get("show"), 0)) for name in HEADER if "someip." + name in named]
    return [*header, *shown_level(named.get("someip.payload", ())), *complaints(packet)]


def complaints(packet):
    names = {field.get("name") for field in packet.iter()}
    return [("complaint", name) for name in ("_ws.malformed", "_ws.expert", "someip.payload.unparsed") if name in names]


def shown_level(level):
    kept = (field for field in level if field.get("name") not in ("someip.payload.wtlvtag", "someip.payload.length"))
    return [shown for field in kept for shown in shown_member(field)]


def shown_member(field):
    """A member, or an element of an array, which has no tag."""
    label, colon, text = (field.get("showname") or "").partition("]: ")
    tag, length = (field.find("field[@name='someip.payload.%s']" % name) for name in ("wtlvtag", "length"))
    fields = [("label", label + colon[:1])]
    if tag is not None:
        fields += [(what, int(part.get("show"))) for what, part in zip(("reserved", "wire type", "Data ID"), tag)]
    if length is None:
        return fields + [("value", field.get("show"))] + ([("bytes", field.get("value"))] if "[float" in label else [])
    width = int(length.get("size"))
    fields += [("width", width), ("length", int(length.get("show")))]
    if field.get("name") in ("someip.payload.struct", "someip.payload.array"):
        return fields + shown_level(field) + [("end", None)]
    content = (field.get("value") or "")[2 * (2 + width):]
    return fields + [("text", text if len(content) <= 2 * TEXT_MOST else None), ("bytes", content), ("end", None)]


def decode(folder, told, datagrams):
    """The fields that tshark shows of each datagram. The user's settings, and a locale with a comma in numbers, are kept out."""
    path = os.path.join(folder, "capture.pcap")
    with open(path, "wb") as file:
        file.write(capture(datagrams))
    command = ["tshark", "-n", "-r", path, "-d", "udp.port==%d,someip" % PORT, "-T", "pdml", *told]
    around = dict(os.environ, HOME=folder, WIRESHARK_CONFIG_DIR=folder, LC_ALL="C.UTF-8")
    found, parser = [], xml.XMLPullParser()
    with open(os.path.join(folder, "said"), "w+") as said, subprocess.Popen(command, stdout=subprocess.PIPE, stderr=said, env=around) as run:
        for line in run.stdout:
            # U+FFFE and U+FFFF may stand in a text, but not in XML.
            parser.feed(line.replace(b"\xef\xbf\xbe", b"\xef\xbf\xbd").replace(b"\xef\xbf\xbf", b"\xef\xbf\xbd"))
            for _, element in parser.read_events():
                if element.tag == "packet":
                    found.append(shown_fields(element))
                    element.clear()
        said.seek(0)
        if run.wait() != 0 or len(found) != len(datagrams):
            raise SystemExit("tshark ended with status %d after %d of %d packets: %s" % (run.returncode, len(found), len(datagrams), said.read()))
    return found


# ---- Comparing


def compare(made, found):
    """Prints how much was compared, and the first differences; gives how many messages differ."""
    wrong = 0
    for name in ("w", "r"):
        pairs = [(message, written_fields(message), shown) for message, shown in zip(made, found) if message.table.name == name]
        absent = sum(message.values.count(None) for message, _, _ in pairs)
        counts = (name.upper(), len(pairs), len(pairs) * len(pairs[0][0].values) - absent, absent, sum(len(written) for _, written, _ in pairs))
        print("table %s: %d messages, %d members, %d absent rows; %d fields compared" % counts)
        for message, written, shown in pairs:
            wrong += written != shown
            if written != shown and wrong <= 10:
                differs = next((a, b) for a, b in zip_longest(written, shown) if a != b)
                print("DIFFERS: session %d, width %d, static %d: written %a, shown %a" % (message.session, *message.table[4:], *differs))
    return wrong


def self_test(folder, told, made, datagrams):
    """Changes each bit of one message of each table; gives how many of the changes the comparison doesn't find."""
    missed = 0
    for name in ("w", "r"):
        n = [i for i, message in enumerate(made) if message.table.name == name and None not in message.values][5]
        size, number = len(datagrams[n]), int.from_bytes(datagrams[n], "big")
        found = decode(folder, told, [(number ^ 1 << bit).to_bytes(size, "big") for bit in range(8 * size)])
        unseen = found.count(written_fields(made[n]))
        print("self-test, table %s: %d of %d changes of one bit found" % (name.upper(), 8 * size - unseen, 8 * size))
        missed += unseen
    return missed


# Datagrams that the library didn't write: what they are, and payload. C is table W's sint16, R what table R requires.
C, R = "1002FF83", "3FFE0000000000000000"
OTHERS_W = (
    ("required member missing", ""), ("required member of a struct missing", C + "500500"), ("member twice", C + C),
    ("members in another order", "50050410010B54" + C), ("wire type 2 for sint16", "200200000001"), ("wire type 0 for a struct", C + "000507"),
    ("reserved bit set", "9002FF83"), ("width 2 told, the table has 1", C + "6005000410010B54"), ("unknown member", "00092A" + C),
    ("unknown member, wire type 4", "400901AA" + C), ("one byte left", C + "50"), ("one byte left in a struct", C + "50050510010B5450"),
    ("length field cut", C + "70050000"), ("content past the payload's end", C + "50050510010B54"),
    ("number past its struct's end", C + "50050310010B500704EFBBBF00"), ("text without mark", C + "50070441424300"),
    ("text without terminator", C + "500703EFBBBF"), ("text with a zero byte", C + "500707EFBBBF41004200"),
    ("text with FF", C + "500705EFBBBFFF00"), ("text E0 80 80", C + "500707EFBBBFE0808000"),
    ("payload of 1,401 bytes", C + "60070571EFBBBF" + "41" * 1389 + "00"),
)
OTHERS_R = (("boolean 02", "000102" + R), ("array of uint16 in five bytes", "5067050001000200" + R))


def show_others(folder, told, command, table, others):
    """Prints the library's verdict on them, and whether tshark complains."""
    datagrams = []
    for _, payload in others:
        header = struct.pack(">HHIHHBBBB", table.service, table.method, 8 + len(payload) // 2, 0, 1, 1, 1, 2, 0)
        datagrams.append(header + bytes.fromhex(payload))
    read = answers(command, "read-message", [reading_case(table, datagram) for datagram in datagrams])
    for (what, _), answer, shown in zip(others, read, decode(folder, told, datagrams)):
        said = " ".join(name for field, name in shown if field == "complaint")
        print("  table %s, %-36s library: verdict %-2s tshark: %s" % (table.name.upper(), what, answer[0].split()[1], said or "says nothing"))


def main(seed, folder, *command):
    made = messages(int(seed))
    told = options({(message.table.name, message.table.width): message.table for message in made}.values())
    datagrams = write(command, made)
    wrong = compare(made, decode(folder, told, datagrams))
    missed = self_test(folder, told, made, datagrams)
    print("datagrams that the library didn't write:")
    show_others(folder, told, command, TABLE_W, OTHERS_W)
    show_others(folder, told, command, TABLE_R, OTHERS_R)
    print(__doc__[__doc__.index("What tshark"):])
    print("%d of %d messages differ; %d changes not found" % (wrong, len(made), missed))
    return 1 if wrong or missed else 0


if __name__ == "__main__":
    sys.exit(main(*sys.argv[1:]))
