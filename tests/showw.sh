#!/bin/sh
# Runs showw on datagrams and compares what it prints. The expected lines are document 01's, worked out by hand. Builds nothing.
#   tests/showw.sh PROGRAM         (what `tools/built showw` prints)
# Prints a line for each case that fails, and ends with status 1 if one does.
set -u

program=${1:-}
[ -f "$program" ] || { echo "usage: tests/showw.sh PROGRAM" >&2; exit 2; }
tools=$(cd "$(dirname "$0")/../tools" && pwd -P) || exit 2
room=$(mktemp -d) || exit 2
trap 'rm -rf "$room"' EXIT
trap 'exit 1' HUP INT TERM
ran=0 failed=0

# ---- datagrams

# The bytes of hexadecimal digits.
bytes() { printf '%s' "$*" | "$tools/unhex"; }

# As many zero bytes.
zeros() { head -c "$1" /dev/zero; }

# Table W's header for a payload of so many bytes: Service and Method, Length, Client and Session, version, interface, type, code.
header() { printf '4A01 8001 %08X 0000 0001 01 01 02 00' $((8 + $1)); }

# A whole message under table W, in digits.
message() {
    digits=$(printf '%s' "$*" | tr -d ' ')
    printf '%s %s' "$(header $((${#digits} / 2)))" "$*"
}

# ---- comparing

# Runs the program on $room/in and compares with $room/lines and $room/errors.
compare() { # NAME
    ran=$((ran + 1))
    "$tools/x86-64" "$program" <"$room/in" >"$room/out" 2>"$room/said"
    if cmp -s "$room/out" "$room/lines" && cmp -s "$room/said" "$room/errors"; then return; fi
    failed=$((failed + 1))
    echo "FAILED $1: expected '$(cat "$room/lines" "$room/errors" | tr '\n' '|')' and got '$(cat "$room/out" "$room/said" | tr '\n' '|')'"
}

# The six lines: the first one's four numbers, then the values of the five rows.
lines() { # VERDICT CODE PLACE SKIPPED ROW1 ROW2 ROW3 ROW4 ROW5
    printf 'verdict %s code %s place %s skipped %s\n' "$1" "$2" "$3" "$4"
    printf '1 1 %s\n2 2 %s\n3 5 %s\n4 1 %s\n5 7 %s\n' "$5" "$6" "$7" "$8" "$9"
}

# $room/in is shown as accepted.
accepts_input() { # NAME SKIPPED ROW1 .. ROW5
    lines 0 0 0 "$2" "$3" "$4" "$5" "$6" "$7" >"$room/lines"
    : >"$room/errors"
    compare "$1"
}

# $room/in is shown as refused, which sets all rows absent.
refuses_input() { # NAME VERDICT CODE PLACE
    lines "$2" "$3" "$4" 0 absent absent absent absent absent >"$room/lines"
    : >"$room/errors"
    compare "$1"
}

# The same of a datagram in digits.
accepts() { # NAME DATAGRAM SKIPPED ROW1 .. ROW5
    bytes "$2" >"$room/in"
    accepts_input "$1" "$3" "$4" "$5" "$6" "$7" "$8"
}

refuses() { # NAME DATAGRAM VERDICT CODE PLACE
    bytes "$2" >"$room/in"
    refuses_input "$1" "$3" "$4" "$5"
}

# $room/in gives no line, and a message.
complains() { # NAME MESSAGE
    : >"$room/lines"
    printf 'showw: %s\n' "$2" >"$room/errors"
    compare "$1"
}

# ---- document 01's cases, under its header

c='10 02 FF 83'

accepts 'the paper'"'"'s datagram' '4A 01 80 01 00 00 00 16 00 00 00 01 01 01 02 00 10 02 FF 83 50 05 04 10 01 0B 54 00 09 2A' \
    1 absent 'signed -125' members 'unsigned 2900' absent
accepts 'case a' "$(message "$c 50 05 04 10 01 0B 54 00 09 2A")" 1 absent 'signed -125' members 'unsigned 2900' absent
refuses 'case b' "$(message '')" 27 9 0
accepts 'case c' "$(message "$c")" 0 absent 'signed -125' absent absent absent
refuses 'case d' "$(message "$c $c")" 22 9 4
refuses 'case e' "$(message '20 02 00 00 00 01')" 21 9 0
refuses 'case f' "$(message '10 02 FF')" 24 9 2
refuses 'case g' "$(message "$c 50")" 20 9 4
refuses 'case h' "$(message "$c 50 05 00")" 27 9 7
refuses 'case i' "$(message "$c 50 05 05 10 01 0B 54")" 24 9 7
accepts 'case j' "$(message "50 05 04 10 01 0B 54 00 09 2A $c")" 1 absent 'signed -125' members 'unsigned 2900' absent
refuses 'case k' "$(message "$c 70 09 00 00")" 23 9 6
accepts 'case l' "$(message "$c 60 05 00 04 10 01 0B 54")" 0 absent 'signed -125' members 'unsigned 2900' absent
accepts 'case m' "$(message "$c 50 07 04 EF BB BF 00")" 0 absent 'signed -125' absent absent 'bytes 10 0'
refuses 'case n' "$(message "$c 50 07 03 EF BB BF")" 26 9 7
accepts 'the reserved bit' "$(message '90 02 FF 83')" 0 absent 'signed -125' absent absent absent

# ---- values

accepts 'the largest time' "$(message "20 01 FF FF FF FF $c")" 0 'unsigned 4294967295' 'signed -125' absent absent absent
accepts 'sint16 at -32768' "$(message '10 02 80 00')" 0 absent 'signed -32768' absent absent absent
accepts 'sint16 at 32767' "$(message '10 02 7F FF')" 0 absent 'signed 32767' absent absent absent
accepts 'sint16 at -1' "$(message '10 02 FF FF')" 0 absent 'signed -1' absent absent absent
accepts 'sint16 at 0' "$(message '10 02 00 00')" 0 absent 'signed 0' absent absent absent
accepts 'a text of three bytes' "$(message "$c 50 07 07 EF BB BF 68 69 21 00")" 0 absent 'signed -125' absent absent 'bytes 10 3'
accepts 'an unknown member twice' "$(message "00 09 2A $c 00 09 2A")" 2 absent 'signed -125' absent absent absent

# ---- headers: each verdict by itself, then the first of two

refuses 'empty input' '' 10 9 0
refuses '15 bytes' '4A01 8001 00000008 0000 0001 01 01 02' 10 9 0
refuses 'Length 7' "4A01 8001 00000007 0000 0001 01 01 02 00 $c" 11 9 0
refuses 'Length one byte past the end' "4A01 8001 0000000D 0000 0001 01 01 02 00 $c" 11 9 0
refuses 'Length FFFFFFF8 in 20 bytes' "4A01 8001 FFFFFFF8 0000 0001 01 01 02 00 $c" 11 9 0
refuses 'version 2' "4A01 8001 0000000C 0000 0001 02 01 02 00 $c" 12 7 0
refuses 'Service ID 4A02' "4A02 8001 0000000C 0000 0001 01 01 02 00 $c" 13 2 0
refuses 'interface 2' "4A01 8001 0000000C 0000 0001 01 02 02 00 $c" 14 8 0
refuses 'Method ID 8002' "4A01 8002 0000000C 0000 0001 01 01 02 00 $c" 15 3 0
refuses 'a REQUEST' "4A01 8001 0000000C 0000 0001 01 01 00 00 $c" 16 10 0

refuses 'Length 7 and version 2' "4A01 8001 00000007 0000 0001 02 01 02 00 $c" 11 9 0
refuses 'version 2 and Service ID 1' "0001 8001 0000000C 0000 0001 02 01 02 00 $c" 12 7 0
refuses 'Service ID 1 and interface 2' "0001 8001 0000000C 0000 0001 01 02 02 00 $c" 13 2 0
refuses 'interface 2 and Method ID 8002' "4A01 8002 0000000C 0000 0001 01 02 02 00 $c" 14 8 0
refuses 'Method ID 8002 and a REQUEST' "4A01 8002 0000000C 0000 0001 01 01 00 00 $c" 15 3 0
refuses 'a REQUEST and payload b' '4A01 8001 00000008 0000 0001 01 01 00 00' 16 10 0

# Client ID, Session ID and the header's own Return Code change no line.
accepts 'other IDs and Return Code 5' "4A01 8001 0000000C 1122 3344 01 01 02 05 $c" 0 absent 'signed -125' absent absent absent

# ---- sizes: Length counts 8 bytes of header; an unknown member of wire type 6 fills the payload behind c

{ bytes "$(header 1400) $c 60 09 05 70"; zeros 1392; } >"$room/in"
accepts_input 'Length 1408' 1 absent 'signed -125' absent absent absent
{ bytes "$(header 1401) $c 60 09 05 71"; zeros 1393; } >"$room/in"
refuses_input 'Length 1409' 17 9 0
{ bytes "$(header 1401) $c 60 09 05 71"; zeros 1392; } >"$room/in"
refuses_input 'Length 1409 in 1416 bytes' 11 9 0
{ bytes "4A01 8001 00000581 0000 0001 01 01 00 00"; zeros 1401; } >"$room/in"
refuses_input 'Length 1409 and a REQUEST' 16 10 0

# ---- bytes after the message are not looked at

accepts 'bytes after case c' "$(message "$c") 78 79 7A" 0 absent 'signed -125' absent absent absent
refuses 'members after case b' "$(message '') $c" 27 9 0
{ bytes "$(message "$c")"; zeros 65515; } >"$room/in"
accepts_input 'the longest datagram' 0 absent 'signed -125' absent absent absent

# ---- inputs that are no datagram

{ bytes "$(message "$c")"; zeros 65516; } >"$room/in"
complains 'one byte over a datagram' 'the input is longer than 65535 bytes, the most that a datagram has'
{ bytes "$(message "$c")"; zeros 200000; } >"$room/in"
complains 'an input far too long' 'the input is longer than 65535 bytes, the most that a datagram has'
rm "$room/in" && mkdir "$room/in"
complains 'a folder' 'cannot read standard input'
rmdir "$room/in"

# ---- an input that comes in pieces

mkfifo "$room/in"
{ bytes "$(header 4) 10"; sleep 1; bytes '02 FF'; sleep 1; bytes '83'; } >"$room/in" &
accepts_input 'case c in three pieces' 0 absent 'signed -125' absent absent absent
wait

echo "showw: $((ran - failed)) of $ran cases passed"
[ "$failed" -eq 0 ]
