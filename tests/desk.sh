#!/bin/sh
# Runs desk on tables, datagrams and values, and compares what it prints. The expected lines are worked out by hand. Builds nothing.
#   tests/desk.sh PROGRAM         (what `tools/built desk` prints)
# Prints a line for each case that fails, and ends with status 1 if one does.
set -u

program=${1:-}
[ -f "$program" ] || { echo "usage: tests/desk.sh PROGRAM" >&2; exit 2; }
program=$(cd "$(dirname "$program")" && pwd -P)/$(basename "$program") || exit 2
tests=$(cd "$(dirname "$0")" && pwd -P) || exit 2
tools=$tests/../tools
room=$(mktemp -d) || exit 2
trap 'rm -rf "$room"' EXIT
trap 'exit 1' HUP INT TERM
cd "$room" || exit 2
cp "$tests/../crates/desk/data/w.txt" w
ran=0 failed=0

# ---- comparing

desk() { "$tools/x86-64" "$program" "$@"; }

# Compares ./out and ./said with ./lines and ./errors.
compare() { # NAME
    ran=$((ran + 1))
    if cmp -s out lines && cmp -s said errors; then return; fi
    failed=$((failed + 1))
    echo "FAILED $1: expected '$(cat lines errors | tr '\n' '|')' and got '$(cat out said | tr '\n' '|')'"
}

# A table's text is refused with one message, which names the file t.
wrong() { # NAME TABLE MESSAGE
    printf '%s\n' "$2" >t
    desk show t </dev/null >out 2>said
    : >lines
    printf '%s\n' "$3" >errors
    compare "$1"
}

# The datagram in ./in, under the table in ./t, is shown as these lines.
shows() { # NAME LINES
    desk show t in >out 2>said
    printf '%s\n' "$2" >lines
    : >errors
    compare "$1"
}

# Values give a datagram under the table in ./t; the digits are those that od prints.
makes() { # NAME VALUES DIGITS
    printf '%s\n' "$2" | desk make t >in 2>said
    od -An -v -tx1 in | tr -d ' \n' >out
    printf '%s' "$3" | tr -d ' \n' | tr 'A-F' 'a-f' >lines
    : >errors
    compare "$1"
}

# Values are refused with one message, and nothing is written.
refuses() { # NAME VALUES MESSAGE
    printf '%s\n' "$2" >v
    desk make t v >out 2>said
    : >lines
    printf '%s\n' "$3" >errors
    compare "$1"
}

# A payload under table W's header, as digits in ./in.
message() { # DIGITS
    digits=$(printf '%s' "$1" | tr -d ' ')
    printf '4A01 8001 %08X 0000 0001 01 01 02 00 %s' $((8 + ${#digits} / 2)) "$1" | "$tools/unhex" >in
}

# ---- tables that are wrong

head='service 0x4A01
method 0x8001
interface 1
type notification
width 1 tagged'

wrong 'an unknown word' "$head
frob 1" 't:6: "frob" is no setting (service, method, interface, type, width), and a row begins with its level'
wrong 'a setting twice' "$head
SERVICE 1" 't:6: "SERVICE" stands in line 1 already'
wrong 'no number' 'service' 't:1: service: a number is missing'
wrong 'a word for a number' '# first

service abc' 't:3: service: "abc" is no number'
wrong 'half a number' 'method 0x' 't:1: method: "0x" is no number'
wrong 'a large Service ID' 'service 65536' 't:1: service: "65536" is over 65535'
wrong 'a large Method ID' 'method 0x10000' 't:1: method: "0x10000" is over 65535'
wrong 'a large interface' 'interface 256' 't:1: interface: "256" is over 255'
wrong 'a number over 64 bits' 'interface 99999999999999999999' 't:1: interface: "99999999999999999999" is over 255'
wrong 'a word too many' 'service 1 2 # 3' 't:1: "2" is a word too many'
wrong 'no Message Type' 'type event' 't:1: "event" is none of request, request_no_return, notification, response, error'
wrong 'width 3' 'width 3 tagged' 't:1: width 3 is wrong: a length field has 1, 2 or 4 bytes'
wrong 'width 0' 'width 0 tagged' 't:1: width 0 is wrong: a length field has 1, 2 or 4 bytes'
wrong 'width 8' 'width 8 tagged' 't:1: width: "8" is over 4'
wrong 'no mark of the width' 'width 1' 't:1: "" is neither tagged nor static, one of which stands behind the width'
wrong 'another mark of the width' 'width 1 told' 't:1: "told" is neither tagged nor static, one of which stands behind the width'

rows() { # NAME ROWS MESSAGE
    wrong "$1" "$head
$2" "$3"
}
rows 'level 0' '0 1 uint8 optional a' 't:6: level 0: a level is 1 to 4'
rows 'level 5' '5 1 uint8 optional a' 't:6: level: "5" is over 4'
rows 'no level' '1x 1 uint8 optional a' 't:6: level: "1x" is no number'
rows 'a first row of level 2' '2 1 uint8 optional a' 't:6: level 2 of the first row: it has to be 1'
rows 'a level behind no struct' '1 1 uint8 optional a
2 1 uint8 optional b' "t:7: level 2 after level 1 is wrong: a level is at most the one before it, or one more than a struct's"
rows 'a level two deeper' '1 1 struct optional a
3 1 uint8 optional b' "t:7: level 3 after level 1 is wrong: a level is at most the one before it, or one more than a struct's"
rows 'a Data ID over 4095' '1 4096 uint8 optional a' 't:6: Data ID: "4096" is over 4095'
rows 'no Data ID' '1 uint8 optional a' 't:6: Data ID: "uint8" is no number'
rows 'a line that ends' '1' 't:6: Data ID: a number is missing'
rows 'a Data ID twice' '1 5 struct optional a
2 5 uint8 optional b
1 5 uint8 optional c' 't:8: Data ID 5 stands in line 6 already: it differs among the members of one struct, and among the rows of level 1'
rows 'a Data ID twice in a struct' '1 5 struct optional a
2 7 struct optional b
3 1 uint8 optional c
2 7 uint8 optional d' 't:9: Data ID 7 stands in line 7 already: it differs among the members of one struct, and among the rows of level 1'
rows 'an unknown kind' '1 1 int8 optional a' \
    't:6: "int8" is no kind: boolean, uint8 to uint64, sint8 to sint64, float32, float64, string, array or struct'
rows 'no kind' '1 1' 't:6: "" is no kind: boolean, uint8 to uint64, sint8 to sint64, float32, float64, string, array or struct'
rows 'an array of nothing' '1 1 array optional a' 't:6: "optional" is no element kind: behind array stands one of boolean to float64'
rows 'an array of texts' '1 1 array string optional a' 't:6: "string" is no element kind: behind array stands one of boolean to float64'
rows 'an element kind of no array' '1 1 uint8 uint8 optional a' 't:6: "uint8" stands behind no array: only an array has an element kind'
rows 'a struct at level 4' '1 1 struct optional a
2 1 struct optional b
3 1 struct optional c
4 1 struct optional d' 't:9: a struct at level 4: a struct stands at level 1 to 3'
rows 'neither required nor optional' '1 1 uint8 maybe a' 't:6: "maybe" is neither required nor optional'
rows 'no name' '1 1 uint8 optional # a' "t:6: the row's name is missing: LEVEL DATA-ID KIND required (or optional) NAME"
rows 'a long name' '1 1 uint8 optional abcdefghijklmnopqrstuvwxyz0123456' \
    't:6: "abcdefghijklmnopqrstuvwxyz0123456" is too long: a name has at most 32 characters'
rows 'a name with odd characters' '1 1 uint8 optional "a\"b"' \
    't:6: "\"a\\\"b\"" is no name: it begins with a letter and has letters, digits, _ - and . only'
rows 'a name that begins with a digit' '1 1 uint8 optional 2nd' \
    't:6: "2nd" is no name: it begins with a letter and has letters, digits, _ - and . only'
rows 'a name that values use' '1 1 uint8 optional client' 't:6: "client" is a word that lines of values use, and no name'
rows 'a name twice' '1 1 uint8 optional a
1 2 uint8 optional A' 't:7: "A" stands in line 6 already'
rows 'a word behind the name' '1 1 uint8 optional a b' 't:6: "b" is a word too many'
rows 'no row' '# none' 't: the table has no row, and it needs 1 to 64'
rows '65 rows' "$(i=0; while [ $i -le 64 ]; do echo "1 $i uint8 optional n$i"; i=$((i + 1)); done)" 't:70: a row too many: a table has 1 to 64'
for setting in service method interface type width; do
    wrong "no $setting" "$(printf '%s\n1 1 uint8 optional a' "$head" | grep -v "^$setting")" "t: the table lacks a setting: $setting"
done
wrong 'nothing at all' '' 't: the table lacks a setting: service'
head -c 65536 /dev/zero | tr '\0' '#' >t
desk show t </dev/null >out 2>said
: >lines
echo 't: longer than 65535 bytes, the most that a table file has' >errors
compare 'a table file far too long'
desk show gone </dev/null >out 2>said
echo 'gone: No such file or directory' >errors
compare 'no table file'
desk frob t </dev/null >out 2>said
echo 'usage: desk show TABLE [FILE...], desk show-hex TABLE [FILE...], desk make TABLE [VALUES]' >errors
compare 'no command'

# ---- document 01's cases, under table W

cp w t
# The seven lines: the verdict's, the header's, and the values of the five rows.
lines_w() { # FIRST ROW1 .. ROW5
    printf '%s\nclient 0 session 1 code 0 after 0\n' "$1"
    printf '1 1 time %s\n2 2 temperature %s\n3 5 place %s\n4 1 depot %s\n5 7 note %s\n' "$2" "$3" "$4" "$5" "$6"
}
accepts() { # NAME PAYLOAD SKIPPED ROW1 .. ROW5
    message "$2"
    shows "$1" "$(lines_w "verdict 0 code 0 place 0 skipped $3 accepted" "$4" "$5" "$6" "$7" "$8")"
}
turns_away() { # NAME PAYLOAD FIRST
    message "$2"
    shows "$1" "$(lines_w "$3" absent absent absent absent absent)"
}
c='10 02 FF 83'
accepts 'case a' "$c 50 05 04 10 01 0B 54 00 09 2A" 1 absent 'signed -125' members 'unsigned 2900' absent
turns_away 'case b' '' 'verdict 27 code 9 place 0 skipped 0 missing at payload byte 0: a level ends without a required member'
accepts 'case c' "$c" 0 absent 'signed -125' absent absent absent
turns_away 'case d' "$c $c" 'verdict 22 code 9 place 4 skipped 0 twice at payload byte 4: a known member that was met before at this level'
turns_away 'case e' '20 02 00 00 00 01' \
    "verdict 21 code 9 place 0 skipped 0 wire at payload byte 0: a known member, and its wire type is not its kind's"
turns_away 'case f' '10 02 FF' "verdict 24 code 9 place 2 skipped 0 overrun at payload byte 2: content goes past its level's end"
turns_away 'case g' "$c 50" 'verdict 20 code 9 place 4 skipped 0 tag cut at payload byte 4: one byte is left where a tag has two'
turns_away 'case h' "$c 50 05 00" 'verdict 27 code 9 place 7 skipped 0 missing at payload byte 7: a level ends without a required member'
turns_away 'case i' "$c 50 05 05 10 01 0B 54" "verdict 24 code 9 place 7 skipped 0 overrun at payload byte 7: content goes past its level's end"
accepts 'case j' "50 05 04 10 01 0B 54 00 09 2A $c" 1 absent 'signed -125' members 'unsigned 2900' absent
turns_away 'case k' "$c 70 09 00 00" "verdict 23 code 9 place 6 skipped 0 field cut at payload byte 6: a length field goes past its level's end"
accepts 'case l' "$c 60 05 00 04 10 01 0B 54" 0 absent 'signed -125' members 'unsigned 2900' absent
accepts 'case m' "$c 50 07 04 EF BB BF 00" 0 absent 'signed -125' absent absent 'bytes 10 0 ""'
turns_away 'case n' "$c 50 07 03 EF BB BF" \
    "verdict 26 code 9 place 7 skipped 0 text at payload byte 7: a string's content is not EF BB BF, text and 00"
accepts 'a text with a mark, a backslash, a line and a control character' \
    "$c 50 07 0C EF BB BF 41 22 5C 0A 1B C3 A4 7F 00" 0 absent 'signed -125' absent absent 'bytes 10 8 "A\"\\\n\x1Bä\x7F"'
accepts 'characters that Unicode does not have or that control' \
    "$c 50 07 0D EF BB BF ED A0 80 C2 9B F4 90 80 80 00" 0 absent 'signed -125' absent absent 'bytes 10 9 "\xED\xA0\x80\xC2\x9B\xF4\x90\x80\x80"'

# ---- headers, bytes behind the message, other inputs

# The lines with another line of the header.
accepted='verdict 0 code 0 place 0 skipped 0 accepted'
missing='verdict 27 code 9 place 0 skipped 0 missing at payload byte 0: a level ends without a required member'
refused_w() { lines_w "$1" absent absent absent absent absent; } # FIRST
accepted_w() { lines_w "$accepted" absent 'signed -125' absent absent absent; }
headed() { sed "s/^client .*/$1/"; } # LINE

printf '4A02 8001 00000008 1122 3344 01 01 02 05' | "$tools/unhex" >in
shows 'another Service ID, with what the header has' \
    "$(refused_w "verdict 13 code 2 place 0 skipped 0 service: the Service ID is not the table's" |
        headed 'client 4386 session 13124 code 5 after 0')"
printf '4A01 8001 0000000C 0000 0001 01 01 02 00 1002FF83 78797A' | "$tools/unhex" >in
shows 'bytes behind the message' "$(accepted_w | headed 'client 0 session 1 code 0 after 3')"
printf '4A01' | "$tools/unhex" >in
shows 'two bytes' \
    "$(refused_w 'verdict 10 code 9 place 0 skipped 0 short: fewer than 16 bytes' | headed 'client 0 session 0 code 0 after 0')"
head -c 65536 /dev/zero >in
desk show t in >out 2>said
: >lines
echo 'in: longer than 65535 bytes, the most that a datagram has' >errors
compare 'one byte over a datagram'
head -c 65535 /dev/zero >in
shows 'the longest datagram' \
    "$(refused_w "verdict 11 code 9 place 0 skipped 0 length: Length below 8, or the message goes past the datagram's end" |
        headed 'client 0 session 0 code 0 after 0')"

# Digits: white space anywhere, and what is none.
hexes() { # NAME TEXT
    printf '%s' "$2" >in
    desk show-hex t in >out 2>said
    compare "$1"
}
accepted_w >lines
: >errors
hexes 'digits with white space' '4a01 8001
0000000c 00000001	0101 0200
10 02 f f 83
'
: >lines
echo 'in: an odd number of hexadecimal digits' >errors
hexes 'a digit too many' '4A0'
echo 'in: something other than hexadecimal digits and white space' >errors
hexes 'no digit' '4A01x'

# ---- several datagrams

message "$c" && cp in good
message '' && cp in bad
desk show t good bad gone good >out 2>said
{
    echo '== good' && accepted_w
    echo '== bad' && refused_w "$missing"
    echo '== good' && accepted_w
    echo '3 datagrams: 2 accepted (0), 1 missing (27); 1 not read'
} >lines
echo 'gone: No such file or directory' >errors
compare 'three datagrams and a file that is gone'
desk show t - good <bad >out 2>said
{
    echo '== -' && refused_w "$missing"
    echo '== good' && accepted_w
    echo '2 datagrams: 1 accepted (0), 1 missing (27)'
} >lines
: >errors
compare 'standard input and a file'

# ---- values, under table W

w='4A01 8001'
makes 'one value' 'temperature -125' "$w 0000000C 0000 0000 01 01 02 00 1002 FF83"
makes 'all values, and the header' 'client 1
session 0x0102  # big-endian
code 5
note "Frost"
depot 2900
place present
temperature -125
time 4294967295' "$w 00000025 0001 0102 01 01 02 05 2001 FFFFFFFF 1002 FF83 5005 04 1001 0B54 5007 09 EFBBBF 46726F7374 00"
makes 'rows by number' '4 2900
3 members
2 32767' "$w 00000013 0000 0000 01 01 02 00 1002 7FFF 5005 04 1001 0B54"
makes 'rows that are absent' 'time absent
temperature -32768' "$w 0000000C 0000 0000 01 01 02 00 1002 8000"
makes 'text with escapes' 'temperature 0
note "\"\\\n\r\t\x41 # ä"' "$w 0000001E 0000 0000 01 01 02 00 1002 0000 5007 0F EFBBBF 225C0A0D0941 2023 20C3A4 00"

# An argument of over 4,096 bytes is the name of no file: not even of standard input, where there are values, or a datagram.
long=$(head -c 4097 /dev/zero | tr '\0' 'x')
echo 'temperature -125' | desk make t "$long" >out 2>said
: >lines
echo ': No such file or directory' >errors
compare 'the name of a file of values, too long'
desk show t "$long" <good >out 2>said
compare 'the name of a datagram, too long'

refuses 'an unknown name' 'heat 1' 'v:1: "heat" is the name of no row, and no field of the header'
refuses 'no such row' '6 1' 'v:1: row: "6" is over 5'
refuses 'row 0' '0 1' 'v:1: row 0: rows are counted from 1'
refuses 'no value' '
temperature' 'v:2: the value is missing'
refuses 'no number' 'temperature warm' 'v:1: value: "warm" is no number'
refuses 'a number too large' 'temperature 32768' 'v:1: value: "32768" is over 32767'
refuses 'a number too small' 'temperature -32769' "v:1: \"-32769\" is below the least that the row's kind has"
refuses 'two values' 'temperature 1 2' 'v:1: "2" is a word too many'
refuses 'a value twice' 'temperature 1
2 1' "v:2: the row's value stands in line 1 already"
refuses 'no text' 'note Frost' 'v:1: "Frost" is no text in quotation marks'
refuses 'a text that is left open' 'note "Frost' 'v:1: "\"Frost" lacks its last quotation mark'
refuses 'an unknown escape' 'note "\q"' 'v:1: "\"\\q\"" has a backslash before none of " \ n r t and x with two hexadecimal digits'
refuses 'no struct' 'place 1' 'v:1: "1" is no value of a struct: it is present (or members) or absent'
refuses 'a large session' 'session 65536' 'v:1: session: "65536" is over 65535'
refuses 'no field of the header' 'client 1 depot 2' 'v:1: "depot" is no field of the header: client, session or code'
refuses 'a refused datagram' 'verdict 27 code 9' 'v:1: a refused datagram has no values'
refuses 'a required row without a value' 'time 1' 'v: verdict 30 value: row 2 temperature is required and has no value'
refuses 'a required member without a value' 'temperature 1
place members' 'v: verdict 30 value: row 4 depot is required and has no value'
refuses 'a member of an absent struct' 'temperature 1
depot 1' 'v: verdict 30 value: row 4 depot has a value, and the struct that it is in is absent'
refuses 'bytes that are no text' 'temperature 1
note "\xFF"' 'v: verdict 30 value: row 5 note has a zero byte, or bytes that are no text'
refuses 'a text over what a length field of one byte holds' "temperature 1
note \"$(head -c 252 /dev/zero | tr '\0' 'x')\"" "v: verdict 32 wide: content over what the table's length field holds"

# ---- all kinds

cat >t <<'END'
service 1
method 2
interface 3
type RESPONSE
width 2 static
1 0 boolean optional on
1 1 uint64 optional long
1 2 sint64 optional deep
1 3 float32 optional half
1 4 float64 optional whole
1 5 array uint16 optional readings
1 6 array sint8 optional steps
1 7 array float32 optional heats
1 8 array boolean optional marks
1 9 array float64 optional wides
1 10 struct optional outer
2 0 struct optional middle
3 0 struct optional inner
4 4095 uint8 required leaf
END
all='on 1
long 18446744073709551615
deep -9223372036854775808
half 1.5
whole -0.1
readings 1 2 0xFFFF
steps -128 127 0
heats nan 0x7FC00001 -inf 0.25 1:0x7F800001
marks true false 1
wides 1e308 5e-324
outer present
middle present
inner present
leaf 255'
printf '%s\n' "$all" | desk make t >in 2>said
shows 'all kinds' 'verdict 0 code 0 place 0 skipped 0 accepted
client 0 session 0 code 0 after 0
1 0 on unsigned 1
2 1 long unsigned 18446744073709551615
3 2 deep signed -9223372036854775808
4 3 half float32 1.5 0x3FC00000
5 4 whole float64 -0.1 0xBFB999999999999A
6 5 readings bytes 43 6 1 2 65535
7 6 steps bytes 53 3 -128 127 0
8 7 heats bytes 60 20 nan:0x7FC00000 nan:0x7FC00001 -inf:0xFF800000 0.25:0x3E800000 nan:0x7F800001
9 8 marks bytes 84 3 1 0 1
10 9 wides bytes 91 16 1e+308:0x7FE1CCF385EBC8A0 5e-324:0x0000000000000001
11 10 outer members
12 0 middle members
13 0 inner members
14 4095 leaf unsigned 255'
cp in first
desk show t first | desk make t >in 2>said
cmp -s in first && : >out || echo 'another datagram' >out
: >lines
compare 'what show prints makes the same datagram'
printf 'readings\nmarks\n' | desk make t >in 2>said
: >errors
desk show t in 2>/dev/null | sed -n '8p;11p' >out
printf '6 5 readings bytes 4 0\n9 8 marks bytes 8 0\n' >lines
compare 'the places of empty arrays'

# A float64's and a float32's decimal and bits.
float() { # NAME KIND VALUE SHOWN
    printf '%s %s\n' "$2" "$3" | desk make t 2>said | desk show t 2>>said | grep " $2 " >out
    case $2 in half) printf '4 3 half float32 %s\n' "$4" ;; *) printf '5 4 whole float64 %s\n' "$4" ;; esac >lines
    : >errors
    compare "$1"
}
float 'zero' half 0 '0 0x00000000'
float 'minus zero' half -0 '-0 0x80000000'
float 'a tenth' half 0.1 '0.1 0x3DCCCCCD'
float 'a third of nine digits' half 0.333333343 '0.33333334 0x3EAAAAAB'
float 'the least float32' half 1e-45 '1e-45 0x00000001'
float 'the largest subnormal float32' half 0x007FFFFF '1.1754942e-38 0x007FFFFF'
float 'the largest float32' half 3.4028235e38 '3.4028235e+38 0x7F7FFFFF'
float 'half way to the even' half 16777217 '16777216 0x4B800000'
float 'above half way' half 16777217.00000001 '16777218 0x4B800001'
float 'a NaN with a payload' half 0x7FC00001 'nan 0x7FC00001'
float 'a negative signalling NaN' half 0xFF800001 'nan 0xFF800001'
float 'infinity' half inf 'inf 0x7F800000'
float 'value and bits, which decide' half 'float32 1 0x40000000' '2 0x40000000'
float 'a tenth, wide' whole 0.1 '0.1 0x3FB999999999999A'
float 'seventeen digits' whole 0.30000000000000004 '0.30000000000000004 0x3FD3333333333334'
float 'the least float64' whole 4.9e-324 '5e-324 0x0000000000000001'
float 'the least normal float64' whole 2.2250738585072014e-308 '2.2250738585072014e-308 0x0010000000000000'
float 'the largest float64' whole 1.7976931348623157e308 '1.7976931348623157e+308 0x7FEFFFFFFFFFFFFF'
float 'an exponent' whole 12.5E+3 '12500 0x40C86A0000000000'
float 'bits' whole 'bits 0x7FF8000000000000' 'nan 0x7FF8000000000000'
float 'a NaN, wide' whole nan 'nan 0x7FF8000000000000'
float 'less than the least' whole 1e-400 '0 0x0000000000000000'
refuses 'a float32 too large' 'half 3.5e38' "v:1: \"3.5e38\" is too large for the row's kind"
refuses 'half way past the largest float32' 'half 3.40282357e38' "v:1: \"3.40282357e38\" is too large for the row's kind"
refuses 'an exponent that no float has' 'whole 1e309' 'v:1: "1e309" has more than 18 digits, or an exponent that no float has'
refuses 'nineteen digits' 'whole 1.234567890123456789' 'v:1: "1.234567890123456789" has more than 18 digits, or an exponent that no float has'
refuses 'two points' 'whole 1.2.3' 'v:1: "1.2.3" is no decimal, no bits behind 0x, and none of inf and nan'
refuses 'an exponent without digits' 'whole 1e' 'v:1: "1e" is no decimal, no bits behind 0x, and none of inf and nan'
refuses 'bits over a float32' 'half 0x100000000' 'v:1: float bits: "0x100000000" is over 4294967295'
refuses 'a heavy payload' "readings$(i=0; while [ $i -lt 700 ]; do printf ' %s' "$i"; i=$((i + 1)); done)" \
    'v: verdict 33 heavy: the payload would have over 1400 bytes'
refuses 'a boolean of 2' 'on 2' 'v:1: value: "2" is over 1'

echo "desk: $((ran - failed)) of $ran cases passed"
[ "$failed" -eq 0 ]
