#!/bin/sh
# Runs depot on archives, whole and damaged, and compares what it prints and what it leaves on disk. The expected lines are worked out by hand.
# Builds nothing.
#   tests/depot.sh PROGRAM         (what `tools/built depot` prints)
# Prints a line for each case that fails, and ends with status 1 if one does.
set -u

program=${1:-}
[ -f "$program" ] || { echo "usage: tests/depot.sh PROGRAM" >&2; exit 2; }
tools=$(cd "$(dirname "$0")/../tools" && pwd -P) || exit 2
room=$(mktemp -d) || exit 2
trap 'chmod -R u+w "$room"; rm -rf "$room"' EXIT
trap 'exit 1' HUP INT TERM
cp "$program" "$room/depot" && cp "$tools/x86-64" "$tools/unhex" "$room" && mkdir "$room/own" && chmod 755 "$room" "$room/depot" || exit 2
cd "$room/own" || exit 2
umask 022
ran=0 failed=0

# ---- comparing

depot() { ../x86-64 ../depot "$@"; }

# Compares ./out and ./said with ./lines and ./errors.
compare() { # NAME
    ran=$((ran + 1))
    if cmp -s out lines && cmp -s said errors; then return; fi
    failed=$((failed + 1))
    echo "FAILED $1: expected '$(cat lines errors | tr '\n\0' '|0')' and got '$(cat out said | tr '\n\0' '|0')'"
}

# What a command prints, and nothing on standard error.
prints() { # NAME LINES COMMAND...
    printf '%s\n' "$2" >lines
    [ -n "$2" ] || : >lines
    : >errors
    name=$1
    shift 2
    depot "$@" >out 2>said
    compare "$name"
}

# A command says these lines on standard error, and prints nothing.
says() { # NAME LINES COMMAND...
    printf '%s\n' "$2" >errors
    : >lines
    name=$1
    shift 2
    depot "$@" >out 2>said
    compare "$name"
}

# A command writes the bytes of a file.
writes() { # NAME FILE COMMAND...
    cp "$2" lines
    : >errors
    name=$1
    shift 2
    depot "$@" >out 2>said
    compare "$name"
}

# Something holds of what is on disk.
holds() { # NAME TEST...
    ran=$((ran + 1))
    name=$1
    shift
    if "$@"; then return; fi
    failed=$((failed + 1))
    echo "FAILED $name: $*"
}

# ---- messages and archives

bytes() { printf '%s' "$*" | ../unhex; }
zeros() { head -c "$1" /dev/zero; }
gone() { [ ! -e "$1" ]; }

# 16 bytes, session 1; 20 bytes, session 7; 17 bytes of another service and method, with client 160, session 7 again
one='4A018001 00000008 00000001 01010200'
two='4A018001 0000000C 00000007 01010200 1002FF83'
three='12340005 00000009 00A00007 01020000 2A'
bytes "$one" >1
bytes "$two" >2
bytes "$three" >3

# Three records of 18, 22 and 19 bytes; three entries; the trailer: index offset 59, 3 entries, form 1. 79 bytes.
records="0010 $one 0014 $two 0011 $three"
index='0000 0001 0012 0007 0028 0007'
bytes "$records $index 0000003B 0003 0001" >whole
bytes '00000000 0000 0001' >empty

# A message of so many bytes, over 16; the record's length in front where it is asked for.
message() { # SIZE
    bytes "$(printf '4A018001 %08X 00000001 01010200' $(($1 - 8)))"
    zeros $(($1 - 16))
}

# ---- list, verify, take, find

prints 'three messages' 'verdict 0 size 79 records 59 messages 3 accepted
1 offset 0 size 16 service 0x4A01 method 0x8001 client 0 session 1
2 offset 18 size 20 service 0x4A01 method 0x8001 client 0 session 7
3 offset 40 size 17 service 0x1234 method 0x0005 client 160 session 7' list whole
prints 'an empty archive' 'verdict 0 size 8 records 0 messages 0 accepted' list empty
prints 'several archives' 'whole: verdict 0 size 79 records 59 messages 3 accepted
empty: verdict 0 size 8 records 0 messages 0 accepted' verify whole empty
for n in 1 2 3; do
    writes "message $n" "$n" take whole "$n"
done
writes 'a hexadecimal number' 2 take whole 0x2
writes 'session 1' 1 find whole 1
writes 'the first of session 7' 2 find whole 7
{ echo '# 2 offset 18 size 20 service 0x4A01 method 0x8001 client 0 session 7'; cat 2; } >lined
writes 'a message behind its line' lined take-line whole 2
writes 'a message found behind its line' lined find-line whole 7
prints 'an archive on standard input' '-: verdict 0 size 79 records 59 messages 3 accepted' verify - <whole
writes 'a message of one on standard input' 3 take - 3 <whole

# ---- 54, and numbers that are none

says 'message 0' 'whole: verdict 54 no record: no message 0 among 3' take whole 0
says 'message 4' 'whole: verdict 54 no record: no message 4 among 3' take whole 4
says 'a far message' 'whole: verdict 54 no record: no message 18446744073709551615 among 3' take whole 18446744073709551615
says 'message 1 of none' 'empty: verdict 54 no record: no message 1 among 0' take empty 1
says 'session 2' 'whole: verdict 54 no record: no message with session 2 among 3' find whole 2
says 'session 65535 of none' 'empty: verdict 54 no record: no message with session 65535 among 0' find empty 65535
says 'a number over 64 bits' '"18446744073709551616" is over 18446744073709551615' take whole 18446744073709551616
says 'a session over 16 bits' '"65536" is over 65535' find whole 65536
says 'a word for a number' '"two" is no number' take whole two
says 'no session' '"" is no number' find whole ''
says 'a negative number' '"-1" is no number' take whole -1

# ---- 51

# The same words from each command that opens.
refused() { # NAME WORDS
    says "$1, listed" "f: $2" list f
    says "$1, verified" "f: $2" verify f
    says "$1, read" "f: $2" take f 0
    says "$1, searched" "f: $2" find f 1
    cp f before
    says "$1, added to" "f: $2" add f 1
    holds "$1, added to, is as it was" cmp f before
    holds "$1, added to, leaves no file" gone f.new
}

: >f
refused 'no byte' "verdict 51 trailer: the file has 0 of the trailer's 8 bytes"
bytes '00000000 0000 00' >f
refused 'seven bytes' "verdict 51 trailer: the file has 7 of the trailer's 8 bytes"
bytes '00000000 0000 0000' >f
refused 'form 0' 'verdict 51 trailer: form number 0 is not 1'
bytes "$records $index 0000003B 0003 0002" >f
refused 'form 2' 'verdict 51 trailer: form number 2 is not 1'
bytes "$records $index 0000003C 0003 0001" >f
refused 'an index one byte further' \
    "verdict 51 trailer: index offset 60 and number of entries 3 put the index's end at 72, past the trailer's start at 71"
bytes "$records $index 0000003B 0004 0001" >f
refused 'an entry more' \
    "verdict 51 trailer: index offset 59 and number of entries 4 put the index's end at 75, past the trailer's start at 71"
bytes "0010 $one 0000 0001 FFFFFFFC 0001 0001" >f
refused 'an index that would wrap' \
    "verdict 51 trailer: index offset 4294967292 and number of entries 1 put the index's end at 4294967296, past the trailer's start at 22"
bytes 'FFFFFFFF FFFF 0001' >f
refused 'a trailer of ones' \
    "verdict 51 trailer: index offset 4294967295 and number of entries 65535 put the index's end at 4295229435, past the trailer's start at 0"
cp 1 f
refused 'a message' 'verdict 51 trailer: form number 512 is not 1'

# ---- 52

bytes '00 0000 0000 00000001 0001 0001' >f
refused 'a record of one byte' "verdict 52 records: record 1 at offset 0: its two bytes of length reach past the records' end at 1"
bytes "0010 $one 00 0000 0001 00000013 0001 0001" >f
refused 'a byte behind the last record' "verdict 52 records: record 2 at offset 18: its two bytes of length reach past the records' end at 19"
bytes "0010 $one 0015 $two 0000 0001 0012 0007 00000028 0002 0001" >f
refused 'a length past the records' "verdict 52 records: record 2 at offset 18: its length 21 reaches past the records' end at 40"
bytes "FFFF $one 0000 0001 00000012 0001 0001" >f
refused 'a length of ones' "verdict 52 records: record 1 at offset 0: its length 65535 reaches past the records' end at 18"
bytes "0010 $one 0000 0000 0001 0012 0000 00000014 0002 0001" >f
refused 'a record of nothing' 'verdict 52 records: record 2 at offset 18 is no message: size 0 is not 16 to 65535'
bytes '000F 4A018001 00000007 00000001 010102 0000 0001 00000011 0001 0001' >f
refused 'a record of 15 bytes' 'verdict 52 records: record 1 at offset 0 is no message: size 15 is not 16 to 65535'
bytes "0010 $one 0014 4A018001 0000000D 00000007 01010200 1002FF83 0000 0001 0012 0007 00000028 0002 0001" >f
refused 'a Length one too large' 'verdict 52 records: record 2 at offset 18 is no message: size 20 and Length 13, which is not 12'
bytes '0010 4A018001 FFFFFFFF 00000001 01010200 0000 0001 00000012 0001 0001' >f
refused 'a Length of ones' 'verdict 52 records: record 1 at offset 0 is no message: size 16 and Length 4294967295, which is not 8'
bytes "$records $index 0000003B 0002 0001" >f
refused 'an entry less' "verdict 52 records: the trailer's number of entries is 2, and that of the records 3"
bytes "0010 $one 0000 0001 00000000 0000 0001" >f
refused 'bytes between no index and the trailer' 'verdict 52 records: the index ends at 0, and the trailer starts at 22'
bytes "$records $index 00 0000003B 0003 0001" >f
refused 'a byte between index and trailer' 'verdict 52 records: the index ends at 71, and the trailer starts at 72'
bytes "$records 0000 0001 0013 0007 0028 0007 0000003B 0003 0001" >f
refused 'another offset' 'verdict 52 records: entry 2 says offset 19, and its record is at 18'
bytes "$records 0000 0001 0012 0007 0028 0107 0000003B 0003 0001" >f
refused 'another Session ID' 'verdict 52 records: entry 3 says session 263, and its record has 7'
bytes "$records 0012 0007 0000 0001 0028 0007 0000003B 0003 0001" >f
refused 'entries exchanged' 'verdict 52 records: entry 1 says offset 18, and its record is at 0'
bytes "$records $index 00000028 0002 0001" >f
refused 'records cut from the index' 'verdict 52 records: the index ends at 48, and the trailer starts at 71'
printf '%s\n' 'whole: verdict 0 size 79 records 59 messages 3 accepted' 'whole: verdict 0 size 79 records 59 messages 3 accepted' >lines
printf '%s\n' 'f: verdict 52 records: the index ends at 48, and the trailer starts at 71' 'gone: No such file or directory' >errors
depot verify whole f gone whole >out 2>said
compare 'an archive is verified behind others that are refused'

# ---- sizes at the limits

# One message of 65,521 bytes: record 65,523, entry 4, trailer 8.
{ bytes FFF1; message 65521; bytes '0000 0001 0000FFF3 0001 0001'; } >full
prints 'the longest archive' 'verdict 0 size 65535 records 65523 messages 1 accepted
1 offset 0 size 65521 service 0x4A01 method 0x8001 client 0 session 1' list full
message 65521 >longest
writes 'its message' longest take full 1
{ bytes FFF2; message 65522; bytes '0000 0001 0000FFF4 0001 0001'; } >f
refused 'an archive one byte longer' 'verdict 51 trailer: the file has over 65535 bytes, the most of an archive'
{ cat full; zeros 200000; cat empty; } >f
refused 'a far longer file' 'verdict 51 trailer: the file has over 65535 bytes, the most of an archive'

# ---- adding

rm -f a
prints 'a new archive' '' add a 1 2 3
holds 'it is the archive of three messages' cmp a whole
holds 'the new file is gone' gone a.new
rm -f a
prints 'the first message' '' add a 1
bytes "0010 $one 0000 0001 00000012 0001 0001" >lines
holds 'it has 30 bytes' cmp a lines
prints 'a second' '' add a 2
prints 'a third, from standard input' '' add a - <3
holds 'one after the other they are the same' cmp a whole
cp empty a
prints 'to an empty archive, twice the same' '' add a 1 1
prints 'both are there' 'verdict 0 size 52 records 36 messages 2 accepted
1 offset 0 size 16 service 0x4A01 method 0x8001 client 0 session 1
2 offset 18 size 16 service 0x4A01 method 0x8001 client 0 session 1' list a
cp whole a
for mode in 600 640 444 755; do
    chmod "$mode" a
    prints "to an archive of mode $mode" '' add a 1
    holds "mode $mode is kept" [ "$(stat -c %a a)" = "$mode" ]
done
rm -f a
(umask 027 && depot add a 1)
holds 'a new archive has the mode that the mask leaves' [ "$(stat -c %a a)" = 640 ]
rm -f a
prints 'the longest message that fits' '' add a longest
holds 'it is the longest archive' cmp a full

# A refused call leaves the archive as it was: its bytes, its time and its place on the disk.
unchanged() { # NAME WORDS FILE...
    cp whole a
    touch -d '2020-01-02 03:04:05' a
    before=$(stat -c '%i %Y %s' a)
    name=$1 words=$2
    shift 2
    says "$name" "$words" add a "$@"
    holds "$name: the archive is as it was" cmp a whole
    holds "$name: its time and place too" [ "$(stat -c '%i %Y %s' a)" = "$before" ]
    holds "$name: no new file" gone a.new
}
bytes '4A018001 00000007 00000001 010102' >short
bytes '4A018001 0000000D 00000007 01010200 1002FF83' >unlike
unchanged 'a file of 15 bytes' 'short: verdict 53 no message: size 15 is not 16 to 65535' short
unchanged 'another Length' 'unlike: verdict 53 no message: size 20 and Length 13, which is not 12' unlike
unchanged 'a refused file behind good ones' 'short: verdict 53 no message: size 15 is not 16 to 65535' 1 2 short 3
: >none
unchanged 'an empty file' 'none: verdict 53 no message: size 0 is not 16 to 65535' none
message 65536 >large
unchanged 'a message over 65,535 bytes' 'large: verdict 53 no message: size over 65535' large
message 65535 >large
unchanged 'a message that no archive has room for' \
    'large: verdict 50 full: the archive would need 65620 bytes with it, and 65535 is the most' large
message 65429 >large
unchanged 'one byte too many' 'large: verdict 50 full: the archive would need 65536 bytes with it, and 65535 is the most' 1 large
message 65428 >large
cp whole a
prints 'one byte less' '' add a 1 large
prints 'which fills the archive' 'a: verdict 0 size 65535 records 65507 messages 5 accepted' verify a
unchanged 'a file that is missing' 'gone: No such file or directory' 1 gone
mkdir -p folder
unchanged 'a folder for a file' 'folder: Is a directory' folder
says 'a folder for an archive' 'folder: Is a directory' add folder 1
holds 'a folder for an archive leaves no file' gone folder.new
says 'a folder that is missing' 'gone/a.new: No such file or directory' add gone/a 1
says 'a file for a folder' '1/a.new: Not a directory' add 1/a 1
rm -f b
says 'a refused file and no archive' 'short: verdict 53 no message: size 15 is not 16 to 65535' add b 1 short
holds 'no archive is made' gone b
holds 'and no new file' gone b.new
says 'an archive on standard input' '-: an archive to add to is a file by its name, of at most 4091 bytes' add - 1
says 'an archive of no name' ': an archive to add to is a file by its name, of at most 4091 bytes' add '' 1

# Another add at work.
cp whole a
echo mine >a.new
says 'a new file that is there' 'a.new: another add is at work, or one was cut off and left this file, which can be removed then' add a 1
holds 'the archive is as it was' cmp a whole
holds 'the new file is as it was' [ "$(cat a.new)" = mine ]
rm a.new

# A file that can't be written whole: the system ends it after 512 bytes.
cp whole a
echo 'a.new: File too large' >errors
: >lines
(trap '' XFSZ && ulimit -f 1 && depot add a 1 large >out 2>said)
compare 'a new file that is cut'
holds 'it is removed' gone a.new
holds 'the archive stays' cmp a whole

# What another user may not do. Root may do all, so it goes on as nobody.
as=''
[ "$(id -u)" -ne 0 ] || as='setpriv --reuid=65534 --regid=65534 --clear-groups'
depot() { $as ../x86-64 ../depot "$@"; }
mkdir closed && cp whole closed/a && cp whole hidden && chmod 000 hidden && chmod 555 closed
says 'an archive that may not be read' 'hidden: Permission denied' list hidden
says 'a file that may not be read' 'hidden: Permission denied' verify hidden
says 'adding where no file may be made' 'closed/a.new: Permission denied' add closed/a 1
holds 'adding there changes nothing' cmp closed/a whole
mkdir open && cp whole open/a && chmod 000 open/a && chmod 777 open
says 'adding to an archive that may not be read' 'open/a: Permission denied' add open/a 1
holds 'that leaves no file' gone open/a.new
cp whole open/b
chmod 644 open/b
says 'adding a file that may not be read' 'hidden: Permission denied' add open/b 1 hidden
holds 'that changes nothing' cmp open/b whole
holds 'and leaves no file' gone open/b.new
depot() { ../x86-64 ../depot "$@"; }

# ---- what can't be written, and how the program is called

echo 'standard output cannot be written' >errors
: >lines
: >out
for command in 'list whole' 'verify whole whole' 'take whole 1' 'find whole 7'; do
    # shellcheck disable=SC2086
    depot $command >/dev/full 2>said
    compare "$command to a full disk"
done
usage='usage: depot list ARCHIVE, verify ARCHIVE..., take ARCHIVE N, find ARCHIVE SESSION, add ARCHIVE FILE...'
for command in '' 'frob whole' list 'list whole whole' verify take 'take whole' 'take whole 1 2' find 'find whole' add 'add a'; do
    # shellcheck disable=SC2086
    says "called as '$command'" "$usage" $command
done
holds 'an archive alone is not added to' cmp a whole

# A name or a number that is longer than the program reads is none that is cut short.
long=$(zeros 4096 | tr '\0' 0)
says 'a name of 4,096 bytes' "$long: File name too long" verify "$long"
says 'a longer name' 'argument 3 is over 4096 bytes' verify whole "${long}1"
says 'a longer number' 'argument 3 is over 4096 bytes' take whole "${long}1"
says 'a longer archive to add to' 'argument 2 is over 4096 bytes' add "${long}1" 1
says 'a longer file to add' 'argument 4 is over 4096 bytes' add a 1 "${long}1"
holds 'a longer file is not added' cmp a whole

echo "depot: $((ran - failed)) of $ran cases passed"
[ "$failed" -eq 0 ]
