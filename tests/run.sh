#!/bin/sh
# Runs ./run archive: its statuses, its help, and messages shown under table W. ./run builds what isn't built.
#   tests/run.sh
# Prints a line for each case that fails, and ends with status 1 if one does.
set -u

tests=$(cd "$(dirname "$0")" && pwd -P) || exit 2
room=$(mktemp -d) || exit 2
trap 'rm -rf "$room"' EXIT
trap 'exit 1' HUP INT TERM
cd "$room" || exit 2
cp "$tests/../crates/desk/data/w.txt" w.txt
ran=0 failed=0

run() { "$tests/../run" "$@"; }

# A command has a status, prints ./lines and says ./errors.
ends() { # NAME STATUS ARG...
    ran=$((ran + 1))
    name=$1 status=$2
    shift 2
    run "$@" >out 2>said </dev/null
    got=$?
    if [ "$got" -eq "$status" ] && cmp -s out lines && cmp -s said errors; then return; fi
    failed=$((failed + 1))
    echo "FAILED $name: expected $status '$(cat lines errors | tr '\n' '|')' and got $got '$(cat out said | tr '\n' '|')'"
}

# A command has status 2, prints nothing and says this last, behind its help.
misused() { # NAME LAST-LINE ARG...
    ran=$((ran + 1))
    name=$1 last=$2
    shift 2
    run "$@" >out 2>said </dev/null
    got=$?
    if [ "$got" -eq 2 ] && [ ! -s out ] && [ "$(tail -n 1 said)" = "$last" ]; then return; fi
    failed=$((failed + 1))
    echo "FAILED $name: expected 2 '$last' and got $got '$(cat out said | tr '\n' '|')'"
}

# A command, which may have redirections, prints and says these lines, and its status last.
answers() { # NAME LINES COMMAND
    ran=$((ran + 1))
    got=$(exec 2>&1; eval "$3"; echo "status $?")
    [ "$got" != "$2" ] || return
    failed=$((failed + 1))
    echo "FAILED $1: expected '$(echo "$2" | tr '\n' '|')' and got '$(echo "$got" | tr '\n' '|')'"
}

# ---- from values to a message that is found, as README.md has it

printf 'session 7\ntemperature -125\n' >cold
printf 'session 8\ntemperature 3\nnote "Thaw"\n' >warm
: >lines
: >errors
run make w.txt cold >1 || exit 1
run make w.txt warm >2 || exit 1
ends 'an archive is made' 0 archive add shift.arc 1
ends 'and added to' 0 archive add shift.arc 2
echo 'verdict 0 size 71 records 55 messages 2 accepted
1 offset 0 size 20 service 0x4A01 method 0x8001 client 0 session 7
2 offset 22 size 31 service 0x4A01 method 0x8001 client 0 session 8' >lines
ends 'it is listed' 0 archive list shift.arc
echo 'shift.arc: verdict 0 size 71 records 55 messages 2 accepted' >lines
ends 'it is verified' 0 archive verify shift.arc
cp 2 lines
ends 'a message is taken out' 0 archive take shift.arc 2
ends 'and found' 0 archive find shift.arc 0x8
echo '# 2 offset 22 size 31 service 0x4A01 method 0x8001 client 0 session 8
verdict 0 code 0 place 0 skipped 0 accepted
client 0 session 8 code 0 after 0
1 1 time absent
2 2 temperature signed 3
3 5 place absent
4 1 depot absent
5 7 note bytes 10 4 "Thaw"' >lines
ends 'its values by number' 0 archive take -t w.txt shift.arc 2
ends 'its values by Session ID' 0 archive find -t w.txt shift.arc 8
run archive find -t w.txt shift.arc 8 | run make w.txt >lines
ran=$((ran + 1))
cmp 2 lines || failed=$((failed + 1))
ln -s shift.arc link
: >lines
ends 'a link is followed' 0 archive add link 1
echo 'shift.arc: verdict 0 size 97 records 77 messages 3 accepted' >lines
ends 'to its archive' 0 archive verify shift.arc

# ---- statuses

: >lines
echo 'shift.arc: verdict 54 no record: no message with session 9 among 3' >errors
ends 'no such message' 1 archive find shift.arc 9
ends 'no such message, shown' 1 archive find -t w.txt shift.arc 9
echo '1: verdict 51 trailer: form number 65411 is not 1' >errors
ends 'no archive' 1 archive list 1
echo 'gone: No such file or directory' >errors
ends 'no file' 1 archive list gone
ends 'no table' 1 archive take -t gone shift.arc 1
echo 'shift.arc: verdict 0 size 97 records 77 messages 3 accepted' >lines
ends 'no file behind an archive' 1 archive verify shift.arc gone

# ---- what can't be written, and odd names

none='gone: No such file or directory
status 1'
unwritten='standard output cannot be written
status 1'
three='shift.arc: verdict 0 size 97 records 77 messages 3 accepted
status 0'
# No file can be written, and what went wrong is told even so. All has been built above; rt would write a file.
filled() {
    trap '' XFSZ
    ulimit -f 0
    run "$@"
}
answers 'a full disk' "$none" 'filled archive list gone'
answers 'adding on a full disk' "shift.arc.new: File too large
status 1" 'filled archive add shift.arc 1'
answers 'values on a full disk' "$unwritten" 'filled archive take -t w.txt shift.arc 1'
answers 'a missing table on a full disk' "$none" 'filled show gone 1'
answers 'the archive on a full disk' "$three" 'run archive verify shift.arc'
answers 'a closed standard output' "$unwritten" 'run archive list shift.arc >&-'
answers 'a pipe that nobody reads' "$unwritten
status 0" '{ sleep 1; run archive list shift.arc; echo "status $?" >&2; } | :'
answers 'a closed standard input' '-: verdict 53 no message: size 0 is not 16 to 65535
status 1' 'run archive add shift.arc - <&-'
mkfifo pipe
answers 'a pipe for an archive' 'run: pipe is a pipe or a device, and an archive to add to is a file
status 1' 'timeout 20 "$tests/../run" archive add pipe 1'
odd=$(printf 'odd\n.')
odd=${odd%.}
cp shift.arc "$odd"
ln -s "$odd" odd.link
answers 'a link to a name that ends in a line end' 'status 0' 'run archive add odd.link 1'
answers 'is followed' "$odd: verdict 0 size 123 records 99 messages 4 accepted
status 0" 'run archive verify "$odd"'
answers 'and no other file is made' 'status 1' '[ -e odd ]'
here=$(cd "$tests/.." && pwd -P)
ln -s "$here/run" linked
answers 'run by a link' "$three" './linked archive verify shift.arc'
answers 'run where CDPATH is set' "$room/$three" 'cd "${here%/*}/" && CDPATH=$PWD "${here##*/}/run" archive verify "$room/shift.arc"'

misused 'no command' 'run: name a command: list, verify, take, find or add' archive
misused 'an unknown command' 'run: name a command: list, verify, take, find or add' archive frob shift.arc
misused 'no archive to list' 'run: name an archive' archive list
misused 'two archives to list' 'run: name an archive' archive list shift.arc shift.arc
misused 'no archive to verify' 'run: name an archive' archive verify
misused 'no number' 'run: name an archive and a number' archive take shift.arc
misused 'a word for a number' 'run: name an archive and a number' archive take shift.arc two
misused 'half a number' 'run: name an archive and a number' archive find shift.arc 0x
misused 'nothing to add' 'run: name an archive and the files to add' archive add shift.arc
misused 'a table for a list' 'run: list has no -t' archive list -t w.txt shift.arc
misused 'a table without a name' 'run: a table file has a name' archive take -t - shift.arc 1
misused 'an option without its table' 'run: -t has a table file behind it' archive take -t
misused 'an unknown option' 'run: there is no option -q' archive list -q shift.arc

# ---- help: a screen of 24 lines by 140 columns

for page in '' archive; do
    ran=$((ran + 1))
    # shellcheck disable=SC2086
    if run $page -h >out && [ "$(wc -l <out)" -le 24 ] && ! grep -q '.\{141\}' out; then continue; fi
    failed=$((failed + 1))
    echo "FAILED help $page: $(wc -l <out) lines"
done

echo "run: $((ran - failed)) of $ran cases passed"
[ "$failed" -eq 0 ]
