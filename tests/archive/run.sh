#!/bin/sh
# run.sh PROGRAM SEED COUNT: makes COUNT archive cases by SEED, runs PROGRAM on them and compares it with the second program.
# Prints how often each verdict came up and how many cases agree, or the first difference. Status 0: all agree; 1: not; 2: it could not run.
set -u
[ $# -eq 3 ] || { echo "usage: $0 PROGRAM SEED COUNT" >&2; exit 2; }
program=$1 seed=$2 count=$3
export PYTHONDONTWRITEBYTECODE=1
here=$(CDPATH= cd -- "$(dirname -- "$0")" && pwd) || exit 2
[ -f "$program" ] || { echo "$0: $program is no program" >&2; exit 2; }
folder=$(mktemp -d) || exit 2
trap 'rm -rf "$folder"' EXIT
trap 'exit 2' HUP INT TERM
python3 "$here/gen.py" "$seed" "$count" > "$folder/cases" || exit 2
python3 "$here/answer.py" < "$folder/cases" > "$folder/expected" || exit 2
"$here/../../tools/x86-64" "$program" < "$folder/cases" > "$folder/got"
status=$?
python3 "$here/compare.py" "$folder/cases" "$folder/expected" "$folder/got" || exit 1
[ $status -eq 0 ] || { echo "the program ended with status $status"; exit 1; }
