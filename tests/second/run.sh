#!/bin/sh
# run.sh PROGRAM SEED COUNT [small]: makes COUNT cases by SEED, runs PROGRAM on them and compares it with the second program.
# The cases are those of gen.py, or with `small` those of small.py.
# Prints how often each verdict came up and how many cases agree; the first differences too. Status 0: all agree; 1: not; 2: it could not run.
set -u
usage="usage: $0 PROGRAM SEED COUNT [small]"
[ $# -eq 3 ] || [ "$#${4-}" = 4small ] || { echo "$usage" >&2; exit 2; }
program=$1 seed=$2 count=$3 generator=gen
[ $# -eq 3 ] || generator=small
export PYTHONDONTWRITEBYTECODE=1
here=$(CDPATH= cd -- "$(dirname -- "$0")" && pwd) || exit 2
[ -f "$program" ] || { echo "$0: $program is no program" >&2; exit 2; }
folder=$(mktemp -d) || exit 2
trap 'rm -rf "$folder"' EXIT
trap 'exit 2' HUP INT TERM
python3 "$here/$generator.py" "$seed" "$count" "$folder" || exit 2
"$here/../../tools/x86-64" "$program" < "$folder/stdin" > "$folder/got"
status=$?
python3 "$here/compare.py" "$folder/stdin" "$folder/stdout" "$folder/got" || exit 1
[ $status -eq 0 ] || { echo "the program ended with status $status"; exit 1; }
