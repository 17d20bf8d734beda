#!/bin/sh
# store.sh: makes the stored cases again, crates/vectors/stdin and stdout: those of expected.py, then 1,800 of gen.py with seed 1.
# store.sh --check: changes nothing, and compares. Status 0: the same; 1: not.
set -eu
here=$(CDPATH= cd -- "$(dirname -- "$0")" && pwd)
crate=$here/../../crates/vectors
export PYTHONDONTWRITEBYTECODE=1
folder=$(mktemp -d)
trap 'rm -rf "$folder"' EXIT
mkdir "$folder/hand" "$folder/gen"
(cd "$folder/hand" && python3 "$here/expected.py" > /dev/null)
python3 "$here/gen.py" 1 1800 "$folder/gen" > /dev/null
for name in stdin stdout; do cat "$folder/hand/$name" "$folder/gen/$name" > "$folder/$name"; done
# The second program answers all of them, those of expected.py too.
python3 "$here/answer.py" < "$folder/stdin" | cmp - "$folder/stdout"
for name in stdin stdout; do
    if [ "${1-}" = --check ]; then cmp "$folder/$name" "$crate/$name"; else cp "$folder/$name" "$crate/$name"; fi
done
