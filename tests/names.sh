#!/bin/sh
# Holds docs/PROMISES.md to the crates: every name and file that it quotes as code exists, every statement has a proof, and every public
# function of a library and every must-fail edit is named on it. Prints what is missing, and ends with status 1 if something is.
set -eu
cd "$(dirname "$0")/.."
page=docs/PROMISES.md
room=$(mktemp -d) || exit 2
trap 'rm -rf "$room"' EXIT
trap 'exit 1' HUP INT TERM
grep -o '`[^`]*`' "$page" | tr -d '`' | sort -u > "$room/quoted"

# what the crates declare: definitions, statements, lemmas and fields of specs and proofs; functions, types and constants of src
find crates/*/specs crates/*/proofs -name '*.antt' -exec sed -nE 's/^ *((abbrev|unfoldable) )?pub ((record|data) )?([A-Za-z][^ :({]*).*/\5/p' {} + > "$room/names"
find crates/*/src -name '*.rt' -exec sed -nE 's/^ *(pub(\([a-z]+\))? )?(extern "C" )?(fn|struct|enum|const) ([A-Za-z_0-9]+).*/\5/p' {} + >> "$room/names"
sed -nE 's/^abbrev pub ([A-Z][A-Za-z0-9]*) : Type [01]$/\1/p' crates/*/specs/*.antt > "$room/statements"
grep -rhE '^pub [a-z0-9_]+ : [A-Z][A-Za-z0-9]*$' crates/*/proofs | sed 's/.* //' > "$room/proved"
ls crates/*/must-fail | sed -n 's/\.edit$//p' | sort -u > "$room/edits"

# public functions of the libraries, as crate::module::name or crate::module::Type::name; beside them, known and not asked for, the types and
# the functions of traits
for file in crates/*/src/*.rt; do
    crate=${file#crates/} module=::$(basename "$file" .rt)
    crate=${crate%%/*}
    [ -f "crates/$crate/src/lib.rt" ] || continue
    [ "$module" != ::lib ] || module=''
    awk -v at="$crate$module" '
        function word(text) { match(text, /[A-Za-z_][A-Za-z0-9_]*/); return substr(text, RSTART, RLENGTH) }
        /^}/ { type = "" }
        /^impl/ {
            type = substr($0, 5)
            if (type ~ /^</) for (depth = i = 1; depth > 0; ) { c = substr(type, ++i, 1); depth += (c == "<") - (c == ">") }
            else i = 0
            type = substr(type, i + 1)
            sub(/.* for /, "", type)
            type = "::" word(type)
        }
        /^(pub )?trait / { sub(/^(pub )?trait /, ""); type = "::" word($0); print "known " at type; next }
        /^pub (struct|enum) / { sub(/^pub (struct|enum) /, ""); print "known " at "::" word($0) }
        /^ *pub (extern "C" )?fn / { sub(/^ *pub (extern "C" )?fn /, ""); print "asked " at type "::" word($0); next }
        /^ *(pub\([a-z]+\) )?fn / { sub(/^ *(pub\([a-z]+\) )?fn /, ""); print "known " at type "::" word($0) }' "$file"
done > "$room/found"
sed -n 's/^asked //p' "$room/found" > "$room/functions"
sed 's/^[a-z]* //' "$room/found" >> "$room/names"

sort -u "$room/names" "$room/edits" "$room/functions" > "$room/known"
{
    grep -v / "$room/quoted" | grep -vxFf "$room/known" | sed 's/^/no such name: /' || :
    grep / "$room/quoted" | while IFS= read -r path; do [ -e "$path" ] || echo "no such file: $path"; done
    grep -xFf "$room/statements" "$room/quoted" | grep -vxFf "$room/proved" | sed 's/^/statement without a proof: /' || :
    grep -vxFf "$room/quoted" "$room/functions" | sed 's/^/public function without a row: /' || :
    grep -vxFf "$room/quoted" "$room/edits" | sed 's/^/must-fail edit without a row: /' || :
} | sed "s|^|$page: |" | tee "$room/missing"
[ ! -s "$room/missing" ]
