#!/bin/sh
# Looks at why each must-fail edit is refused. A line `# refused: FUNCTION ..` of an edit names the functions whose own proof has to fail,
# not only that of a caller. Prints what is otherwise, and ends with status 1 if something is.
#   tests/edits.sh                    each edit's texts stand once in their files, and it names its functions
#   tests/edits.sh LOG                the same, and what `rt ci` or `rt must-fail` said of each edit, which LOG has: it is refused, for a fact
#                                     and not for a name that is gone, and the first refusal, all that they tell, is one of its functions'
#   tests/edits.sh --each [CRATE..]   checks each edit of the crates anew, and looks at each of its functions: some minutes
set -eu
cd "$(dirname "$0")/.."
export PYTHONDONTWRITEBYTECODE=1
tried=0 wrong=0

# Says what is wrong with an edit.
fault() { # EDIT TEXT
    echo "$1: $2"
    wrong=$((wrong + 1))
}

functions() { sed -n 's/^# refused: //p' "$1"; } # EDIT

# The places of refusals, a line each: file, line and what is refused there, as a goal's name.
places() {
    sed -nE 's/^(note: )?(\.\/)?((src|proofs|specs)\/[^ :]+):([0-9]+):[0-9]+: (error: `([^` ]+)|error: |it is not proved).*/\3 \5 \7/p'
}

# The function in whose text a place lies, at an attribute the one behind it, or whose proof a file is, as crate::module::Type::name; nothing
# of the file of a lemma or of a definition. Edits change no number of lines. The proofs of a cycle lie in one folder, and each goal begins
# with its function's name.
function_at() { # CRATE FILE LINE [GOAL]
    module=$(basename "$2" .rt)
    case $2 in
    src/*) ;;
    proofs/*/Answers.antt | proofs/*/Invariants.antt | proofs/*/Proof.antt)
        owner=$(dirname "${2#proofs/}")
        case ${owner##*/} in +*) owner=${owner%+*}${4%%-*} ;; esac
        echo "$1::$owner" | sed 's|/|::|g'
        return
        ;;
    *) return ;;
    esac
    case $module in lib | main) module='' ;; *) module=::$module ;; esac
    awk -v at="$3" -v name="$1$module" '
        NR > at && !ahead { exit }
        NR == at && /^ *#\[/ { ahead = 1 }
        /^}/ { type = "" }
        # What implements a trait has a name of both, as rt names it (a f32 is F32): From<Result<usize, Verdict>> for Kept is KeptFromResultUsizeVerdict.
        /^impl/ {
            type = trait = $0
            sub(/.* for /, "", type); sub(/^impl(<[^>]*>)? */, "", type); sub(/[ <{].*/, "", type)
            if (!sub(/ for .*/, "", trait)) trait = ""
            sub(/^impl(<[^>]*>)? */, "", trait); gsub(/[a-z_0-9]+::/, "", trait); gsub(/&/, " Ref ", trait)
            type = "::" toupper(substr(type, 1, 1)) substr(type, 2)
            words = split(trait, word, /[^A-Za-z0-9_]+/)
            for (k = 1; k <= words; k++) type = type toupper(substr(word[k], 1, 1)) substr(word[k], 2)
        }
        !/^ *\/\// && match($0, /fn [a-z_0-9]+/) { last = type "::" substr($0, RSTART + 3, RLENGTH - 3); if (NR > at) exit }
        END { if (last) print name last }' "crates/$1/$2"
}

# What the log says of an edit.
look() { # EDIT
    name=${1#crates/}
    name=${name%%/*}/$(basename "$1")
    said=$(grep "^rt: must-fail $name: " "$log" | tail -n 1)
    said=${said#"rt: must-fail $name: "}
    case $said in
    'refused, as it must be: '*) ;;
    '') fault "$1" "the log has nothing of it"; return ;;
    *) fault "$1" "$said"; return ;;
    esac
    place=$(echo "${said#refused, as it must be: }" | places)
    [ -n "$place" ] || { fault "$1" "no place of a refusal: $said"; return; }
    # shellcheck disable=SC2086
    found=$(function_at "${name%%/*}" $place)
    tried=$((tried + 1))
    # A definition's edit may be refused by a lemma first.
    if [ -z "$found" ] && grep -q '^file: specs/' "$1"; then return; fi
    functions "$1" | tr ' ' '\n' | grep -qxF "${found:-?}" || fault "$1" "refused for ${found:-a lemma or a definition}, of which it says nothing: $said"
}

# Whether a refusal lies in a function, or in its proof, that is more than a name which the edit took away.
is_fact() { # CRATE FUNCTION
    grep -vE 'has no field|is not in scope|has no `' "$room/said" | places |
        while read -r file line goal; do function_at "$1" "$file" "$line" "$goal"; done | grep -qxF "$2"
}

# What a check of the crate with an edit says of each of its functions.
try() { # CRATE EDIT
    python3 tests/shared/edit.py "$2" "$room/crates/$1"
    (cd "$room/crates/$1" && rt check) >"$room/said" 2>&1 || :
    for function in $(functions "$2"); do
        tried=$((tried + 1))
        case $(grep "^fn $function: " "$room/said" || :) in
        '') fault "$2" "the prover says nothing of $function" ;;
        *': proved') fault "$2" "$function is still proved" ;;
        *': no proof: it calls '*) fault "$2" "$function is refused only for what it calls" ;;
        *) is_fact "$1" "$function" || fault "$2" "$function is refused only for a name that is gone" ;;
        esac
    done
    for part in src specs proofs; do
        [ ! -d "crates/$1/$part" ] || cp -r "crates/$1/$part/." "$room/crates/$1/$part"
    done
}

for edit in crates/*/must-fail/*.edit; do
    python3 tests/shared/edit.py "$edit" || wrong=$((wrong + 1))
    [ -n "$(functions "$edit")" ] || fault "$edit" "no line '# refused: FUNCTION'"
done

case ${1-} in
'') ;;
--each)
    shift
    room=$(mktemp -d)
    trap 'rm -rf "$room"' EXIT
    trap 'exit 1' HUP INT TERM
    mkdir "$room/.git" "$room/crates"
    cp crates.txt "$room"
    for folder in crates/*; do
        mkdir "$room/$folder"
        for part in src specs proofs; do
            [ ! -d "$folder/$part" ] || cp -r "$folder/$part" "$room/$folder"
        done
    done
    [ $# -gt 0 ] || set -- $(ls -d crates/*/must-fail | sed 's|crates/||; s|/must-fail||')
    for crate; do
        if ! (cd "$room/crates/$crate" && rt check) >"$room/said" 2>&1; then
            cat "$room/said"
            fault "crates/$crate" "not proved as it is"
            continue
        fi
        for edit in crates/"$crate"/must-fail/*.edit; do try "$crate" "$edit"; done
    done
    ;;
*)
    log=$1
    [ -f "$log" ] || { echo "edits.sh: there is no $log" >&2; exit 2; }
    for edit in crates/*/must-fail/*.edit; do look "$edit"; done
    ;;
esac
echo "edits.sh: $tried refusals looked at, $wrong not as they should be"
[ "$wrong" -eq 0 ]
