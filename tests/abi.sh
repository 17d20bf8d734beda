#!/bin/sh
# Builds and runs the C and the Rust example on the static library and compares what they print; checks the header; calls the library with
# wrong counts, short arrays and wild numbers; and compares it with the second program, on x86-64.
#   tests/abi.sh [SEED COUNT]      the second program's cases, 2 and 2000 if not named
# The archive is built first where it isn't there, or is older than a source file. It is x86-64 code. On another processor the programs are
# made by a cross compiler (CC, or x86_64-linux-gnu-gcc) and by cargo for x86_64-unknown-linux-gnu, linked statically, and run under
# qemu-x86_64. Status 0: all is as it should be; 1: something isn't; 2: it could not run.
set -eu

fail() { # STATUS MESSAGE
    printf 'abi: %s\n' "$2" >&2
    exit "$1"
}

[ $# -eq 0 ] || [ $# -eq 2 ] || fail 2 "usage: tests/abi.sh [SEED COUNT]"
seed=${1:-2} count=${2:-2000}
export PYTHONDONTWRITEBYTECODE=1
root=$(cd "$(dirname "$0")/.." && pwd -P) || exit 2
expected=$root/tests/abi/expected
room=$(mktemp -d) || exit 2
trap 'rm -rf "$room"' EXIT
trap 'exit 2' HUP INT TERM

# ---- the tools

machine=$(uname -m)
rust_target=x86_64-unknown-linux-gnu
if [ "$machine" = x86_64 ]; then
    cc=${CC:-cc} static='' emulator=''
else
    cc=${CC:-x86_64-linux-gnu-gcc} static=-static
    emulator=$(command -v qemu-x86_64) || fail 2 "qemu-x86_64 is needed on $machine, and it isn't on the path"
    export CARGO_TARGET_X86_64_UNKNOWN_LINUX_GNU_LINKER="$cc"
    export CARGO_TARGET_X86_64_UNKNOWN_LINUX_GNU_RUSTFLAGS='-C target-feature=+crt-static'
fi
for tool in "$cc" cargo python3; do
    command -v "$tool" >/dev/null || fail 2 "$tool is needed, and it isn't on the path"
done

run() { # PROGRAM
    ${emulator:+"$emulator"} "$1"
}

# ---- the archive

archive=$("$root/tools/built" chudopolk libchudopolk.a) || fail 1 "the archive could not be built"

# ---- the header

python3 "$root/tests/abi/header.py" "$root" || fail 1 "the header and the source differ"

# ---- the programs

compile() { # SOURCE PROGRAM [OPTION...]
    source=$1 made=$2
    shift 2
    # shellcheck disable=SC2086 # static is one option or none
    "$cc" -std=c11 -O2 -Wall -Wextra -Wpedantic -Werror $static "$@" -I "$root/include" "$root/$source" "$archive" -o "$made" ||
        fail 1 "$source could not be compiled"
}

# What a program prints is as expected.
prints() { # NAME PROGRAM
    run "$2" >"$room/printed" || fail 1 "$1 ended with status $?"
    cmp -s "$room/printed" "$expected" || { diff "$expected" "$room/printed" >&2 || true; fail 1 "$1 prints something else than tests/abi/expected"; }
    echo "abi: $1 prints what is expected"
}

compile examples/c/lorry.c "$room/lorry_c"
prints 'the C example' "$room/lorry_c"
if [ "$machine" = x86_64 ]; then
    compile examples/c/lorry.c "$room/lorry_asan" -g -fsanitize=address
    export ASAN_OPTIONS=detect_leaks=0
    prints 'the C example under AddressSanitizer' "$room/lorry_asan"
fi

CHUDOPOLK_LIB=${archive%/*} CARGO_TARGET_DIR=$room/cargo cargo build --quiet --release --offline --locked --target "$rust_target" \
    --manifest-path "$root/examples/rust/Cargo.toml" ||
    fail 1 "the Rust example could not be built (if the target is missing: rustup target add $rust_target)"
prints 'the Rust example' "$room/cargo/$rust_target/release/lorry"

compile tests/abi/wild.c "$room/wild"
run "$room/wild" || fail 1 "wrong counts, short arrays or wild numbers get another answer than they should"

# ---- the second program

if [ "$machine" = x86_64 ]; then
    "$cc" -shared -o "$room/library.so" -Wl,--whole-archive "$archive" -Wl,--no-whole-archive || fail 1 "the archive could not be linked"
    mkdir "$room/cases"
    python3 "$root/tests/second/gen.py" "$seed" "$count" "$room/cases" >/dev/null || fail 2 "no cases could be made"
    python3 "$root/tests/abi/second.py" "$room/library.so" "$room/cases/stdin" || fail 1 "the library and the second program differ"
fi
