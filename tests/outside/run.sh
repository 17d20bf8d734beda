#!/bin/sh
# run.sh [SEED]: lets the library write messages, packs them into a capture, and compares what Debian's tshark shows of them with what was
# written, for table W and a richer table. It is no part of the gate. What tshark can't judge stands in tshark.py and is printed at the end.
# Where tshark is missing it is installed, which takes root; apart from that, files are made only in a temporary folder and in crates/*/out/.
# Status 0: all is shown as it was written, and the self-test finds every change; 1: not so; 2: it could not be tried.
set -eu

fail() {
    echo "run.sh: $1" >&2
    exit 2
}

seed=${1:-1}
case $#$seed in [01]*[!0-9]* | [!01]*) fail "usage: run.sh [SEED], a whole number" ;; esac
here=$(CDPATH= cd -- "$(dirname -- "$0")" && pwd -P)
root=$here/../..
folder=$(mktemp -d) || fail "no temporary folder can be made"
trap 'rm -rf "$folder"' EXIT
trap 'exit 2' HUP INT TERM

# What a command says matters only where it fails.
quietly() {
    "$@" >"$folder/log" 2>&1 </dev/null || { cat "$folder/log" >&2; fail "this failed: $*"; }
}

# Debian asks whether others than root may capture; nobody captures here.
install_tshark() {
    [ "$(id -u)" -eq 0 ] || fail "tshark is missing, and only root can install it: apt-get install tshark"
    echo 'wireshark-common wireshark-common/install-setuid boolean false' >"$folder/answers"
    quietly debconf-set-selections "$folder/answers"
    quietly apt-get update
    quietly env DEBIAN_FRONTEND=noninteractive apt-get install -y --no-install-recommends tshark
}

command -v python3 >/dev/null || fail "python3 is needed, and it isn't on the path"
command -v tshark >/dev/null || install_tshark
cd "$root"
program=$(tools/built vectors) || fail "vectors could not be built"
tshark --version 2>/dev/null | head -n 1
PYTHONDONTWRITEBYTECODE=1 python3 "$here/tshark.py" "$seed" "$folder" tools/x86-64 "$program"
