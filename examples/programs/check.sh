#!/usr/bin/env bash
# Runs the four programs of this folder in each language, over dist/, and compares what they print with the files of
# expected/. It needs a C compiler and make; for the others go, python3 or cargo. A language whose tools are not there is
# named as not shown. The last line is 'N passed, M failed'.
set -uo pipefail
cd "$(dirname "$0")" || exit 1
script=examples/programs/check.sh
. ../../tests/counted
room=$(mktemp -d) || exit 1
trap 'rm -rf --one-file-system "$room"' EXIT
programs="stateless connection blocked invalid"
strict="-std=c11 -Wall -Wextra -Werror"

# shellcheck disable=SC2086 # words
run_c() { "${CC:-cc}" $strict -I../../dist "c/$1.c" "$room/build/libh3_qpack.a" -o "$room/$1" && "$room/$1"; }
run_go() { (cd go && GOPROXY=off GOTOOLCHAIN=local go run "./$1"); }
run_rust() { CARGO_TARGET_DIR=$room/target cargo run -q --offline --manifest-path rust/Cargo.toml --bin "$1"; }
run_python() { PYTHONDONTWRITEBYTECODE=1 PYTHONPATH=../../bindings/python \
    H3_QPACK_LIBRARY=$room/build/libh3_qpack.so.0 python3 -W error "python/$1.py"; }

# Runs a program in a language. It prints what the file has.
compare() {
    "run_$1" "$2" >"$room/printed" && diff "expected/$2.txt" "$room/printed"
}

# Runs the programs of a language, if what it needs is there.
test_language() {
    local language=$1 tool=$2 program
    command -v "$tool" >/dev/null || { not_shown "the programs in $language" "without $tool"; return; }
    for program in $programs; do try "$program in $language" compare "$language" "$program"; done
}

# cargo of rustc 1.63, which the crate is for, reads lock files up to version 3.
check_lock() {
    grep -x 'version = 3' rust/Cargo.lock
}

try "the lock file in rust" check_lock
if ! try "build dist/" make -s -C ../../dist BUILD="$room/build"; then
    tell_count
    exit
fi
test_language c "${CC:-cc}"
test_language go go
test_language python python3
test_language rust cargo
tell_count
