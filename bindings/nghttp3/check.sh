#!/usr/bin/env bash
# Tests libnghttp3 with h3_qpack in the place of its QPACK, as bindings/nghttp3/build makes it of Debian's source: nghttp3's
# own tests, and a client and a server whose streams arrive in pieces. It needs what build needs, and CUnit (Debian:
# libcunit1-dev), which it installs by apt-get; only root can. With --own the tests run over nghttp3's QPACK too. What can't
# be had is named as not shown. The last line is 'N passed, M failed'.
set -uo pipefail
cd "$(dirname "$0")/.." || exit 1
script=bindings/nghttp3/check.sh
. ../c/archive
. ../tests/counted
room=$(mktemp -d) || exit 1
trap 'rm -rf --one-file-system "$room"' EXIT
data=../crates/qpack_tests/data
built=$room/built

# The files of nghttp3 that are not its QPACK are as they were.
compare_sources() {
    diff -rq "$built/nghttp3" "$built/nghttp3-over-h3_qpack" | grep -v '^Only in .*over-h3_qpack/lib: ' | sort >"$room/differ"
    [ "$(sed 's/.*\///; s/ differ$//' "$room/differ" | paste -s -d ' ')" = 'nghttp3_qpack.c nghttp3_qpack.h' ]
}

# The library has each call of the header that other libraries and programs use, and no name of another kind.
compare_exports() {
    nm -D --defined-only "$built/lib/libnghttp3.so.3" | awk '{ print $3 }' | sort >"$room/exports"
    grep -Pzo 'NGHTTP3_EXTERN[^;(]*?\K\w+(?=\s*\()' "$built/include/nghttp3/nghttp3.h" | tr '\0' '\n' | grep '^nghttp3_' |
        sort -u >"$room/calls"
    [ -s "$room/calls" ] && [ -z "$(comm -23 "$room/calls" "$room/exports")" ] && ! grep -v '^nghttp3_' "$room/exports"
}

# A round of nghttp3's tests prints those that fail, and the table has them.
run_tests() {
    "$built/tests" >"$room/printed"
    cat "$room/printed"
    python3 nghttp3/tests/compare.py "$room/printed" nghttp3/tests/failures.tsv
}

run_own_tests() {
    nghttp3/build --own "$built" && "$built/tests-own"
}

# 400 exchanges in pieces: the most bytes of one, and how late the encoder streams are.
run_pieces() {
    "$built/pieces" "$data/$1_4096_100.qif" "$data/to_$1.qif" 400 "$2" "$3" 1 | tee "$room/pieces"
}

# The same program over the shared library.
run_shared() {
    cc -O1 -I"$built/include" nghttp3/tests/pieces.c "$built/lib/libnghttp3.so.3" -o "$room/shared" &&
        LD_LIBRARY_PATH=$built/lib "$room/shared" "$data/chromium_4096_100.qif" "$data/to_chromium.qif" 400 40 3 1
}

test_all() {
    try "build" nghttp3/build --tests "$built" || return
    try "nghttp3's other files are as they were" compare_sources
    try "the calls of nghttp3.h are exported, and nothing else" compare_exports
    try "nghttp3's tests" run_tests
    tail -n 2 "$room/told" | sed "s|^|$script: over h3_qpack: |"
    try "a shared library" run_shared
    try "a decoder stream that nobody reads" "$built/unread"
    local most
    for most in 1 40 100000; do
        try "pieces of at most $most bytes" run_pieces chromium "$most" 0
        try "pieces of at most $most bytes, and late insertions" run_pieces firefox "$most" 3
    done
    if [ "${1-}" = --own ]; then
        try "nghttp3's tests over its own QPACK" run_own_tests
        grep -E '^ +(tests|asserts)' "$room/told" | sed "s|^|$script: over nghttp3: |"
    fi
}

missing=$(list_lacking cc make python3 nm)
echo '#include <CUnit/Basic.h>' | cc -E - >/dev/null 2>&1 || missing="$missing libcunit1-dev"
# shellcheck disable=SC2086 # words
install_packages $missing || true
if ! echo '#include <CUnit/Basic.h>' | cc -E - >/dev/null 2>&1; then
    not_shown "nghttp3 over h3_qpack" "without a C compiler and CUnit"
elif ! ./source nghttp3 "$room/source" 2>"$room/why"; then
    not_shown "nghttp3 over h3_qpack" "$(tail -n 1 "$room/why")"
else
    export NGHTTP3_SOURCE=$room/source
    test_all "$@"
fi
tell_count
