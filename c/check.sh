#!/usr/bin/env bash
# Tests the C library. It needs a C and a C++ compiler, make, pkg-config, Python 3.8 and the headers of nghttp3 and of
# ngtcp2 with GnuTLS (Debian: gcc, g++, make, pkg-config, python3, libnghttp3-dev, libngtcp2-dev,
# libngtcp2-crypto-gnutls-dev and libgnutls28-dev), and installs by apt-get what is not there, which only root can. Where
# nghttp3 can't be had, the tests beside it are left out, and where ngtcp2 can't, the connection over QUIC; the last line
# says so. Without a compiler nothing is tested, and that is a failure. valgrind is used where it is
# there. The library is the archive that is proved, if it is built of these sources; else that of dist/, if it was
# generated from them; else the archive, which is proved first, in 20 minutes. Ends in a line of what passed, with a
# status that is not 0 if something failed.
set -euo pipefail
cd "$(dirname "$0")"
script=c/check.sh
. ./archive
. ./programs
. ../tests/licence

# Prints the packages that are wanted and not there: those of the tools, of nghttp3, of ngtcp2.
list_tools() {
    list_lacking cc c++ make pkg-config python3
}
list_nghttp3() {
    has_header nghttp3/nghttp3.h || echo libnghttp3-dev
}
list_ngtcp2() {
    has_header ngtcp2/ngtcp2.h || echo libngtcp2-dev
    has_header ngtcp2/ngtcp2_crypto_gnutls.h || echo libngtcp2-crypto-gnutls-dev
    has_header gnutls/gnutls.h || echo libgnutls28-dev
}

# Leaves out what needs nghttp3 or ngtcp2, where they can't be had.
choose_tests() {
    tests="calls views interop inserts http3 quic memory"
    peer=-lnghttp3
    left_out=
    if [ -n "$(list_tools)" ]; then
        echo "c/check.sh: install these first:" $(list_tools) >&2
        exit 1
    fi
    if [ -n "$(list_ngtcp2)" ]; then
        tests="calls views interop inserts http3 memory"
        left_out=", without the connection over QUIC: ngtcp2 could not be had"
        echo "not shown: a connection of the library in C over QUIC, without ngtcp2"
    fi
    if [ -n "$(list_nghttp3)" ]; then
        tests="calls views inserts memory"
        peer=
        left_out=", without the tests beside nghttp3: it could not be had"
        echo "not shown: the tests in C beside nghttp3, without nghttp3"
    fi
}

# Runs a command, and keeps its last line for the end.
passed=0
run() {
    if ! "$@" >"$room/told" 2>&1; then
        cat "$room/told" >&2
        echo "c/check.sh: failed: ${*//$room\//}" >&2
        exit 1
    fi
    passed=$((passed + 1))
}

strict=(-Wall -Wextra -Werror)

# The functions that the header declares are exported and nothing else is, and only libc is wanted.
check_symbols() {
    local archive=$room/usr/lib/libh3_qpack.a wanted
    cc -E -P -DH3_QPACK_NO_INLINE ../dist/h3_qpack.h | grep -oE '\bh3(q|_qpack)_\w+\(' | tr -d '(' | sort \
        >"$room/declared"
    nm -g --defined-only "$archive" | awk 'NF == 3 { print $3 }' | sort >"$room/exported"
    wanted=$(nm -u "$archive" | awk 'NF == 2 { print $2 }' | list_unwanted)
    [ -z "$wanted" ] || { echo "symbols: $wanted"; return 1; }
    diff "$room/declared" "$room/exported"
}

# The structs that cross the interface are laid out as the table says: in the header, by this compiler, and in Rattle.
check_layout() {
    cc "${strict[@]}" -std=c99 -pedantic -I../dist tests/layout.c -o "$room/layout" || return
    "$room/layout" | diff - tests/layout.txt && python3 tests/layout.py
}

# Builds the example by a compiler and its words, with the header in two objects of the program, and runs it.
# shellcheck disable=SC2046,SC2086 # words
try_example() {
    "$@" "${strict[@]}" $(pkg-config --cflags h3_qpack) -Dmain=other -c examples/roundtrip.c -o "$room/other.o" || return
    "$@" "${strict[@]}" examples/roundtrip.c -x none "$room/other.o" $flags -o "$room/roundtrip" && "$room/roundtrip"
}

# The made corpora are the same in every run.
make_corpora() {
    PYTHONHASHSEED=1 ../bench/corpora.py "$room/corpora" && PYTHONHASHSEED=2 ../bench/corpora.py "$room/again" &&
        diff -r "$room/corpora" "$room/again"
}

# Calls the functions of the library without the header, as a binding does.
try_bindings() {
    cc -shared -Wl,--whole-archive "$room/usr/lib/libh3_qpack.a" -Wl,--no-whole-archive -o "$room/bindings.so" || return
    python3 tests/bindings.py "$room/bindings.so" tests/layout.txt
}

room=$(mktemp -d)
trap 'rm -rf "$room"' EXIT
corpus=../crates/qpack_tests/data/corpus.qif
for list in list_tools list_nghttp3 list_ngtcp2; do install_packages $("$list") || true; done
choose_tests
choose_library
make_library BUILD="$room/build" PREFIX="$room/usr" install
rm -f "$room/usr/lib"/libh3_qpack.so* # of dist/: the tests are of the static library
export PKG_CONFIG_PATH=$room/usr/lib/pkgconfig
flags=$(pkg-config --cflags --libs h3_qpack)

run cc "${strict[@]}" -std=c99 -pedantic -I../dist -fsyntax-only ../dist/h3_qpack.c
run is_licence "$room/usr/share/licenses/h3_qpack/LICENSE"
run check_symbols
run check_layout
run try_bindings
run try_example cc -std=c99 -pedantic
run try_example cc -std=c11 -pedantic -O2
run try_example cc -std=c99 -fgnu89-inline
run try_example c++ -x c++ -std=c++11 -pedantic
run try_example c++ -x c++ -std=c++11 -pedantic -O2
for test in $tests; do
    choose_more "$test"
    compile "$test" "tests/$test.c" -O2
    run "$room/$test" "$corpus"
    cat "$room/told"
    compile "$test.sanitized" "tests/$test.c" -O1 -g -fsanitize=address,undefined -fno-sanitize-recover
    run "$room/$test.sanitized" "$corpus"
done
choose_more calls
compile calls.exported tests/calls.c -DH3_QPACK_NO_INLINE
run "$room/calls.exported" "$corpus"
with="with the address and undefined sanitizers"
if command -v valgrind >/dev/null; then
    for test in calls views memory; do
        run valgrind -q --error-exitcode=9 --leak-check=full --show-leak-kinds=all "$room/$test" "$corpus"
    done
    with="$with and valgrind"
fi
choose_more hostile
compile hostile hostile.c -O2
run "$room/hostile" 100 1000
tail -n 1 "$room/told"
compile hostile.sanitized hostile.c -O1 -g -fsanitize=address,undefined -fno-sanitize-recover
run "$room/hostile.sanitized" 100
choose_more bounds
compile bounds bounds.c -O2
run "$room/bounds"
cat "$room/told"
run make_corpora
run ../bench/counts.py "$room/usr/lib/libh3_qpack.a"
cat "$room/told"
run ../bench/bound.py "$room/usr/lib/libh3_qpack.a"
tail -n 1 "$room/told"
choose_more model
compile model ../bench/model.c -O2
run "$room/model" ../crates/qpack_tests/data/*.qif "$room"/corpora/*.qif
for program in bound model; do
    compile "$program.sanitized" "../bench/$program.c" -O1 -g -fsanitize=address,undefined -fno-sanitize-recover
    run "$room/$program.sanitized" "$corpus"
done
if [ -z "$peer" ]; then
    echo "c/check.sh: $passed runs passed over $library, $with$left_out"
    exit
fi
choose_more held
compile held ../bench/held.c -O2
run "$room/held" "$corpus"
compile servers ../bench/servers.c -O2
run "$room/servers" ../crates/qpack_tests/data 3
compile tails ../bench/tails.c -O2
run "$room/tails" 200 1 65536
choose_more bench
compile bench ../bench/bench.c -O2
run "$room/bench" "$corpus" 3
run "$room/bench" "$corpus" 3 4096 10
compile bytes ../bench/bytes.c -O2
run "$room/bytes" "$corpus"
compile cells ../bench/cells.c -O2
run "$room/cells" "$corpus"
compile huffman ../bench/huffman.c -O2
run "$room/huffman" "$corpus" 3
echo "c/check.sh: $passed runs passed over $library, $with$left_out"
