#!/usr/bin/env bash
# Tests pylsqpack over h3_qpack by the tests of others: pylsqpack 0.3.23's own, and those of HTTP/3 and WebTransport of
# aioquic 1.3.0, which runs over it unchanged. Each runs over pylsqpack itself too, and ls-qpack reads corpora. It needs
# a C compiler, make and Debian's python3 with its headers. aioquic needs OpenSSL, some packages of Python (Debian:
# python3-dev, python3-cryptography, python3-openssl, python3-certifi, python3-service-identity and libssl-dev), and of
# cryptography version 42, which Debian has since 13. With --pylsqpack it leaves aioquic out, and needs none of these
# packages but python3-dev; with --bytes it compares the bytes that both libraries write of corpora, and tests nothing.
# It installs by apt-get what is not there, which only root can, and gets the sources by bindings/source. What can't be
# had is named as not shown. The last line is 'N passed, M failed'.
set -uo pipefail
cd "$(dirname "$0")/.." || exit 1
script=bindings/pylsqpack/check.sh
. ../c/archive
. ../tests/counted
room=$(mktemp -d) || exit 1
trap 'rm -rf --one-file-system "$room"' EXIT
python=/usr/bin/python3
word=${1-}
packages='pylsqpack aioquic'
[ -z "$word" ] || packages=pylsqpack
export PYTHONDONTWRITEBYTECODE=1

# Whether the tests of a package are to be run.
is_tested() {
    [[ " $packages " = *" $1 "* ]]
}

# Prints the packages of Debian that are not there.
list_lacking_packages() {
    local include module
    include=$("$python" -c 'import sysconfig; print(sysconfig.get_path("include"))')
    [ -f "$include/Python.h" ] || echo python3-dev
    is_tested aioquic || return 0
    [ -f /usr/include/openssl/ssl.h ] || echo libssl-dev
    for module in cryptography:cryptography OpenSSL:openssl certifi:certifi service_identity:service-identity; do
        "$python" -c "import ${module%:*}" 2>/dev/null || echo "python3-${module#*:}"
    done
}

# Whether the package cryptography has what aioquic asks of it.
has_cryptography() {
    "$python" -c 'import cryptography; assert int(cryptography.__version__.split(".")[0]) >= 42' 2>/dev/null
}

# Compiles an extension of Python: its file, and words for the compiler.
compile_extension() {
    local to=$1
    shift
    cc -O1 -w -shared -fPIC -DPy_LIMITED_API=0x03080000 \
        -I"$("$python" -c 'import sysconfig; print(sysconfig.get_path("include"))')" "$@" -o "$to.abi3.so"
}

build_aioquic() {
    local to=$room/aioquic/src/aioquic
    compile_extension "$to/_buffer" "$to/_buffer.c" && compile_extension "$to/_crypto" "$to/_crypto.c" -lcrypto
}

# Gets the sources of the packages. Says why if one can't be had.
get_sources() {
    local package
    for package in $packages; do
        ./source "$package" "$room/$package" 2>"$room/why" || return
    done
}

# Builds pylsqpack itself, to compare.
build_pylsqpack() {
    local source=$room/pylsqpack ls=$room/pylsqpack/vendor/ls-qpack
    mkdir -p "$room/own/pylsqpack" && cp "$source"/src/pylsqpack/*.py "$room/own/pylsqpack" &&
        compile_extension "$room/own/pylsqpack/_binding" -std=gnu99 -I"$ls" -I"$ls/deps/xxhash" \
            "$source/src/pylsqpack/binding.c" "$ls/lsqpack.c" "$ls/deps/xxhash/xxhash.c"
}

# Runs tests of a source over the packages of a path.
run_tests() {
    local folder=$1 path=$2 to=$3
    shift 3
    (cd "$folder" && PYTHONPATH=$folder:$folder/src:$path H3_QPACK_LIBRARY=$room/build/libh3_qpack.so.0 \
        "$python" "$top/bindings/pylsqpack/peers/results.py" "$@") >"$to"
}

# Runs the tests of a package over h3_qpack, which must fail where the table says so and nowhere else, and over pylsqpack,
# where none may fail.
compare_tests() {
    local package=$1 folder=$2
    shift 2
    run_tests "$folder" "$top/bindings/pylsqpack:$top/bindings/python" "$room/$package.results" "$@" || return
    run_tests "$folder" "$room/own" "$room/$package.own" "$@" || return
    awk -F '\t' -v p="$package" '$1 == p { print "failed\t" $2 }' pylsqpack/peers/failures.tsv | sort >"$room/expected"
    grep '^failed' "$room/$package.results" | sort | diff "$room/expected" - && ! grep -v '^passed' "$room/$package.own" &&
        [ "$(wc -l <"$room/$package.results")" = "$(wc -l <"$room/$package.own")" ]
}

# Moves what would stand before the package that is tested out of the way.
prepare_pylsqpack() {
    mkdir "$room/tests-alone" && cp -r "$room/pylsqpack/tests" "$room/tests-alone"
}

# Runs a program of peers/ over h3_qpack and pylsqpack, with the corpora: those that are recorded, and those that are made.
play_corpora() {
    "$python" ../bench/corpora.py "$room/corpora" &&
        PYTHONPATH=$room/own:$top/bindings/python H3_QPACK_LIBRARY=$room/build/libh3_qpack.so.0 \
            "$python" "pylsqpack/peers/$1" ../crates/qpack_tests/data/[!h]*.qif "$room"/corpora/*.qif
}

# Has ls-qpack read what h3_qpack writes of the corpora.
read_corpora() {
    play_corpora reads.py >"$room/read" && grep '^[1-9][0-9]* sections read by ls-qpack' "$room/read"
}

# Has a client and a server of aioquic exchange requests over h3_qpack.
run_live() {
    (cd "$room/aioquic" && PYTHONPATH=$PWD/src:$top/bindings/pylsqpack:$top/bindings/python \
        H3_QPACK_LIBRARY=$room/build/libh3_qpack.so.0 "$python" "$top/bindings/pylsqpack/peers/live.py" \
        tests/ssl_cert.pem tests/ssl_key.pem) | tee "$room/live" && grep "^100 of 100 .*over $top/bindings/pylsqpack" "$room/live"
}

tell_tests() {
    echo "$script: $1: $(grep -c '^passed' "$room/$1.own") of $(wc -l <"$room/$1.own") tests passed over pylsqpack," \
        "$(grep -c '^passed' "$room/$1.results") of $(wc -l <"$room/$1.results") over h3_qpack"
}

test_all() {
    try "build dist/" make -s -C ../dist BUILD="$room/build" && try "build pylsqpack" build_pylsqpack &&
        prepare_pylsqpack || return
    [ "$word" != --bytes ] || { try "compare bytes" play_corpora bytes.py && cat "$room/told"; return; }
    try "the tests of pylsqpack" compare_tests pylsqpack "$room/tests-alone" \
        tests.test_decoder tests.test_encoder tests.test_roundtrip
    tell_tests pylsqpack
    try "ls-qpack reads the corpora" read_corpora && echo "$script: $(cat "$room/read")"
    is_tested aioquic || return 0
    has_cryptography || { not_shown "the tests of aioquic" "without version 42 of python3-cryptography, as Debian 13 has"; return; }
    try "build aioquic" build_aioquic || return
    try "the tests of aioquic" compare_tests aioquic "$room/aioquic" tests.test_h3 tests.test_webtransport
    tell_tests aioquic
    try "a client and a server of aioquic" run_live && echo "$script: $(sed 's/, over.*//; q' "$room/live")"
}

if [ ! -x "$python" ]; then
    not_shown "the tests of ${packages/ / and }" "without $python"
    tell_count
    exit
fi
# shellcheck disable=SC2046 # words
install_packages $(list_lacking cc make) $(list_lacking_packages) || true
missing=$(list_lacking_packages | paste -s -d ' ')
if [ -n "$missing" ]; then
    not_shown "the tests of ${packages/ / and }" "without $missing"
elif ! get_sources; then
    not_shown "the tests of ${packages/ / and }" "$(tail -n 1 "$room/why")"
else
    test_all
fi
tell_count
