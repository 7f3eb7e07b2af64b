#!/usr/bin/env bash
# Tests the package qpack: its own tests, and those of quic-go's package over it, of version 0.2.1, which is Debian 12's, and
# of 0.6.0. With --live it builds quic-go of Debian 12 over the package, and sends 200 requests. It needs go 1.19, a C
# compiler and python3, and of Debian the packages golang-github-marten-seemann-qpack-dev,
# golang-github-stretchr-testify-dev and, with --live, golang-github-lucas-clemente-quic-go-dev. It installs by apt-get what is not there, which only root can. What can't be had
# is named as not shown. The last line is 'N passed, M failed'.
set -uo pipefail
cd "$(dirname "$0")/../.." || exit 1
script=bindings/go/qpack/check.sh
. ../c/archive
. ../tests/counted
room=$(mktemp -d) || exit 1
trap 'rm -rf --one-file-system "$room"' EXIT
# Where Debian has packages of Go.
code=/usr/share/gocode/src
older=$code/github.com/marten-seemann/qpack
export GOPROXY=off GOTOOLCHAIN=local

# Runs the tests of the package itself, as a module.
run_tests() {
    cd go/qpack && [ -z "$(gofmt -l . | tee /dev/stderr)" ] && go vet . && go test -count=1 -v . && cd ../..
}

# Puts h3qpack where packages are looked for without modules.
put_h3qpack() {
    mkdir -p "$room/go/src/h3qpack" && cp go/*.go go/*.[chs] "$room/go/src/h3qpack" && rm "$room/go/src/h3qpack"/*_test.go
}

# Makes the package of a version's tests in a folder: the tests with the tables and integers that they look into, over the
# files of this package, or over quic-go's own.
make_tests() {
    local source=$1 to=$2 over=$3
    mkdir -p "$to" && cp "$source"/*_test.go "$source"/{varint,static_table}.go "$to" && rm -f "$to/qpack_test.go" || return
    sed -i '/^func BenchmarkDecoder/,$d' "$to/decoder_test.go" # they need Go 1.24
    if [ "$over" = own ]; then
        cp "$source"/{decoder,encoder,header_field}.go "$to"
    else
        cp go/qpack/{qpack,decoder,encoder,extent}.go "$to"
        cat >"$to/looked_into.go" <<'GO'
package qpack

import (
	"errors"

	"h3qpack"
)

var (
	errNoDynamicTable = h3qpack.ErrDecompressionFailed
	errNeedMore       = errors.New("more is needed")
)
GO
    fi
}

# Runs the tests of a version, and prints the names of those that passed or failed, without those that only have others.
run_theirs() {
    local folder=$1
    (cd "$room/go/src/$folder" && GOPATH=$room/go:/usr/share/gocode GO111MODULE=off \
        go test -v .) >"$room/$folder.said" 2>&1 ||
        GOPATH=$room/go:/usr/share/gocode GO111MODULE=off go vet "$folder" >/dev/null
    cat "$room/$folder.said"
    python3 go/qpack/testdata/results.py "$room/$folder.said" >"$room/$folder.results"
}

# Holds the tests of a version to the table, and says how many passed before and after.
compare_theirs() {
    local version=$1
    awk -F '\t' -v v="$version" '$1 == v { print "failed\t" $2 }' go/qpack/testdata/failures.tsv | sort >"$room/expected"
    grep '^failed' "$room/$version.results" | sort | diff "$room/expected" - || return
    ! grep '^failed' "$room/$version-own.results" && [ -s "$room/$version-own.results" ] &&
        [ "$(wc -l <"$room/$version.results")" = "$(wc -l <"$room/$version-own.results")" ]
}

test_theirs() {
    local version=$1 source=$2
    shift 2
    try "make the tests of $version" make_tests "$source" "$room/go/src/$version" here &&
        make_tests "$source" "$room/go/src/$version-own" own && try "run the tests of $version" run_theirs "$version" &&
        run_theirs "$version-own" >/dev/null && try "the tests of $version" compare_theirs "$version"
    echo "$script: $version: $(grep -c '^passed' "$room/$version-own.results") tests passed over quic-go's package," \
        "$(grep -c '^passed' "$room/$version.results") of $(wc -l <"$room/$version.results") here"
}

# Builds quic-go of Debian over this package, and has it answer requests.
run_live() {
    local to=$room/go/src/github.com/marten-seemann/qpack
    mkdir -p "$to" "$room/go/src/live" && cp go/qpack/{qpack,decoder,encoder,extent}.go "$to" &&
        cp go/qpack/testdata/live/main.go "$room/go/src/live" &&
        (cd "$room/go/src/live" && GOPATH=$room/go:/usr/share/gocode GO111MODULE=off go build -o "$room/live" .) &&
        nm "$room/live" | grep h3_qpack_decode_stateless && "$room/live" | tee "$room/answered" &&
        grep -qx '200 of 200 requests were answered rightly' "$room/answered"
}

# Prints the packages of Debian that are not there.
list_lacking_code() {
    [ -d "$older" ] || echo golang-github-marten-seemann-qpack-dev
    [ -d "$code/github.com/stretchr/testify" ] || echo golang-github-stretchr-testify-dev
    [ "${1-}" != --live ] || [ -d "$code/github.com/lucas-clemente/quic-go" ] ||
        echo golang-github-lucas-clemente-quic-go-dev
}

# shellcheck disable=SC2046 # words
install_packages $(list_lacking cc go python3) $(list_lacking_code "$@") || true
missing=$(list_lacking cc go python3 | paste -s -d ' ')
if [ -n "$missing" ]; then
    not_shown "the package qpack for Go" "without $missing"
    tell_count
    exit
fi
put_h3qpack || exit 1
try "the tests of the package" run_tests
if [ -d "$older" ]; then
    test_theirs 0.2.1 "$older"
else
    not_shown "the tests of quic-go's qpack 0.2.1" "without golang-github-marten-seemann-qpack-dev"
fi
if ./source golang-github-quic-go-qpack "$room/newer" 2>"$room/why"; then
    test_theirs 0.6.0 "$room/newer"
else
    not_shown "the tests of quic-go's qpack 0.6.0" "$(tail -n 1 "$room/why")"
fi
[ "${1-}" != --live ] || try "quic-go over the package" run_live
tell_count
