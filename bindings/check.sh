#!/usr/bin/env bash
# Tests the bindings for Go and Python, and pylsqpack over the latter. Each has the library in it, and is built without an
# installed one: Go by cgo, Python by pip and, for its tests, by make of dist/. It needs a C compiler and make; for Go, go
# 1.19 or later; for Python, python3 3.8 or later, and to install the packages by pip, venv (Debian: gcc, make, golang-go,
# python3 and python3-venv). It installs by apt-get what is not there, which only root can. A language whose tools can't be
# had is left out, and a line says so. Nothing else is needed, and no network. mypy is used where it is there. The last line
# is 'N passed, M failed'.
set -uo pipefail
cd "$(dirname "$0")" || exit 1
script=bindings/check.sh
. ../c/archive
. ../tests/counted
. ../tests/licence
room=$(mktemp -d) || exit 1
trap 'rm -rf "$room"' EXIT

# Whether the programs that are named after a language are there. Says so where it is left out without them.
has_tools() {
    local language=$1 lacking
    shift
    lacking=$(list_lacking "$@" | paste -s -d ' ')
    [ -z "$lacking" ] || { not_shown "the bindings for $language" "without $lacking"; return 1; }
}

# Builds and installs dist/, once.
build_library() {
    [ -d "$room/usr" ] || try "build dist/" make -s -C ../dist BUILD="$room/build" PREFIX="$room/usr" install
}

# The files are laid out as gofmt does.
check_layout() {
    [ -z "$(gofmt -l . | tee /dev/stderr)" ]
}

# go vet reports each copy of an end, in a program beside the package.
check_copies() {
    local program=$room/copies
    mkdir -p "$program" && cat >"$program/main.go" <<'PROGRAM' || return
package main

import "h3qpack"

func main() {
	encoder, _ := h3qpack.NewEncoder(h3qpack.EncoderSettings{})
	decoder, _ := h3qpack.NewDecoder(h3qpack.DecoderSettings{})
	anEncoder, aDecoder := *encoder, *decoder
	_, _ = anEncoder.Close(), aDecoder.Close()
}
PROGRAM
    printf 'module copies\n\ngo 1.19\n\nrequire h3qpack v0.0.0\n\nreplace h3qpack => %s\n' "$PWD" >"$program/go.mod"
    ! (cd "$program" && go vet .) >"$room/vetted" 2>&1
    cat "$room/vetted"
    grep -q 'copies lock value.*Encoder' "$room/vetted" && grep -q 'copies lock value.*Decoder' "$room/vetted"
}

# Runs the tests and the examples, with more words for go. There must be some.
run_go() {
    go test -count=1 -v "$@" ./... && grep -q '^--- PASS: Example' "$room/told"
}

# Has all pointers checked that Go passes to C: when a program is built since Go 1.21, and when it runs before.
check_pointers() {
    if GOEXPERIMENT=cgocheck2 go version >/dev/null 2>&1; then
        export GOEXPERIMENT=cgocheck2
    else
        export GODEBUG=cgocheck=2
    fi
}

# A program that imports quic-go's package takes this one by two replace lines, by the older path too.
replace_qpack() {
    local program=$room/replaced path
    for path in github.com/quic-go/qpack github.com/marten-seemann/qpack; do
        rm -rf "$program" && mkdir "$program" && cat >"$program/main.go" <<PROGRAM || return
package main

import (
	"fmt"

	"$path"
)

func main() {
	fields, err := qpack.NewDecoder(nil).DecodeFull([]byte{0, 0, 0xd1})
	fmt.Println(fields, err)
}
PROGRAM
        (cd "$program" && go mod init replaced && go mod edit -require "$path@v0.6.0" -replace "$path=$top/bindings/go/qpack" &&
            go mod edit -require h3qpack@v0.2.0 -replace "h3qpack=$top/bindings/go" &&
            [ "$(go run .)" = '[{:method GET}] <nil>' ]) || return
    done
}

# The calls of quic-go's package over this one, in a module of their own. bindings/go/qpack/check.sh runs quic-go's tests.
test_qpack() {
    cd qpack && try "the licence of the module qpack" is_licence LICENSE && try "go vet of qpack" go vet ./... &&
        try "go test of qpack" go test -count=1 -v ./... && try "qpack in the place of quic-go's" replace_qpack
    cd ..
}

# A program that is linked statically runs, and needs nothing that is installed.
build_statically() {
    local program=$room/static
    mkdir -p "$program" && cat >"$program/main.go" <<'PROGRAM' || return
package main

import (
	"fmt"

	"h3qpack"
)

func main() {
	section, err := h3qpack.EncodeStateless([]h3qpack.Field{{Name: ":method", Value: "GET"}})
	fmt.Printf("%x %v\n", section, err)
}
PROGRAM
    printf 'module static\n\ngo 1.19\n\nrequire h3qpack v0.0.0\n\nreplace h3qpack => %s\n' "$PWD" >"$program/go.mod"
    (cd "$program" && go build -ldflags '-linkmode external -extldflags -static' .) &&
        ! readelf -d "$program/static" | grep NEEDED && [ "$("$program/static")" = '0000d1 <nil>' ]
}

test_go() {
    export GOPROXY=off GOTOOLCHAIN=local
    check_pointers
    try "the licence of the module" is_licence LICENSE
    try "gofmt" check_layout
    try "go vet" go vet ./...
    try "go vet of a program that copies ends" check_copies
    try "go test" run_go
    try "a static program" build_statically
    test_qpack
    try "go test -race" run_go -race
    echo "$script: Go: $(grep -c '^--- PASS' "$room/told") tests and examples, with $(go version | cut -d ' ' -f 3)"
}

# Runs the tests and the examples of the docstrings. There must be some.
run_python() {
    python3 -W error -m unittest && ! grep -q '^Ran 0 tests' "$room/told"
}

# Without the variable and pip, the library is found where the linker looks, or an error says how to install it.
find_by_linker() {
    env -u H3_QPACK_LIBRARY -u LD_LIBRARY_PATH python3 -c 'import h3_qpack' 2>"$room/refused" ||
        grep 'pip install ./bindings/python' "$room/refused"
}

# Prints the packages of Debian that pip needs and that are not there.
list_lacking_for_pip() {
    python3 -c 'import ensurepip' 2>/dev/null || echo python3-venv
}

# A package installs by pip in a folder of its own without a network, leaves nothing but compiled Python where its sources
# are, has what it requires, and brings the library. The wheel is the same when it is made again.
install_by_pip() {
    local name=$1 source=$room/source/$1 wheels=$room/wheels/$1
    [ -d "$room/venv" ] || python3 -m venv "$room/venv" || return
    mkdir -p "$room/source" "$wheels/again" && cp -r . "$source" || return
    (cd "$source" && find . | sort) >"$room/before"
    "$room/venv/bin/pip" wheel --no-index --no-deps -w "$wheels" "$source" &&
        "$room/venv/bin/pip" wheel --no-index --no-deps -w "$wheels/again" "$source" &&
        cmp "$wheels"/*.whl "$wheels"/again/*.whl && "$room/venv/bin/pip" install --no-index "$wheels"/*.whl || return
    (cd "$source" && find . -name __pycache__ -prune -o -print | sort) | diff "$room/before" - || return
    (cd "$room" && env -u PYTHONPATH -u H3_QPACK_LIBRARY venv/bin/python -c "import $name; print($name.__file__)") |
        grep "^$room/venv/"
}

# What pip installed has the licence, and names it.
check_installed_licence() {
    local about
    about=$(find "$room/venv" -name "$1-*.dist-info") && is_licence "$(find "$about" -name LICENSE)" &&
        grep -x 'Classifier: License :: OSI Approved :: MIT License' "$about/METADATA"
}

# Tests the package that is named, in its folder.
test_package() {
    try "python3 -m unittest of $1" run_python
    echo "$script: Python: $1: $(sed -n 's/^Ran \([0-9]*\) tests.*/\1/p' "$room/told") tests, with $(python3 --version)"
    if [ -z "$(list_lacking_for_pip)" ]; then
        try "pip install of $1" install_by_pip "$1" && try "the licence in what pip installs of $1" check_installed_licence "$1"
    else
        # shellcheck disable=SC2046 # words
        not_shown "pip install of $1" "without $(echo $(list_lacking_for_pip))"
    fi
    if command -v mypy >/dev/null; then
        try "mypy of $1" mypy --strict --cache-dir "$room/mypy" "$1" tests
    fi
}

# pylsqpack is over h3_qpack.
test_python() {
    export H3_QPACK_LIBRARY=$room/usr/lib/libh3_qpack.so.0 PYTHONDONTWRITEBYTECODE=1
    test_package h3_qpack
    try "the library is found, or an error says how to install it" find_by_linker
    cd ../pylsqpack || return
    export PYTHONPATH=$top/bindings/python MYPYPATH=$top/bindings/python
    test_package pylsqpack
}

# shellcheck disable=SC2046 # words
install_packages $(list_lacking cc make go python3) $(list_lacking_for_pip) || true
if has_tools Go cc go; then cd go && test_go; cd ..; fi
if has_tools Python cc make python3 && build_library; then cd python && test_python; fi
cd "$top/bindings" && try "the four programs of examples/programs" ../examples/programs/check.sh
grep "^not shown: " "$room/told"
tell_count
