#!/usr/bin/env bash
# Tests the Rust crate: over the library that c/check.sh tests; then over the assembly that the crate includes, if that was
# generated from the sources as they are, and the package of it, from an empty folder. It needs cargo and rustc, 1.63 or
# later, make and a C linker (Debian: cargo, rustc, make and gcc), and installs by apt-get what is not there, which only
# root can; where they can't be had nothing is tested, and that is a failure. No other crate is wanted, and no network.
# valgrind and clippy are used where they are there, and quic/run.sh and the tests of bytes/ run where they can. Ends in a
# line of what passed, with a status that is not 0 if something failed.
set -euo pipefail
cd "$(dirname "$0")/.."
script=bindings/rust/check.sh
. ../c/archive
. ../tests/licence

# Prints the packages that are wanted and not there.
list_wanted() {
    list_lacking cargo rustc make cc
}

# Runs a command, and shows what it printed if it fails.
run() {
    if ! "$@" >"$room/told" 2>&1; then
        cat "$room/told" >&2
        echo "$script: failed: ${*//$room/ROOM}" >&2
        exit 1
    fi
}

# Runs the programs of the tests, which cargo named, beneath valgrind: no access that is not allowed, nothing lost.
check_memory() {
    local program
    run cargo test --offline --tests --no-run
    for program in $(sed -n 's/.*Executable tests.*(\(.*\))$/\1/p' "$room/told"); do
        run valgrind -q --error-exitcode=9 --leak-check=full --errors-for-leak-kinds=definite,indirect "$program"
        programs=$((programs + 1))
    done
    [ "$programs" -gt 0 ] || { echo "$script: cargo named no program" >&2; exit 1; }
}

# Runs the tests of the crate in this folder, with more words for cargo, and adds those that passed to $tests. There must be
# some.
run_tests() {
    local kind before=$tests
    for kind in --all-targets --doc; do
        run cargo test --offline "$kind" "$@"
        tests=$((tests + $(awk '/^test result: ok/ { sum += $4 } END { print sum + 0 }' "$room/told")))
    done
    [ "$tests" -gt "$before" ] || { echo "$script: cargo ran no test" >&2; exit 1; }
}

# Has clippy look at the crate, if it is there, with more words for cargo.
lint() {
    ! cargo clippy --version >/dev/null 2>&1 || run cargo clippy --offline "$@" -- -D warnings
}

# Whether H3_QPACK_LIB has its archive linked, and not the assembly: over an empty archive nothing can be linked.
check_choice() {
    mkdir "$room/empty"
    ar rc "$room/empty/libh3_qpack.a"
    ! H3_QPACK_LIB=$room/empty cargo build --offline --example stateless >"$room/linked" 2>&1 &&
        grep 'undefined .*h3q_' "$room/linked"
}

# Where there is no assembly for the target, the build ends with a line that says what to do.
check_target() {
    ! H3_QPACK_PREFIX='' rustc --edition 2021 --crate-type lib --emit metadata --cfg 'feature="std"' -o "$room/none.rmeta" \
        src/lib.rs >"$room/none" 2>&1 && grep 'h3_qpack has no assembly for this target. Depend on it' "$room/none"
}

# Prints targets of the systems and processors that the crate's README has in its cfg, and of some others.
list_targets() {
    local processors='x86_64|aarch64|aarch64_be|riscv64gc|i686|s390x'
    local systems='unknown-(linux-gnu|linux-gnux32|freebsd|netbsd|openbsd|dragonfly|illumos|fuchsia|none)|linux-android'
    rustc --print target-list | grep -xE "($processors)-($systems|pc-solaris|pc-windows-(gnu|msvc)|apple-(darwin|ios))"
}

# Runs the build script for a target. Prints 1 if it has assembly for it, and else 0.
count_texts() {
    rm -rf "$room/chosen" && mkdir "$room/chosen"
    # shellcheck disable=SC2046 # words
    env -u H3_QPACK_LIB OUT_DIR="$room/chosen" $(rustc --print cfg --target "$1" |
        sed -nE 's/^target_(arch|os|endian|pointer_width)="(.*)"$/CARGO_CFG_TARGET_\U\1\E=\2/p') "$room/build-script" |
        grep -c 'rustc-cfg=h3_qpack_assembly' || true
}

# A crate that depends on this one by the cfg of README has it for each target with assembly, and for no other.
check_cfg() {
    local crate=$room/chooses cfg target chosen targets=0
    cfg=$(sed -n '/^cfg(any($/,/^```$/p' ../README.md | grep -v '^```' | paste -s -d ' ' | tr -s ' ')
    mkdir -p "$crate/src" && touch "$crate/src/lib.rs" && cat >"$crate/Cargo.toml" <<END || return
[package]
name = "chooses"
version = "0.0.0"
edition = "2021"

[target.'$cfg'.dependencies]
h3_qpack = { path = "$PWD" }

[workspace]
END
    rustc --edition 2021 build.rs -o "$room/build-script" || return
    for target in $(list_targets); do
        chosen=$(cd "$crate" && cargo tree --offline --prefix none --target "$target" | grep -c '^h3_qpack') || true
        [ "$chosen" = "$(count_texts "$target")" ] || { echo "$target: $chosen by the cfg of README"; return 1; }
        targets=$((targets + chosen))
    done
    [ "$targets" -ge 10 ] || { echo "only $targets targets with assembly"; return 1; }
}

# The package has the licence.
check_package() {
    cargo package --offline --allow-dirty --no-verify && tar -C "$room" -xzf "$CARGO_TARGET_DIR"/package/h3_qpack-*.crate &&
        is_licence "$(echo "$room"/h3_qpack-*/LICENSE)" && grep -x 'license = "MIT"' "$room"/h3_qpack-*/Cargo.toml
}

# One program has the crate, with its assembly, and the library in C.
check_linked() {
    (cd ../linked && run cargo build --offline)
    rm -f ../linked/Cargo.lock
    run cc -Wall -Wextra -Werror -I../../../dist ../linked/main.c "$CARGO_TARGET_DIR/debug/liblinked.a" \
        "$room/c/libh3_qpack.a" -lpthread -ldl -lm -o "$room/linked"
    run "$room/linked"
}

# The crate without the standard library: it builds, and a program that has none runs over it, whose memory is all of its
# own allocator. rustc before 1.68 can't build such a program.
check_no_std() {
    run cargo build --offline --no-default-features
    lint --no-default-features
    [ "$(rustc --version | cut -d . -f 2)" -ge 68 ] || { lacking=", no program without std"; return 0; }
    (cd ../no_std && run cargo build --offline --release)
    run "$CARGO_TARGET_DIR/release/no_std"
    run is_without_malloc "$CARGO_TARGET_DIR/release/no_std"
}

# Whether a program of this crate's has no call of the C library's functions for memory.
is_without_malloc() {
    nm "$1" >"$room/names" && grep -q ' h3_qpack_rs_rattle_alloc$' "$room/names" &&
        ! grep -wE 'malloc|realloc|free' "$room/names"
}

# The crate for the types of the crate bytes, where Debian's is there.
check_bytes() {
    ls -d /usr/share/cargo/registry/bytes-1.* >/dev/null 2>&1 || return 0
    (cd ../bytes && run cargo test --offline)
    with="$with, the crate bytes"
}

# Tests the crate over the assembly that it includes, with the linker's optimizations too, which put all assembly in one
# file; and its package, from a folder that has nothing else.
test_assembly() {
    unset H3_QPACK_LIB
    run_tests
    run_tests --features global-allocator
    lint --all-targets --features global-allocator
    check_linked
    check_no_std
    run env CARGO_PROFILE_RELEASE_LTO=fat cargo run --offline -q --release --example connection
    (cd "$room"/h3_qpack-* && CARGO_TARGET_DIR=$room/packaged run cargo test --offline --tests)
}

room=$(mktemp -d)
trap 'rm -rf "$room"' EXIT
tests=0
programs=0
install_packages $(list_wanted) || exit 1
choose_library
run make_library BUILD="$room/c"
export H3_QPACK_LIB=$room/c
export CARGO_TARGET_DIR=$room/target
cd rust/h3_qpack
run check_choice
run check_target
run check_cfg
run check_package
run_tests
lint --all-targets
examples=0
for example in examples/*.rs; do
    name=$(basename "$example" .rs)
    words=
    [ "$name" != bench ] || words="3"
    run cargo run --offline -q --example "$name" -- $words
    examples=$((examples + 1))
done
with=
if command -v valgrind >/dev/null; then
    check_memory
    with=", $programs programs of tests beneath valgrind"
fi
check_bytes
if ../quic/run.sh --can; then
    run ../quic/run.sh
    with="$with, HTTP/3 over quinn"
fi
passed="$tests tests and $examples examples passed over $library$with"
if (cd ../.. && fits_dist); then
    tests=0
    lacking=
    test_assembly
    passed="$passed; $tests tests over the assembly$lacking"
else
    passed="$passed; the assembly was generated from other sources, and is not tested"
fi
echo "$script: $passed, with $(rustc --version | cut -d ' ' -f 1,2)"
