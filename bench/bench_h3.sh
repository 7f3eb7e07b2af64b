#!/usr/bin/env bash
# bench_h3.sh H3_SRC ROUNDS: the stateless pair of this crate beside h3's own, and beside nghttp3. H3_SRC is the folder
# src of the crate h3 0.0.8, of which the module qpack with proto/coding.rs and proto/varint.rs is copied to a folder that
# is removed at the end. It needs the crate bytes, from Debian's librust-bytes-dev, and nghttp3, from libnghttp3-dev.
set -euo pipefail
[ $# = 2 ] || { echo "usage: bench_h3.sh H3_SRC ROUNDS" >&2; exit 2; }
sources=$(cd "$1" && pwd)
top=$(cd "$(dirname "$0")/.." && pwd)
room=$(mktemp -d)
trap 'rm -rf "$room"' EXIT
mkdir -p "$room"/{.cargo,src,theirs/src/proto}
cp -r "$sources/qpack" "$room/theirs/src/"
cp "$sources"/proto/{coding,varint}.rs "$room/theirs/src/proto/"
cat >"$room/theirs/src/lib.rs" <<'END'
#![allow(dead_code, unused_imports, mismatched_lifetime_syntaxes, unknown_lints)]
pub mod proto {
    pub mod coding;
    pub mod varint;
}
pub mod qpack;
END
cat >"$room/.cargo/config.toml" <<'END'
[source.crates-io]
replace-with = "debian"
[source.debian]
directory = "/usr/share/cargo/registry"
END
cat >"$room/theirs/Cargo.toml" <<'END'
[package]
name = "h3_theirs"
version = "0.0.8"
edition = "2021"
[features]
tracing = []
[dependencies]
bytes = "1"
END
cat >"$room/Cargo.toml" <<END
[package]
name = "bench_h3"
version = "0.1.0"
edition = "2021"
[dependencies]
bytes = "1"
h3_qpack = { path = "$top/bindings/rust/h3_qpack" }
h3_theirs = { path = "theirs" }
[workspace]
END
cp "$top/bench/bench_h3.rs" "$room/src/main.rs"
cc -O2 -Wall -Wextra -Werror -c "$top/bench/bench_nghttp3.c" -o "$room/bench_nghttp3.o"
ar rcs "$room/libbench_nghttp3.a" "$room/bench_nghttp3.o"
cat >"$room/build.rs" <<END
fn main() {
    println!("cargo:rustc-link-search=native=$room");
    println!("cargo:rustc-link-lib=static=bench_nghttp3");
    println!("cargo:rustc-link-lib=nghttp3");
}
END
cd "$room"
CARGO_TARGET_DIR=$room/target cargo build -q --offline --release
target/release/bench_h3 "$top/crates/qpack_tests/data/corpus.qif" "$2"
