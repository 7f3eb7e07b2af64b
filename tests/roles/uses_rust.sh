# Uses it from Rust: adds the crate to one of its own, and reads its documents.
cargo new -q --vcs none app && cd app
cargo add -q --offline h3_qpack --path "$CLONE/bindings/rust/h3_qpack" 2>/dev/null || # cargo 1.62 and later has add
    printf 'h3_qpack = { path = "%s/bindings/rust/h3_qpack" }\n' "$CLONE" >>Cargo.toml
cp "$CLONE/examples/programs/rust/src/bin/blocked.rs" src/main.rs
cargo run -q --offline | diff "$CLONE/examples/programs/expected/blocked.txt" -
cargo doc -q --offline -p h3_qpack && [ -f target/doc/h3_qpack/index.html ]
