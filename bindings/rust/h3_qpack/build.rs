//! Links the archive that `H3_QPACK_LIB` names, itself or by its folder, in the place of the crate's own assembly. Where it
//! is not set, it writes that assembly with a prefix before each name that a linker sees. So a program can link the crate
//! and the library in C, which has the same names.

use std::env;
use std::path::{Path, PathBuf};
use std::process::exit;

/// The name that the archive has to the linker.
const ARCHIVE: &str = "libh3_qpack.a";

/// What is put before the names of the assembly.
const PREFIX: &str = "h3_qpack_rs_";

/// How the names begin that a linker sees: the exports, and the functions for memory.
const NAMES: [&str; 2] = ["h3q_", "rattle_"];

fn main() {
    println!("cargo:rerun-if-env-changed=H3_QPACK_LIB");
    let prefix = match env::var_os("H3_QPACK_LIB") {
        Some(named) => {
            link(&find_archive(PathBuf::from(named)));
            ""
        }
        None => {
            if let Some(text) = choose_text() {
                write_prefixed(&format!("{text}.s"), "library.s");
                write_heap(text);
                println!("cargo:rustc-cfg=h3_qpack_assembly");
            }
            PREFIX
        }
    };
    println!("cargo:rustc-env=H3_QPACK_PREFIX={prefix}");
}

/// Returns the folder that cargo gives a build.
fn out_folder() -> PathBuf {
    PathBuf::from(env::var_os("OUT_DIR").expect("cargo sets OUT_DIR"))
}

/// Returns a word of cargo about the target.
fn target(word: &str) -> String {
    env::var(format!("CARGO_CFG_TARGET_{word}")).unwrap_or_default()
}

/// Returns the name of the text of assembly for the target, as `dist/processor` has it.
fn choose_text() -> Option<&'static str> {
    if target("POINTER_WIDTH") != "64" || target("ENDIAN") != "little" {
        return None;
    }
    match (target("ARCH").as_str(), target("OS").as_str()) {
        ("x86_64", "linux" | "freebsd" | "netbsd" | "openbsd" | "dragonfly" | "illumos" | "solaris" | "android") => {
            Some("x86_64-elf")
        }
        ("x86_64", "windows") => Some("x86_64-coff"),
        ("x86_64", "macos") => Some("x86_64-macho"),
        ("aarch64", "linux" | "freebsd" | "netbsd" | "openbsd") => Some("aarch64-elf"),
        ("aarch64", "android") => Some("aarch64-android-elf"),
        ("aarch64", "macos") => Some("aarch64-macho"),
        ("riscv64", "linux") => Some("riscv64-elf"),
        _ => None,
    }
}

/// Whether the library takes its memory from the program's global allocator, by src/heap.rs: without the standard library,
/// and where the feature asks for it. On Windows it takes it from the C library, which is always there.
fn asks_global_allocator() -> bool {
    let has = |feature: &str| env::var_os(format!("CARGO_FEATURE_{feature}")).is_some();
    target("OS") != "windows" && (!has("STD") || has("GLOBAL_ALLOCATOR"))
}

/// Writes the functions for memory as assembly. The file is empty if src/heap.rs has them.
fn write_heap(text: &str) {
    if asks_global_allocator() {
        std::fs::write(out_folder().join("heap.s"), "").expect("OUT_DIR can be written");
        println!("cargo:rustc-cfg=h3_qpack_heap");
    } else {
        write_prefixed(&format!("heap-{text}.s"), "heap.s");
    }
}

/// Writes a file of assembly with the prefix to the folder of the build, under a name of its own.
fn write_prefixed(name: &str, own: &str) {
    let source = Path::new("generated").join(name);
    println!("cargo:rerun-if-changed={}", source.display());
    let mut text = std::fs::read_to_string(&source).expect("the crate has its assembly");
    for begin in NAMES {
        text = text.replace(begin, &format!("{PREFIX}{begin}"));
    }
    std::fs::write(out_folder().join(own), text).expect("OUT_DIR can be written");
}

/// Returns the archive of a path that is its own or its folder's. Ends the build if there is none.
fn find_archive(named: PathBuf) -> PathBuf {
    let archive = if named.is_dir() { named.join(ARCHIVE) } else { named };
    if !archive.is_file() {
        eprintln!("h3_qpack: H3_QPACK_LIB names no archive: {}", archive.display());
        exit(1);
    }
    archive
}

/// Has an archive linked, and the assembly left out.
fn link(archive: &Path) {
    let out = out_folder();
    std::fs::copy(archive, out.join(ARCHIVE)).expect("the archive can be read, and OUT_DIR written");
    println!("cargo:rerun-if-changed={}", archive.display());
    println!("cargo:rustc-cfg=h3_qpack_archive");
    println!("cargo:rustc-link-search=native={}", out.display());
    println!("cargo:rustc-link-lib=static=h3_qpack");
}
