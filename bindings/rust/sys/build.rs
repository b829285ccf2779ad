//! Links `libceltisdarts.a`: that of the folder `CELTISDARTS_LIB_DIR`, or else that of the repository or the package. What is noted beside it
//! becomes constants.

use std::path::{Path, PathBuf};
use std::{env, fs};

/// What the file beside the archive notes under this word.
fn noted(archive: &Path, word: &str) -> String {
    let notes = fs::read_to_string(archive.with_extension("a.proved")).unwrap_or_default();
    let mut lines = notes.lines().filter_map(|line| line.split_once(' '));
    let found = lines.find(|(first, _)| *first == word);
    found.map_or("unknown", |(_, rest)| rest).to_string()
}

/// Refuses a target for which no archive is made.
fn require_target() {
    let is = |name: &str, wanted: &str| env::var(name).as_deref() == Ok(wanted);
    let is_known = is("CARGO_CFG_TARGET_OS", "linux")
        && is("CARGO_CFG_TARGET_ARCH", "x86_64")
        && is("CARGO_CFG_TARGET_ENV", "gnu");
    assert!(
        is_known,
        "libceltisdarts.a is for Linux on x86-64 with glibc"
    );
}

/// The folder of the archive: `release/` in the repository, which `tools/library --rust` copies to `lib/` in the package.
fn own_folder() -> PathBuf {
    let own = PathBuf::from(env::var_os("CARGO_MANIFEST_DIR").expect("cargo sets it"));
    let released = own.join("../../../release");
    if released.join("libceltisdarts.a").is_file() {
        released
    } else {
        own.join("lib")
    }
}

fn main() {
    println!("cargo:rerun-if-env-changed=CELTISDARTS_LIB_DIR");
    require_target();
    let folder = env::var_os("CELTISDARTS_LIB_DIR").map_or_else(own_folder, PathBuf::from);
    let archive = folder.join("libceltisdarts.a");
    assert!(
        archive.is_file(),
        "there is no {}: say in CELTISDARTS_LIB_DIR in which folder libceltisdarts.a is",
        archive.display()
    );
    println!("cargo:rerun-if-changed={}", archive.display());
    println!("cargo:rustc-link-search=native={}", folder.display());
    println!("cargo:rustc-link-lib=static=celtisdarts");
    for (word, name) in [
        ("program", "ARCHIVE_SHA256"),
        ("sources", "SOURCES_SHA256"),
        ("toolchain", "TOOLCHAIN"),
    ] {
        println!(
            "cargo:rustc-env=CELTISDARTS_{name}={}",
            noted(&archive, word)
        );
    }
}
