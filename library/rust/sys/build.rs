//! Links libpciguest.a from the directory PCIGUEST_LIBRARY_DIR or, if that isn't set, from the first of the usual directories that
//! contains it. `cargo doc` and `cargo check` work without the library. In a clone of the repository, the script also generates the
//! declarations.

use std::env;
use std::path::{Path, PathBuf};
use std::process::{exit, Command};

const ARCHIVE: &str = "libpciguest.a";
const UNPROVED: &str = "../../unproved";

fn main() {
    println!("cargo:rerun-if-changed=build.rs");
    println!("cargo:rerun-if-env-changed=PCIGUEST_LIBRARY_DIR");
    let target = |key| env::var(key).unwrap_or_default();
    if target("CARGO_CFG_TARGET_OS") != "linux" || target("CARGO_CFG_TARGET_ARCH") != "x86_64" {
        refuse("the library is only for Linux on x86-64");
    }
    declarations();
    let folder = folder();
    let archive = folder.join(ARCHIVE);
    println!("cargo:rerun-if-changed={}", archive.display());
    if !archive.is_file() {
        println!(
            "cargo:warning=there is no {}. At the top of the repository, `make try` compiles it without proofs, and \
             `make library` proves it. If it is elsewhere, set PCIGUEST_LIBRARY_DIR to its directory",
            archive.display()
        );
    } else if folder.ends_with(UNPROVED) {
        println!(
            "cargo:warning=this library is not proved: {}. `make library` proves it",
            archive.display()
        );
        println!("cargo:rerun-if-changed={}", folder.with_file_name(ARCHIVE).display());
    }
    match folder.canonicalize() {
        Ok(folder) => println!("cargo:rustc-link-search=native={}", folder.display()),
        Err(error) => refuse(&format!("{}: {error}", folder.display())),
    }
    println!("cargo:rustc-link-lib=static=pciguest");
}

/// Generates `src/raw.rs` if it is missing, as in a fresh clone. A package contains the file.
fn declarations() {
    let here = Path::new(env!("CARGO_MANIFEST_DIR"));
    let (raw, script) = (here.join("src/raw.rs"), here.join("../../../tools/bindings"));
    if !raw.is_file() && script.is_file() {
        let _ = Command::new(script).status();
    }
    if !raw.is_file() {
        refuse("src/raw.rs is missing: tools/bindings in the repository generates it, with Python 3.11");
    }
}

/// The directory that is named, or the first that contains the archive: the crate's own; the repository's, where `make library`
/// writes it; the one in which the crate was unpacked or installed; the one that pkg-config reports; and the one where
/// `make try` writes an archive that isn't proved.
fn folder() -> PathBuf {
    if let Some(folder) = env::var_os("PCIGUEST_LIBRARY_DIR") {
        return PathBuf::from(folder);
    }
    let here = Path::new(env!("CARGO_MANIFEST_DIR"));
    let beside = ["lib", "../..", "../../../../lib"].map(|folder| here.join(folder));
    let mut usual = beside.into_iter().chain(installed()).chain([here.join(UNPROVED)]);
    let found = usual.find(|folder| folder.join(ARCHIVE).is_file());
    found.unwrap_or_else(|| here.join("../.."))
}

/// The directory that pkg-config reports, if there is one.
fn installed() -> Option<PathBuf> {
    let words = ["--variable=libdir", "pciguest"];
    let told = Command::new("pkg-config").args(words).output().ok()?;
    let folder = String::from_utf8(told.stdout).ok()?;
    told.status.success().then(|| PathBuf::from(folder.trim()))
}

fn refuse(why: &str) -> ! {
    eprintln!("pciguest-sys: {why}");
    exit(1)
}
