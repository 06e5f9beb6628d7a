//! Finds `libtracehost.a`: in the folder $TRACEHOST_LIB_DIR, else that of the present sources in the checkout that this crate
//! is part of, else by pkg-config.

use std::env;
use std::fs;
use std::path::{Path, PathBuf};
use std::process::{self, Command};

const ARCHIVE: &str = "libtracehost.a";

fn named() -> Option<PathBuf> {
    env::var_os("TRACEHOST_LIB_DIR")
        .filter(|name| !name.is_empty())
        .map(PathBuf::from)
}

/// What `tools/library` of the checkout prints: a folder, or why it has no library of its present sources.
fn in_checkout() -> Option<Result<PathBuf, String>> {
    let top = Path::new(&env::var_os("CARGO_MANIFEST_DIR")?).join("../..");
    let output = Command::new(top.join("tools/library")).output().ok()?;
    for part in ["crates", "library", "release"] {
        println!("cargo:rerun-if-changed={}", top.join(part).display());
    }
    let text = |bytes: Vec<u8>| String::from_utf8_lossy(&bytes).trim().to_owned();
    Some(if output.status.success() {
        Ok(text(output.stdout).into())
    } else {
        Err(text(output.stderr))
    })
}

fn installed() -> Option<PathBuf> {
    let words = ["--variable=libdir", "tracehost"];
    let found = Command::new("pkg-config").args(words).output().ok()?;
    let folder = PathBuf::from(String::from_utf8(found.stdout).ok()?.trim());
    (found.status.success() && folder.join(ARCHIVE).exists()).then_some(folder)
}

/// Whether the archive has this crate's version among its strings, as `tracehost_version` returns it.
fn has_own_version(archive: &[u8]) -> bool {
    let wanted = format!("{}\0", env!("CARGO_PKG_VERSION"));
    let is_longer = |at: usize| at > 0 && (archive[at - 1].is_ascii_digit() || archive[at - 1] == b'.');
    let mut places = archive.windows(wanted.len()).enumerate();
    places.any(|(at, text)| text == wanted.as_bytes() && !is_longer(at))
}

fn fail(reason: &str) -> ! {
    eprintln!("{reason}");
    process::exit(1)
}

fn main() {
    println!("cargo:rerun-if-changed=build.rs");
    for name in ["TRACEHOST_LIB_DIR", "PKG_CONFIG_PATH", "PKG_CONFIG_LIBDIR"] {
        println!("cargo:rerun-if-env-changed={name}");
    }
    let folder = match named().map(Ok).or_else(in_checkout).or_else(|| installed().map(Ok)) {
        Some(Ok(folder)) => folder,
        Some(Err(reason)) => fail(&reason),
        None => {
            fail("tracehost: there is no libtracehost.a: install tracehost, or name its folder in TRACEHOST_LIB_DIR")
        }
    };
    let archive = folder.join(ARCHIVE);
    match fs::read(&archive) {
        Ok(bytes) if has_own_version(&bytes) => (),
        Ok(_) => fail(&format!(
            "tracehost: {} isn't of this crate's version, {}",
            archive.display(),
            env!("CARGO_PKG_VERSION")
        )),
        Err(reason) => fail(&format!("tracehost: {}: {reason}", archive.display())),
    }
    println!("cargo:rerun-if-changed={}", archive.display());
    println!("cargo:rustc-link-search=native={}", folder.display());
    println!("cargo:rustc-link-lib=static=tracehost");
}
