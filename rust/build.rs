//! Links libearlybird.a: the one in the folder that EARLYBIRD_LIB names, else that of this checkout's dist/, else the one that
//! pkg-config knows.
use std::env;
use std::path::{Path, PathBuf};
use std::process::Command;

const ARCHIVE: &str = "libearlybird.a";

/// The folder that pkg-config knows.
fn known_to_pkg_config() -> Option<PathBuf> {
    let asked = Command::new("pkg-config").args(["--variable=libdir", "earlybird"]).output().ok()?;
    let folder = String::from_utf8(asked.stdout).ok()?;
    Some(PathBuf::from(folder.trim()))
}

/// The folder of the archive.
fn folder() -> PathBuf {
    if let Some(named) = env::var_os("EARLYBIRD_LIB") {
        return PathBuf::from(named);
    }
    let manifest = env::var_os("CARGO_MANIFEST_DIR").expect("cargo names the folder of the manifest");
    let dist = Path::new(&manifest).join("../dist");
    let known = || known_to_pkg_config().filter(|folder| folder.join(ARCHIVE).exists());
    Some(dist)
        .filter(|folder| folder.join(ARCHIVE).exists())
        .or_else(known)
        .expect("libearlybird.a isn't found: install it by ./earlybird install, or name its folder in EARLYBIRD_LIB")
}

fn main() {
    let folder = folder();
    let folder = folder.canonicalize().unwrap_or_else(|fault| panic!("{}: {fault}", folder.display()));
    println!("cargo:rerun-if-env-changed=EARLYBIRD_LIB");
    println!("cargo:rerun-if-env-changed=PKG_CONFIG_PATH");
    println!("cargo:rerun-if-changed={}", folder.join(ARCHIVE).display());
    println!("cargo:rustc-link-search=native={}", folder.display());
    println!("cargo:rustc-link-lib=static=earlybird");
}
