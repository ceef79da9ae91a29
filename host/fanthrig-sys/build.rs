//! Links `libfanthrig.a`: from the folder in `FANTHRIG_LIB_DIR`, or else from `build` of the source
//! tree, or else from where pkg-config finds it.

use std::env;
use std::path::{Path, PathBuf};
use std::process::Command;

const ARCHIVE: &str = "libfanthrig.a";

/// The folder that the environment names. A relative one is taken from this package's own.
fn named() -> Option<PathBuf> {
    let package = env::var("CARGO_MANIFEST_DIR").expect("cargo sets CARGO_MANIFEST_DIR");
    Some(Path::new(&package).join(env::var_os("FANTHRIG_LIB_DIR")?))
}

/// The folder `build` of the source tree, where the archive is in it.
fn built() -> Option<PathBuf> {
    let package = env::var("CARGO_MANIFEST_DIR").expect("cargo sets CARGO_MANIFEST_DIR");
    let folder = Path::new(&package).join("../../build");
    folder.join(ARCHIVE).exists().then_some(folder)
}

/// The folder that pkg-config tells, which writes a backslash before each space.
fn installed() -> Option<PathBuf> {
    let said = Command::new("pkg-config").args(["--variable=libdir", "fanthrig"]).output().ok()?;
    let folder = String::from_utf8(said.stdout).ok().filter(|_| said.status.success())?;
    Some(PathBuf::from(folder.trim_end_matches('\n').replace("\\ ", " ")))
}

fn main() {
    let Some(folder) = named().or_else(built).or_else(installed) else {
        panic!("no {ARCHIVE}: set FANTHRIG_LIB_DIR to its folder, or install libfanthrig-dev");
    };
    println!("cargo::rustc-link-search=native={}", folder.display());
    println!("cargo::rustc-link-lib=static=fanthrig");
    println!("cargo::rerun-if-changed={}", folder.join(ARCHIVE).display());
    println!("cargo::rerun-if-env-changed=FANTHRIG_LIB_DIR");
}
