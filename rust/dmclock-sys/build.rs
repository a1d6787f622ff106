//! Finds libdmclock: in the folder that DMCLOCK_LIB_DIR names, or by pkg-config, or in `lib` beside
//! this workspace, where the unpacked archive has it. It is linked statically where libdmclock.a is
//! there.

use std::env;
use std::path::{Path, PathBuf};
use std::process::Command;

/// The folder that the caller names.
fn named() -> Option<PathBuf> {
    env::var_os("DMCLOCK_LIB_DIR").map(PathBuf::from)
}

/// The folder of an installed library that is not older than this crate.
fn installed() -> Option<PathBuf> {
    let wanted = concat!("dmclock >= ", env!("CARGO_PKG_VERSION"));
    let mut command = Command::new("pkg-config");
    let output = command.args(["--variable=libdir", wanted]).output().ok()?;
    let folder = String::from_utf8(output.stdout).ok()?;
    let found = output.status.success() && !folder.trim().is_empty();
    found.then(|| PathBuf::from(folder.trim()))
}

/// The folder of the unpacked archive.
fn beside() -> Option<PathBuf> {
    let folder = Path::new(env!("CARGO_MANIFEST_DIR")).join("../../lib");
    folder.is_dir().then_some(folder)
}

fn main() {
    println!("cargo:rerun-if-env-changed=DMCLOCK_LIB_DIR");
    println!("cargo:rerun-if-env-changed=PKG_CONFIG_PATH");
    println!("cargo:rerun-if-changed=build.rs");
    let folder = named().or_else(installed).or_else(beside).expect(
        "libdmclock is not found: set DMCLOCK_LIB_DIR to its folder, or PKG_CONFIG_PATH to that of dmclock.pc",
    );
    let is_static = folder.join("libdmclock.a").exists();
    let (file, kind) = if is_static {
        ("libdmclock.a", "static")
    } else {
        ("libdmclock.so", "dylib")
    };
    let file = folder.join(file);
    assert!(
        file.exists(),
        "there is no libdmclock in {}",
        folder.display()
    );
    println!("cargo:rerun-if-changed={}", file.display());
    println!("cargo:rustc-link-search=native={}", folder.display());
    println!("cargo:rustc-link-lib={kind}=dmclock");
}
