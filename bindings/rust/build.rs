//! Links libgimli_line.a: that of the folder that GIMLI_LINE_DIR names; else the one that `make` in crates/gimli_c has built; else the one
//! that pkg-config finds.

use std::env;
use std::path::{Path, PathBuf};
use std::process::Command;

/// The folder of the installed library, by pkg-config. None where there is none.
fn installed() -> Option<PathBuf> {
    let output = Command::new(env::var_os("PKG_CONFIG").unwrap_or("pkg-config".into()))
        .args(["--variable=libdir", "gimli_line = 0.1.0"])
        .output()
        .ok()?;
    let folder = PathBuf::from(String::from_utf8(output.stdout).ok()?.trim());
    (output.status.success() && archive(&folder).exists()).then_some(folder)
}

fn archive(folder: &Path) -> PathBuf {
    folder.join("libgimli_line.a")
}

fn main() {
    for name in ["DOCS_RS", "GIMLI_LINE_DIR", "PKG_CONFIG", "PKG_CONFIG_PATH"] {
        println!("cargo:rerun-if-env-changed={name}");
    }
    if env::var_os("DOCS_RS").is_some() {
        return;
    }
    let manifest = PathBuf::from(env::var_os("CARGO_MANIFEST_DIR").expect("cargo sets it"));
    let built = manifest.join("../../crates/gimli_c/build");
    let folder = match env::var_os("GIMLI_LINE_DIR") {
        Some(folder) => PathBuf::from(folder),
        None if archive(&built).exists() => built,
        None => installed().unwrap_or(built),
    };
    let archive = archive(&folder);
    println!("cargo:rerun-if-changed={}", archive.display());
    if !archive.exists() {
        panic!(
            "{} isn't there: run `make` in crates/gimli_c, install the library where pkg-config finds it, or set GIMLI_LINE_DIR to its folder",
            archive.display()
        );
    }
    println!("cargo:rustc-link-search=native={}", folder.display());
    println!("cargo:rustc-link-lib=static=gimli_line");
}
