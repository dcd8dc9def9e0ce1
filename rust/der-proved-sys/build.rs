//! Links `libder_c.a`: of the folder that `DER_C_LIB` names, else the one that `make` writes in `c/`, else the one that is
//! installed, by `pkg-config`.

use std::env;
use std::path::{Path, PathBuf};
use std::process::Command;

/// The folder of the library that is installed, if `pkg-config` knows one.
fn installed() -> Option<PathBuf> {
    let said = Command::new("pkg-config").args(["--variable=libdir", "barleypulley"]).output().ok()?;
    let folder = String::from_utf8(said.stdout).ok()?;
    said.status.success().then(|| PathBuf::from(folder.trim()))
}

fn folder() -> PathBuf {
    if let Some(folder) = env::var_os("DER_C_LIB") {
        return PathBuf::from(folder);
    }
    let built = Path::new(env!("CARGO_MANIFEST_DIR")).join("../../c/build");
    if built.join("libder_c.a").is_file() {
        return built;
    }
    installed().unwrap_or(built)
}

fn main() {
    let folder = folder();
    println!("cargo:rerun-if-env-changed=DER_C_LIB");
    println!("cargo:rerun-if-changed={}", folder.join("libder_c.a").display());
    println!("cargo:rustc-link-search=native={}", folder.display());
    println!("cargo:rustc-link-lib=static=der_c");
}
