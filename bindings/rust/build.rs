//! Finds the library: in the folder that NUMATRACE_LIB names, in this repository after `./build`, or where pkg-config says.

use std::env::var;
use std::path::{Path, PathBuf};
use std::process::Command;

/// The folder that pkg-config names.
fn installed() -> Option<PathBuf> {
    let said = Command::new("pkg-config").args(["--variable=libdir", "numatrace"]).output().ok()?;
    let folder = String::from_utf8(said.stdout).ok()?;
    (said.status.success() && !folder.trim().is_empty()).then(|| PathBuf::from(folder.trim()))
}

fn main() {
    println!("cargo:rerun-if-env-changed=NUMATRACE_LIB");
    let here = Path::new(&var("CARGO_MANIFEST_DIR").unwrap()).join("../../crates/nm_library/out/lib");
    let named = var("NUMATRACE_LIB").ok().map(PathBuf::from);
    let built = here.join("libnumatrace.a").exists().then_some(here);
    let folder = named.or(built).or_else(installed).expect("libnumatrace is not there: name its folder by NUMATRACE_LIB");
    println!("cargo:rustc-link-search=native={}", folder.display());
    println!("cargo:rustc-link-lib=static=numatrace");
    println!("cargo:rerun-if-changed={}", folder.join("libnumatrace.a").display());
}
