//! Links the archive that `bin/latsefur-archive` makes: in the folder that `LATSEFUR_LIB_DIR` names, or in `out/hosts` of the repository.
//!
//! Without the archive the compiler still makes documents and checks the crate, and refuses to build it. A warning says what is missing.

use std::env;
use std::path::{Path, PathBuf};

fn main() {
    let given = env::var_os("LATSEFUR_LIB_DIR").map(PathBuf::from);
    let folder = given.unwrap_or_else(|| Path::new(&env::var_os("CARGO_MANIFEST_DIR").unwrap_or_default()).join("../../out/hosts"));
    let archive = folder.join("liblatsefur.a");
    println!("cargo:rerun-if-env-changed=LATSEFUR_LIB_DIR");
    println!("cargo:rerun-if-changed={}", archive.display());
    if !archive.is_file() {
        let said = "isn't there; bin/latsefur-archive makes it, and LATSEFUR_LIB_DIR may name another folder";
        println!("cargo:warning={} {said}", archive.display());
    }
    println!("cargo:rustc-link-search=native={}", folder.display());
    println!("cargo:rustc-link-lib=static=latsefur");
}
