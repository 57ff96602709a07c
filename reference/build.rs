//! Tells the linker where the proved static library lies: the folder named by SUBGROUPS_LIB,
//! or ../crates/subgroups_c/out beside this package. Only the binaries compare and bench ask for it.

use std::env;
use std::path::PathBuf;

/// Prints the folder to search and the changes after which to build again.
fn main() {
    println!("cargo:rerun-if-env-changed=SUBGROUPS_LIB");
    println!("cargo:rerun-if-changed=build.rs");
    let package = PathBuf::from(env::var_os("CARGO_MANIFEST_DIR").expect("set by cargo"));
    let folder = match env::var_os("SUBGROUPS_LIB") {
        Some(folder) => PathBuf::from(folder),
        None => package.join("../crates/subgroups_c/out"),
    };
    println!("cargo:rustc-link-search=native={}", folder.display());
    let library = folder.join("libsubgroups_c.a");
    println!("cargo:rerun-if-changed={}", library.display());
}
