//! Links the archive of the proved library, which `tools/staticlib` writes.

use std::env;
use std::path::PathBuf;

fn main() {
    let crate_folder = PathBuf::from(env::var_os("CARGO_MANIFEST_DIR").unwrap_or_default());
    let folder = crate_folder.join("../../target/staticlib");
    let archive = folder.join("libst9.a");
    println!("cargo:rerun-if-changed={}", archive.display());
    println!("cargo:rerun-if-changed=build.rs");
    if archive.is_file() {
        println!("cargo:rustc-link-search=native={}", folder.display());
        println!("cargo:rustc-link-lib=static=st9");
    } else {
        // A check needs no archive, so this alone is no error: the linker's is.
        println!(
            "cargo:warning=target/staticlib/libst9.a is missing, and without it nothing links: \
             run `tools/staticlib` in the repository's root"
        );
    }
}
