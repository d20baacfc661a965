//! Links the proved archive: the one that AYGESHUNT_ARCHIVE names, else the one that `rt lib` leaves in crates/aygeshunt/out/.

use std::path::PathBuf;

fn main() {
    println!("cargo:rerun-if-env-changed=AYGESHUNT_ARCHIVE");
    let own = PathBuf::from(std::env::var("CARGO_MANIFEST_DIR").unwrap_or_default());
    let usual = own.join("../../crates/aygeshunt/out/libaygeshunt.a");
    let archive = std::env::var_os("AYGESHUNT_ARCHIVE").map_or(usual, PathBuf::from);
    println!("cargo:rerun-if-changed={}", archive.display());
    let folder = archive.parent().map(|folder| folder.display().to_string()).unwrap_or_default();
    println!("cargo:rustc-link-search=native={folder}");
    println!("cargo:rustc-link-lib=static=aygeshunt");
}
