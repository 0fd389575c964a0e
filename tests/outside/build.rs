//! Links the static library that `make lib` makes, target/lib/libftd.a; nothing else is needed. FTD_LIBRARY names another folder.

use std::path::PathBuf;

fn main() {
    println!("cargo:rerun-if-env-changed=FTD_LIBRARY");
    let here = PathBuf::from(std::env::var("CARGO_MANIFEST_DIR").expect("set by cargo"));
    let folder = std::env::var("FTD_LIBRARY").map_or(here.join("../../target/lib"), PathBuf::from);
    let library = folder.join("libftd.a");
    if !library.exists() {
        panic!("{} isn't there: make it with `make lib`", library.display());
    }
    println!("cargo:rerun-if-changed={}", library.display());
    println!("cargo:rustc-link-search=native={}", folder.display());
    println!("cargo:rustc-link-lib=static=ftd");
}
