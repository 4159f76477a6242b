//! Links the proved static library, from the folder `ARCHIVE` or where
//! `./malovuneth archive` writes it.

use std::env;
use std::path::Path;

fn main() {
    let here = env::var("CARGO_MANIFEST_DIR").unwrap();
    let default = Path::new(&here).join("../target/staticlib");
    let folder = env::var("ARCHIVE").unwrap_or_else(|_| default.display().to_string());
    println!("cargo:rerun-if-env-changed=ARCHIVE");
    println!("cargo:rerun-if-changed={folder}/libmalovuneth.a");
    println!("cargo:rustc-link-search=native={folder}");
    println!("cargo:rustc-link-lib=static=malovuneth");
}
