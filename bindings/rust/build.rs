//! Links the static library: from the folder `MALOVUNETH_LIB_DIR`, or from
//! where `./malovuneth archive` writes it in this project.

use std::env;
use std::path::{Path, PathBuf};
use std::process::ExitCode;

const VARIABLE: &str = "MALOVUNETH_LIB_DIR";

fn main() -> ExitCode {
    println!("cargo:rerun-if-env-changed={VARIABLE}");
    match link() {
        Ok(()) => ExitCode::SUCCESS,
        Err(why) => {
            eprintln!("{why}");
            ExitCode::FAILURE
        }
    }
}

fn link() -> Result<(), String> {
    let target = [
        variable("CARGO_CFG_TARGET_ARCH"),
        variable("CARGO_CFG_TARGET_OS"),
    ];
    if target != ["x86_64", "linux"] {
        return Err("libmalovuneth.a is for x86-64 Linux alone".to_string());
    }
    let folder = folder()?;
    let archive = folder.join("libmalovuneth.a");
    println!("cargo:rerun-if-changed={}", archive.display());
    if !archive.is_file() {
        let archive = archive.display();
        return Err(format!(
            "there is no {archive}\n\
             make it by `./malovuneth archive` in the project's root,\n\
             or set {VARIABLE} to the folder that has libmalovuneth.a"
        ));
    }
    println!("cargo:rustc-link-search=native={}", folder.display());
    println!("cargo:rustc-link-lib=static=malovuneth");
    Ok(())
}

/// The folder of the archive.
fn folder() -> Result<PathBuf, String> {
    match env::var_os(VARIABLE).map(PathBuf::from) {
        Some(folder) if folder.is_absolute() => Ok(folder),
        Some(_) => Err(format!("{VARIABLE} must be an absolute path")),
        None => Ok(Path::new(&variable("CARGO_MANIFEST_DIR")).join("../../target/staticlib")),
    }
}

/// A variable that cargo sets.
fn variable(name: &str) -> String {
    env::var(name).unwrap_or_default()
}
