//! Links the library.

use std::{env, path::PathBuf, process::exit};

fn main() {
    let target = ["CARGO_CFG_TARGET_ARCH", "CARGO_CFG_TARGET_OS"].map(env::var);
    if target != [Ok("x86_64".to_string()), Ok("linux".to_string())] {
        eprintln!("the archive links only into programs for x86-64 Linux");
        exit(1);
    }
    println!("cargo:rerun-if-env-changed=MR74_LIB");
    let folder = match env::var_os("MR74_LIB").filter(|folder| !folder.is_empty()) {
        Some(folder) => PathBuf::from(folder),
        None => PathBuf::from(env!("CARGO_MANIFEST_DIR")).join("../../target/staticlib"),
    };
    let archive = folder.join("libmr74.a");
    println!("cargo:rerun-if-changed={}", archive.display());
    if !archive.is_file() {
        eprintln!(
            "{} is missing: `./build mr74` in the repository's root builds it, or set \
             MR74_LIB to a folder that has it",
            archive.display()
        );
        exit(1);
    }
    println!("cargo:rustc-link-search=native={}", folder.display());
    println!("cargo:rustc-link-lib=static=mr74");
}
