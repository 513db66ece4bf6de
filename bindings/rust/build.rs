//! Links the static library `boards`: from the folder in POTEKAWHI_LIB, or from target/staticlib at the root of the repository.
use std::path::PathBuf;
use std::{env, process};

fn main() {
    println!("cargo:rerun-if-changed=build.rs");
    println!("cargo:rerun-if-env-changed=POTEKAWHI_LIB");
    let package =
        PathBuf::from(env::var_os("CARGO_MANIFEST_DIR").expect("cargo sets CARGO_MANIFEST_DIR"));
    let folder = match env::var_os("POTEKAWHI_LIB") {
        Some(folder) if !folder.is_empty() => package.join(folder),
        _ => package.join("../../target/staticlib"),
    };
    let archive = folder.join("libboards.a");
    println!("cargo:rerun-if-changed={}", archive.display());
    if !archive.is_file() {
        eprintln!(
            "there is no {}: run ./library at the root of the repository first, or name the folder of libboards.a in POTEKAWHI_LIB",
            archive.display()
        );
        process::exit(1);
    }
    println!("cargo:rustc-link-search=native={}", folder.display());
    println!("cargo:rustc-link-lib=static=boards");
}
