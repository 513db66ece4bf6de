//! Links what the benchmarks compare the static library with: with the feature `isal` ISA-L, with the feature `earlier` another version of the
//! library.
use std::path::{Path, PathBuf};
use std::{env, process};

/// What the benchmarks call of an earlier version; there it has another prefix, and all its other functions are out of the linker's sight.
const COMPARED: [&str; 3] = ["encode", "decode", "star"];

/// Copies the earlier version's archive, with its functions renamed, to the build's folder, and links it.
fn link_earlier(archive: &Path) {
    let out = PathBuf::from(env::var_os("OUT_DIR").expect("cargo sets OUT_DIR"));
    let mut command = process::Command::new("objcopy");
    for name in COMPARED {
        command.arg(format!("--redefine-sym=potekawhi_{name}=earlier_{name}"));
        command.arg(format!("--keep-global-symbol=earlier_{name}"));
    }
    command.arg(archive).arg(out.join("libearlier.a"));
    if !command.status().is_ok_and(|status| status.success()) {
        eprintln!("{command:?} failed");
        process::exit(1);
    }
    println!("cargo:rustc-link-search=native={}", out.display());
    println!("cargo:rustc-link-lib=static=earlier");
}

fn main() {
    println!("cargo:rerun-if-changed=build.rs");
    // ISA-L: from the folder in POTEKAWHI_ISAL, or from where the system has its libraries
    println!("cargo:rerun-if-env-changed=POTEKAWHI_ISAL");
    if env::var_os("CARGO_FEATURE_ISAL").is_some() {
        if let Ok(folder) = env::var("POTEKAWHI_ISAL") {
            println!("cargo:rustc-link-search=native={folder}");
        }
        println!("cargo:rustc-link-lib=isal");
    }
    println!("cargo:rerun-if-env-changed=POTEKAWHI_EARLIER");
    if env::var_os("CARGO_FEATURE_EARLIER").is_some() {
        let package = env::var_os("CARGO_MANIFEST_DIR").expect("cargo sets CARGO_MANIFEST_DIR");
        let folder = env::var_os("POTEKAWHI_EARLIER").unwrap_or_default();
        let archive = PathBuf::from(package).join(folder).join("libboards.a");
        println!("cargo:rerun-if-changed={}", archive.display());
        link_earlier(&archive);
    }
}
