//! Links libnuzsdike.a: the one that NUZSDIKE_LIB names, else the one that `tools/staticlib nuzsdike` writes.

use std::{env, path::PathBuf};

fn main() {
    println!("cargo:rerun-if-env-changed=NUZSDIKE_LIB");
    let default = || PathBuf::from(env::var("CARGO_MANIFEST_DIR").unwrap()).join("../target/staticlib/libnuzsdike.a");
    let archive = env::var_os("NUZSDIKE_LIB").map_or_else(default, PathBuf::from);
    println!("cargo:rerun-if-changed={}", archive.display());
    let Ok(archive) = archive.canonicalize() else {
        eprintln!("There is no {}: run `tools/staticlib nuzsdike` first, or set NUZSDIKE_LIB to the archive.", archive.display());
        std::process::exit(1);
    };
    if archive.file_name().is_none_or(|name| name != "libnuzsdike.a") {
        eprintln!("NUZSDIKE_LIB has to name a file called libnuzsdike.a, not {}.", archive.display());
        std::process::exit(1);
    }
    println!("cargo:rustc-link-search=native={}", archive.parent().unwrap().display());
    println!("cargo:rustc-link-lib=static=nuzsdike");
}
