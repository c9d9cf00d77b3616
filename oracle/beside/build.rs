//! Where the library is that tools/staticlib has written.

use std::{env, path::Path};

fn main() {
    let here = env::var("CARGO_MANIFEST_DIR").unwrap();
    // a folder with the library, or, as host/ has it, the file libnuzsdike.a
    let given = env::var("NUZSDIKE_LIB").unwrap_or(format!("{here}/../../target/staticlib"));
    let dir = given.strip_suffix("/libnuzsdike.a").unwrap_or(&given);
    println!("cargo::rerun-if-env-changed=NUZSDIKE_LIB");
    println!("cargo::rustc-link-search=native={dir}");
    let library = Path::new(dir).join("libnuzsdike.a");
    if library.exists() {
        println!("cargo::rerun-if-changed={}", library.display());
    }
}
