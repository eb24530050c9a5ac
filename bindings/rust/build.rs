//! Finds the engine's static library in the repository and links it.

use std::path::Path;

fn main() {
    let package = std::env::var("CARGO_MANIFEST_DIR").expect("cargo names the package's folder");
    let root = Path::new(&package).join("../..");
    let folder = root.join("target/staticlib");
    let library = folder.join("libnoontrough.a");
    println!("cargo:rerun-if-changed={}", library.display());
    if !library.is_file() {
        eprintln!("The engine's static library is missing: {}", library.display());
        eprintln!("Build it first, in the repository's root: bindings/archive");
        std::process::exit(1);
    }
    println!("cargo:rustc-link-search=native={}", folder.display());
    println!("cargo:rustc-link-lib=static=noontrough");
}
