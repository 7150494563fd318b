//! Links the proved functions, and passes on whether the original was found.

use std::path::Path;
use std::{env, process};

fn main() {
    println!("cargo:rustc-check-cfg=cfg(no_original)");
    if env::var("DEP_DUSTROUTE_FOUND").as_deref() != Ok("true") {
        println!("cargo:rustc-cfg=no_original");
    }
    let package = env::var_os("CARGO_MANIFEST_DIR").expect("cargo sets CARGO_MANIFEST_DIR");
    let folder = Path::new(&package).join("../../target/staticlib");
    let library = folder.join("libprobe.a");
    println!("cargo:rerun-if-changed=build.rs");
    println!("cargo:rerun-if-changed={}", library.display());
    if !library.is_file() {
        eprintln!(
            "The proved functions are not built: run `bin/staticlib probe` in the repository's root first."
        );
        process::exit(1);
    }
    println!("cargo:rustc-link-search=native={}", folder.display());
    println!("cargo:rustc-link-lib=static=probe");
}
