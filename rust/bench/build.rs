//! Passes on whether the original was found.

use std::env;

fn main() {
    println!("cargo:rerun-if-changed=build.rs");
    println!("cargo:rustc-check-cfg=cfg(no_original)");
    if env::var("DEP_DUSTROUTE_FOUND").as_deref() != Ok("true") {
        println!("cargo:rustc-cfg=no_original");
    }
}
