//! Links the libraries under test, each when its feature asks for it.

use std::env;
use std::path::Path;

fn main() {
    println!("cargo:rerun-if-env-changed=MAST_LIB_DIR");
    link("CARGO_FEATURE_LIBRARY", "mastclover");
    link("CARGO_FEATURE_RECORDS", "mastrecords");
}

fn link(feature: &str, name: &str) {
    if env::var_os(feature).is_none() {
        return;
    }
    // A relative directory counts from this project, whatever directory cargo was called in.
    let chosen = env::var("MAST_LIB_DIR").unwrap_or_else(|_| "../build".into());
    let project = env::var("CARGO_MANIFEST_DIR").expect("cargo names the project's directory");
    let directory = Path::new(&project).join(chosen);
    println!("cargo:rustc-link-search=native={}", directory.display());
    println!("cargo:rustc-link-lib=static={name}");
    println!("cargo:rerun-if-changed={}", directory.join(format!("lib{name}.a")).display());
}
